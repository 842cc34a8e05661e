/* A cell, an update of it, and the chart that must come of it, as structures. The maker never works an update in: going back, it knows the result first and
   takes it apart into a cell and what the update must say; going forth, it changes its own chart and writes down what it did. So what it expects of Apply is
   found in another way than Apply finds it. */
#ifndef BENCH_GENERATE_PAIR_H
#define BENCH_GENERATE_PAIR_H

#include "generate_admit.h"

/* Each list is one field in all three. Of an update that is to be refused the result is empty. */
struct chart_pair {
    struct chart cell, update, result;
};

void pair_free(struct chart_pair *pair);
struct chart copy_chart(const struct chart *chart);

/* ---- records */

enum { INSERT = 1, DELETE = 2, MODIFY = 3, REMOVED = 0x7F, FIRST_CELL_ITEM = 3, FIRST_UPDATE_ITEM = 2 };

bool is_vector(const struct chart_record *record);
const uint8_t *name_of_record(const struct chart_record *record); /* 5 bytes: RCNM, RCID */
uint64_t version_of_record(const struct chart_record *record);
void set_version(struct chart_record *record, uint64_t version);
uint8_t *instruction_of(const struct chart_record *record); /* RUIN */

/* The record of that name, or null; `from` is the first that can have one. */
struct chart_record *find_item(const struct chart *chart, size_t from, const uint8_t *name);

/* An id that no record of that class has in any of the three. */
uint32_t free_id(const struct chart_pair *pair, uint8_t class, struct random *random);

/* A record of an update with the identifier fields of an item and that version. */
struct chart_record *say_change(struct chart *update, const struct chart_record *item, uint64_t version, uint8_t instruction, struct random *random);

/* Vectors before features, and each of the two in any order. */
void arrange(struct chart *chart, struct random *random);

/* ---- lists. Entries are counted from 1. A list that is emptied loses its field, and one that gets its first entries gets one in its place. */

struct control {
    uint32_t instruction, index, count;
};

/* The lists that a control acts on, and the control's tag; of coordinates SG2D. */
extern const struct controlled {
    const char *tag, *control;
    bool vector;
} controlled_lists[4];

/* Where a field of that tag stands in the record, or would. */
size_t place_of_tag(const struct chart_record *record, const char *tag);

/* The kind of coordinates that a record has; SG2D where it has none. */
const char *coordinates_of(const struct chart_record *record);

/* Fields of one tag that stand side by side become one. */
void join_lists(struct chart *chart);

size_t list_length(const struct chart_record *record, const char *tag);
void remove_entries(struct chart_record *record, const char *tag, size_t index, size_t count);
void insert_entries(struct chart_record *record, const char *tag, size_t index, const struct buffer *entries);
void put_control(struct chart_record *record, const char *tag, struct control control);

/* Says an edit at the end of an update's record: the control, and the entries that it brings, which stand in the list as it is after the edit. */
void say_edit(struct chart_record *said, const char *control_tag, const char *tag, struct control control, const struct chart_record *after);

/* Entries of that list that mean nothing, but that a reader takes. */
void put_odd_entries(struct buffer *entries, const char *tag, size_t count, struct random *random);

/* ---- the header */

struct numbering {
    uint32_t edition, number; /* those of the update */
    char date[9];             /* its ISDT */
};

struct numbering any_numbering(struct random *random);

/* Records 0 and 1 of an update of this cell. */
struct chart start_update(const struct chart *cell, const struct numbering *numbering, struct random *random);

/* Gives a chart the numbers and dates that it has after the update, or such as it may have before it. */
void number_after(struct chart *chart, const struct numbering *numbering);
void number_before(struct chart *chart, const struct numbering *numbering, struct random *random);

/* ---- pairs */

/* Takes the result over and finds a cell and an update that lead to it: records of the result are kept, inserted or modified in any way that fits, others
   are deleted. Those in `gone` are in the cell, and the update deletes them. What the cell's own pointers say doesn't matter, and is often wrong. */
struct chart_pair pair_back(struct chart *result, const struct record_list *gone, struct random *random);

/* ---- updates of a chart whose topology stays right */

struct step_style {
    uint32_t actions; /* how many changes, most of them of one record */
    bool plain;       /* only what other readers can do too: bench/tests/gdal.sh */
};

/* The next update of a chart, whose records it changes. */
struct chart next_update(struct chart *model, const struct step_style *style, struct random *random);

/* ---- faults of updates */

/* Breaks its rule in a good pair, and says what Apply must answer then; false where this pair has nothing to break it in. */
struct pair_rule {
    const char *name;
    bool (*apply)(struct chart_pair *pair, size_t way, struct random *random, struct fault *fault);
    size_t way;
};

extern const struct pair_rule update_faults[];
size_t update_fault_count(void);

#endif
