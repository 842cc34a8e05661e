/* What the parts of the reader that read whole files share: the table of tags, the state of one file's reading, and the stages. */
#ifndef BENCH_READER_PARTS_H
#define BENCH_READER_PARTS_H

#include "../shared/buffer.h"
#include "reader.h"

enum { UNIT_END = 0x1F, FIELD_END = 0x1E, MOST_RUNS = 10, HEADS = 8 };

/* ---- the table of document 01, section "Framing" */

#define FOUR(a, b, c, d) ((uint32_t)(a) << 24 | (uint32_t)(b) << 16 | (uint32_t)(c) << 8 | (uint32_t)(d))

#define TAG_0000 FOUR('0', '0', '0', '0')
#define TAG_0001 FOUR('0', '0', '0', '1')
#define TAG_DSID FOUR('D', 'S', 'I', 'D')
#define TAG_DSSI FOUR('D', 'S', 'S', 'I')
#define TAG_DSPM FOUR('D', 'S', 'P', 'M')
#define TAG_VRID FOUR('V', 'R', 'I', 'D')
#define TAG_ATTV FOUR('A', 'T', 'T', 'V')
#define TAG_VRPC FOUR('V', 'R', 'P', 'C')
#define TAG_VRPT FOUR('V', 'R', 'P', 'T')
#define TAG_SGCC FOUR('S', 'G', 'C', 'C')
#define TAG_SG2D FOUR('S', 'G', '2', 'D')
#define TAG_SG3D FOUR('S', 'G', '3', 'D')
#define TAG_FRID FOUR('F', 'R', 'I', 'D')
#define TAG_FOID FOUR('F', 'O', 'I', 'D')
#define TAG_ATTF FOUR('A', 'T', 'T', 'F')
#define TAG_NATF FOUR('N', 'A', 'T', 'F')
#define TAG_FFPC FOUR('F', 'F', 'P', 'C')
#define TAG_FFPT FOUR('F', 'F', 'P', 'T')
#define TAG_FSPC FOUR('F', 'S', 'P', 'C')
#define TAG_FSPT FOUR('F', 'S', 'P', 'T')

enum kind {
    KIND_0001, KIND_DSID, KIND_DSSI, KIND_DSPM, KIND_VRID, KIND_ATTV, KIND_VRPC, KIND_VRPT, KIND_SGCC, KIND_SG2D, KIND_SG3D,
    KIND_FRID, KIND_FOID, KIND_ATTF, KIND_NATF, KIND_FFPC, KIND_FFPT, KIND_FSPC, KIND_FSPT, KINDS
};

/* A run is so many fixed bytes, or a text up to its 1F. */
enum { RUNS_END = -1, RUN_TEXT = 0 };

struct description {
    uint32_t tag;
    bool repeats;            /* a list field: one group or more */
    int8_t runs[MOST_RUNS];  /* the subfields of a group, neighbours of fixed size joined */
    const char *labels;
    uint32_t primitives;
    uint32_t formats[16];    /* as reader_formats writes them out */
};

extern const struct description table[KINDS];

/* ---- one file being read */

struct reading {
    const uint8_t *bytes;
    size_t length;
    bool update;
    size_t records;

    uint32_t declared;       /* a bit for each kind that record 0 declares */
    bool features;           /* whether a feature record was met */
    bool high_attributes, high_national; /* AALL and NALL are 1: bytes A0 to FF too */
    uint32_t comf;
    uint32_t said[HEADS];    /* DSSI's counts */
    uint32_t counted[HEADS]; /* the same eight, of the records met */

    struct field *fields;    /* of the record at hand */
    size_t field_count;
    const uint8_t *from;     /* what their places count from, once load_record or load_item has made the record the one at hand */
    uint32_t *met, list;     /* for each ATTL the number of the list that it was last met in; that of the list at hand */
    uint64_t *names;         /* a word a vector or feature: see reader_names.c */
    size_t name_count;

    const struct result *result; /* null for a file; else this is the chart that an update made, and `bytes` are the cell's */
};

/* What an update made of a cell, beside its names in held order. */
struct result {
    const uint8_t *update;
    const uint8_t *identification; /* the update's DSID */
    struct source *sources;        /* of each vector and feature, in held order */
    struct changed *changed;
    size_t changed_count;
    struct field *fields;          /* those of the changed ones, one after the other; their places count from `contents` */
    size_t field_count, field_room;
    struct buffer contents;        /* a list is one field here */
};

/* Where a vector or feature of a result stands: its record's place in the cell or in the update, or its number among the changed. */
struct source {
    enum { OF_CELL, OF_UPDATE, OF_BOTH } file;
    size_t at;
};

struct changed {
    size_t first, count; /* its fields in those of the result */
};

static const size_t FINE = SIZE_MAX; /* what a stage returns that finds no fault; else the fault's offset in the file */

static inline uint32_t number_at(const uint8_t *at, unsigned width)
{
    uint32_t number = 0;
    for (unsigned i = 0; i < width; i++)
        number |= (uint32_t)at[i] << 8 * i;
    return number;
}

/* Whether record 0 keeps its rule. Sets `declared`. */
bool describe(struct reading *reading);

/* "Records": the fields of record `index`, which it leaves in `fields`. */
size_t layout_fault(struct reading *reading, const struct record *record, size_t index);

/* "Values": of the record that layout_fault found in order. Takes AALL, NALL, COMF and DSSI's counts along. */
size_t value_fault(struct reading *reading);

/* A name as a word without a record's place, and a word with one: words are in held order as numbers. */
uint64_t name_word(const uint8_t *identifier, size_t start);

/* Which of DSSI's eight counts a record adds to: NOMR, NOCR, NOGR, NOLR, NOIN, NOCN, NOED, NOFA. */
unsigned head_of(const uint8_t *identifier);

/* Notes the name of the record at hand, and counts it by class. */
void note_record(struct reading *reading, size_t start);

void sort_words(uint64_t *word, size_t count);

/* Where the record of a name word begins. */
size_t record_of(uint64_t word);

/* Of sorted names: where in them the name of this class and id stands, or FINE where no record has it. */
size_t find_name(const struct reading *reading, uint8_t class, uint32_t id);

/* Sorts the names into held order. Returns where the first record stands whose name was met before, or FINE. */
size_t sort_names(struct reading *reading);

bool counts_agree(const struct reading *reading);

/* Codes 1 to 8 on a cell and, unless it is null, an update. What they hold is given back by reading_close. */
struct answer read_files(struct reading *cell, struct reading *update, size_t work_length);
void reading_close(struct reading *reading);

/* ---- records of a chart, whose files read_files found good */

void load_record(struct reading *reading, const uint8_t *from, size_t start);

/* The vector or feature at `index` of the held order. */
void load_item(struct reading *chart, size_t index);

/* Its FOID, if it is a feature. */
const uint8_t *object_of(const struct reading *chart, size_t index);

/* Field `index` of a file's record 1: 1 is DSID, 2 is DSSI. */
const uint8_t *header_field(const struct reading *reading, size_t index);

/* Behind so many groups of subfields from `at` on. */
const uint8_t *skip_groups(const uint8_t *at, const int8_t *runs, size_t count);
size_t count_groups(const uint8_t *at, const uint8_t *end, const int8_t *runs);

/* ---- the stages behind reading */

/* Codes 17 to 19. */
struct answer judge_topology(struct reading *chart);

/* Codes 20 and 21; where they don't come, the held form is written. */
struct answer hold(struct reading *chart, uint8_t *out, size_t out_length);

/* What edits need beside the result that they add to. */
struct editing {
    struct result *result;
    struct noted *noted;   /* for each ATTL where the update's list at hand has it */
    uint32_t list;         /* the number of that list */
    struct buffer brought; /* the entries that it brings, joined */
};

void editing_open(struct editing *editing, struct result *result);
void editing_close(struct editing *editing);

/* Whether the insert, or the delete, at hand keeps to its rule (16). */
bool insert_allowed(const struct reading *update);
bool delete_allowed(const struct reading *update);

/* Adds what the modify at hand in the update makes of the record at hand in the cell. False where a rule of edits is broken (16). */
bool edit_record(struct editing *editing, const struct reading *cell, const struct reading *update);

/* ---- records written */

/* No record has more fields when it is written: record 0 has them. */
enum { MOST_WRITTEN = 16 };

/* What a record's leader and directory say: its fields in order, each with its closing 1E, and then the sizes. */
struct outline {
    size_t fields;
    uint32_t tag[MOST_WRITTEN];
    size_t length[MOST_WRITTEN];
    unsigned length_digits, position_digits; /* the fewest that do */
    size_t base, size;                       /* the base address, the record's length */
};

void outline_add(struct outline *outline, uint32_t tag, size_t length);

/* Works the sizes out, once all fields are there. */
void outline_close(struct outline *outline);

/* Writes leader and directory, and returns where the fields go. `middle` are the seven bytes behind the length, `last` the three behind the base
   address. */
uint8_t *outline_put(const struct outline *outline, const char *middle, const char *last, uint8_t *to);

/* Writes record 0 of the held form, which has less than FIRST_ROOM bytes, and returns its length. */
enum { FIRST_ROOM = 2048 };
size_t first_record(uint8_t *to);

#endif
