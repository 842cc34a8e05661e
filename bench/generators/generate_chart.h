/* Cells and updates as structures: records of fields of subfields, before they are bytes. A scene makes a believable one, a fault breaks one
   rule in it and knows what a right reader must say of that, and a writer makes a file of it in one of many legal ways. */
#ifndef BENCH_GENERATE_CHART_H
#define BENCH_GENERATE_CHART_H

#include "generate.h"

/* ---- the structure */

/* Tags are written as text here: "DSID". */
struct chart_field {
    char tag[4];
    struct buffer content; /* without the closing 1E */
};

struct chart_record {
    struct chart_field *field;
    size_t count, room;
};

struct record_list {
    struct chart_record *record;
    size_t count, room;
};

struct chart {
    bool update;
    struct record_list list; /* record 0 first */
};

struct chart_record *add_record(struct record_list *list);
struct chart_record *insert_record(struct record_list *list, size_t at);
void remove_record(struct record_list *list, size_t at);
struct chart_record copy_record(const struct chart_record *record);
void chart_free(struct chart *chart);

/* A field at the end, or at `at`; its content is empty. The pointer holds until the record's next change. */
struct chart_field *add_field(struct chart_record *record, const char *tag);
struct chart_field *insert_field(struct chart_record *record, size_t at, const char *tag);
void remove_field(struct chart_record *record, size_t at);

bool has_tag(const struct chart_field *field, const char *tag);
/* The first field of that tag, or record->count. */
size_t find_field(const struct chart_record *record, const char *tag);

void put_number(struct buffer *content, unsigned width, uint64_t number); /* low byte first */
void put_text(struct buffer *content, const char *text);                  /* and its 1F */
uint64_t get_number(const uint8_t *at, unsigned width);
void set_number(uint8_t *at, unsigned width, uint64_t number);

/* ---- the table of tags, as the generator writes it down: a label and a format for each subfield */

enum { MOST_SUBFIELDS = 16, TAGS = 19 };

struct subfield {
    const char *label, *format;
};

struct tag_row {
    const char *tag, *controls, *name;
    bool repeats;
    size_t count;
    struct subfield subfield[MOST_SUBFIELDS];
};

extern const struct tag_row tag_rows[TAGS]; /* 0001 first, then in the order of document 01 */

const struct tag_row *row_of_tag(const char *tag); /* null where the table has no such four bytes */
unsigned format_width(const char *format); /* bytes; 0 for a text up to its 1F */

/* Where a subfield stands in its field's content; the length of a text is without its 1F. */
struct place {
    size_t start, length;
};

size_t count_entries(const struct chart_field *field); /* groups of subfields */
struct place entry_place(const struct chart_field *field, size_t entry);
struct place subfield_place(const struct chart_field *field, size_t entry, const char *label);
void replace_bytes(struct buffer *content, struct place place, const void *bytes, size_t count);

/* ---- record 0 */

/* Writes record 0 anew: 0000, 0001 and those tags that the chart uses, further ones by chance; in any order, with any names, formats
   written in any legal way. `plain`: all tags of the table that the file's kind may use, as document 000 writes them. */
void describe_chart(struct chart *chart, bool plain, struct random *random);
bool chart_uses(const struct chart *chart, const char *tag);

/* The format list of a row: as document 01 writes it, or another that is written out to the same. */
void put_formats_text(struct buffer *text, const struct tag_row *row, bool plain, struct random *random);

/* ---- believable cells and updates */

struct scene_style {
    uint32_t isolated, soundings, connected, edges; /* besides those that lines and areas need */
    uint32_t points, lines, areas, collections;
    uint32_t longest_ring, most_holes, most_coordinates, most_attributes, most_relations;
    bool shuffled; /* vectors in any order, and features */
    bool plain;    /* ids, levels and texts as they usually are */
};

struct scene_style scene_style_of(struct random *random);
struct scene_style larger_style_of(struct random *random); /* lists of two and three digits, and places too */
struct chart make_cell(const struct scene_style *style, struct random *random);

/* An update that names records of the cell and new ones. It reads well; whether it fits the cell is not its matter. */
struct chart make_update(const struct chart *cell, struct random *random);

/* Splits lists into repeated fields here and there. */
void split_lists(struct chart *chart, struct random *random);

/* Counts the records into DSSI. */
void count_records(struct chart *chart);

/* ---- writing */

/* What document 01 leaves free in the leader of record 0, as files usually have it. */
void dress_leader(uint8_t *leader);

/* Of `style` only the digits and `plain` matter. */
void write_chart(const struct chart *chart, const struct style *style, struct draft *draft, struct random *random);

/* ---- faults */

enum spot {
    AT_RECORD,     /* the record's first byte */
    AT_BYTE,       /* a byte of a field's content */
    AT_RECORD_END,
    AT_FILE_END,
};

struct fault {
    uint32_t code;
    size_t record;
    enum spot spot;
    size_t field, byte;
};

/* Breaks its rule in the chart, which was good, and says what is wrong then; false where this chart has nothing to break it in. */
typedef bool breaker(struct chart *chart, size_t way, struct random *random, struct fault *fault);

/* `way` goes through the ways of one function that serves several rules. */
struct chart_rule {
    const char *name;
    breaker *apply;
    size_t way;
    enum { IN_CELL = 1, IN_UPDATE = 2, IN_BOTH = 3 } scope;
};

struct rule_set {
    const struct chart_rule *rule;
    size_t count;
};

extern const struct rule_set describe_faults, layout_faults, value_faults, name_faults;

size_t fault_offset(const struct fault *fault, const struct chart *chart, const struct draft *draft);

/* A field of that tag in any record after 0: a random one of all. */
bool pick_field(const struct chart *chart, const char *tag, struct random *random, size_t *record, size_t *field);

#endif
