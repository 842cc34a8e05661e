/* Large cells for Admit: those of Judge, and such as touch a limit of the held form, on both sides: 99,999 bytes a record, 65,536 records with record 0,
   5,242,880 bytes in all. A cell of at most 5,242,880 bytes can pass the last only by a record 0 shorter than the held form's. */
#include "generate_admit.h"

#include <stdlib.h>

enum { LONGEST_HELD = 5242880, MOST_RECORDS = 65536, LONGEST_RECORD = 99999, HEADER = 3, LONG_TEXT = 20000 };

/* ---- parts */

static void put_pair(struct chart_record *record, uint32_t at)
{
    struct buffer *content = &add_field(record, "SG2D")->content;
    put_number(content, 4, 530000000 + at);
    put_number(content, 4, 80000000 + at);
}

static void put_node(struct chart *cell, uint32_t id)
{
    put_pair(put_vector(cell, 120, id), id);
}

/* A field of one attribute before the record's field `at`. */
static void put_attribute(struct chart_record *record, size_t at, const char *tag, size_t length)
{
    struct chart_field *field = insert_field(record, at, tag);
    put_number(&field->content, 2, 116);
    put_text(&field->content, "");
    lengthen_text(field, length);
}

/* Lengthens the text that the field ends with until the record has 99,999 bytes. From LONG_TEXT on no size gets another digit by that. */
static void fill_record(struct chart_record *record, size_t field)
{
    lengthen_text(&record->field[field], LONG_TEXT);
    lengthen_text(&record->field[field], LONGEST_RECORD - held_record_length(record));
}

static void put_ends(struct chart_record *record, uint32_t node)
{
    struct buffer *content = &add_field(record, "VRPT")->content;
    for (uint8_t topology = 1; topology <= 2; topology++) {
        put_number(content, 1, 120);
        put_number(content, 4, node);
        put_number(content, 2, 0xFFFF);
        put_number(content, 1, topology);
        put_number(content, 1, 0xFF);
    }
}

static void put_pairs(struct chart_record *record, size_t count)
{
    struct buffer *content = &add_field(record, "SG2D")->content;
    for (; count > 0; count--)
        put_number(content, 8, UINT64_C(0x0123456701234567));
}

/* The same edge again and again. */
static void put_line(struct chart_record *record, uint32_t edge, size_t count)
{
    struct buffer *content = &add_field(record, "FSPT")->content;
    for (; count > 0; count--) {
        put_number(content, 1, 130);
        put_number(content, 4, edge);
        put_number(content, 3, 0x01FF01);
    }
}

void describe_briefly(struct chart *cell, struct random *random)
{
    struct chart_record *zero = &cell->list.record[0];
    describe_chart(cell, true, random);
    zero->field[0].content.length = 0;
    for (size_t at = zero->count - 1; at > 1; at--)
        if (!chart_uses(cell, zero->field[at].tag))
            remove_field(zero, at);
}

/* ---- 65,536 records */

static struct chart make_records(size_t records, struct random *random)
{
    struct chart cell = bare_cell(random);
    while (cell.list.count < records)
        put_node(&cell, (uint32_t)(MOST_RECORDS + 10 - cell.list.count));
    return cell;
}

static struct chart make_features(size_t records, struct random *random)
{
    struct chart cell = bare_cell(random);
    while (cell.list.count < records)
        put_feature(&cell, (uint32_t)cell.list.count * 3, 255, 401, cell.list.count);
    return cell;
}

/* The one at the last place has a collection's class and isn't one: Shape is told before the limit. */
static struct chart make_unshaped(size_t records, struct random *random)
{
    enum { PRIM = 5 };
    struct chart cell = make_features(records, random);
    cell.list.record[records - 1].field[1].content.bytes[PRIM] = 1;
    return cell;
}

/* ---- 5,242,880 bytes */

/* Gives a node a text so long that the held form gets that many bytes. */
static void grow_held(const struct chart *cell, struct chart_record *node, size_t bytes)
{
    put_attribute(node, 2, "ATTV", LONG_TEXT);
    struct buffer held = held_of_chart(cell);
    lengthen_text(&node->field[2], bytes - held.length);
    buffer_free(&held);
}

static struct chart make_bytes(size_t bytes, struct random *random)
{
    struct chart cell = bare_cell(random);
    for (uint32_t id = 100; id > 48; id--) {
        struct buffer *content = &add_field(put_vector(&cell, 110, id), "SG3D")->content;
        for (uint32_t i = 0; i < 8300; i++) {
            put_number(content, 8, UINT64_C(0x0123456701234567));
            put_number(content, 4, i);
        }
    }
    struct chart_record *last = put_vector(&cell, 120, 1);
    put_pair(last, 1);
    grow_held(&cell, last, bytes);
    return cell;
}

/* One record too many, and one byte. */
static struct chart make_records_and_bytes(size_t records, struct random *random)
{
    enum { FILLED = 8 };
    struct chart cell = make_records(records, random);
    struct chart_record *record = &cell.list.record[HEADER];
    for (size_t i = 0; i < FILLED; i++) {
        put_attribute(&record[i], 2, "ATTV", 0);
        fill_record(&record[i], 2);
    }
    grow_held(&cell, &record[FILLED], LONGEST_HELD + 1);
    return cell;
}

/* ---- 99,999 bytes a record */

static struct chart make_long_header(size_t record, struct random *random)
{
    struct chart cell = bare_cell(random);
    fill_record(&cell.list.record[record], 1);
    return cell;
}

static struct chart make_long_vector(size_t unused, struct random *random)
{
    struct chart cell = bare_cell(random);
    (void)unused;
    put_node(&cell, 7);
    struct chart_record *record = &cell.list.record[HEADER];
    put_attribute(record, 2, "ATTV", 0);
    fill_record(record, 2);
    return cell;
}

/* An edge of attributes, pointers and pairs, from a node to itself. */
static struct chart make_long_edge(size_t unused, struct random *random)
{
    struct chart cell = bare_cell(random);
    (void)unused;
    put_node(&cell, 5);
    struct chart_record *record = put_vector(&cell, 130, 3);
    put_attribute(record, record->count, "ATTV", 0);
    put_ends(record, 5);
    put_pairs(record, 8000);
    fill_record(record, 2);
    return cell;
}

/* A line of all seven fields that a record can have; `grown` is the one that fills it. */
static struct chart make_long_feature(size_t grown, struct random *random)
{
    struct chart cell = make_long_edge(0, random);
    struct chart_record *record = put_feature(&cell, 9, 2, 42, 11);
    put_attribute(record, record->count, "ATTF", 0);
    put_attribute(record, record->count, "NATF", 0);
    struct buffer *relations = &add_field(record, "FFPT")->content;
    put_number(relations, 8, 11);
    put_number(relations, 1, 2);
    put_text(relations, "");
    put_line(record, 3, 3000);
    fill_record(record, grown);
    return cell;
}

/* ---- lists of as many fields as entries: joined, they need the most digits more */

static void put_labels(struct chart_record *record, const char *tag, size_t count)
{
    struct buffer *content = &add_field(record, tag)->content;
    for (size_t i = 0; i < count; i++) {
        put_number(content, 2, i);
        put_text(content, "");
    }
}

static struct chart make_labels(size_t count, struct random *random)
{
    struct chart cell = bare_cell(random);
    put_labels(put_feature(&cell, 1, 255, 400, 1), "ATTF", count);
    return cell;
}

static struct chart make_node_labels(size_t count, struct random *random)
{
    struct chart cell = bare_cell(random);
    struct chart_record *record = put_vector(&cell, 110, 1);
    put_labels(record, "ATTV", count);
    put_pair(record, 1);
    return cell;
}

static struct chart make_edge(size_t pairs, struct random *random)
{
    struct chart cell = bare_cell(random);
    put_node(&cell, 5);
    struct chart_record *record = put_vector(&cell, 130, 3);
    put_ends(record, 5);
    put_pairs(record, pairs);
    return cell;
}

static struct chart make_line(size_t edges, struct random *random)
{
    struct chart cell = make_edge(1, random);
    put_line(put_feature(&cell, 9, 2, 42, 11), 3, edges);
    return cell;
}

/* The entries of a list of the last record, all as long as the first, get a field of their own. */
static void split_entries(struct chart *cell, const char *tag)
{
    struct chart_record *record = &cell->list.record[cell->list.count - 1];
    size_t first = find_field(record, tag), size = entry_place(&record->field[first], 0).length;
    size_t entries = record->field[first].content.length / size;
    for (size_t i = 1; i < entries; i++) {
        struct chart_field *field = insert_field(record, first + i, tag);
        buffer_put(&field->content, record->field[first].content.bytes + i * size, size);
    }
    record->field[first].content.length = size;
}

/* ---- the table */

static const struct limit {
    const char *name;
    struct chart (*make)(size_t size, struct random *random);
    size_t size;
    uint32_t code;
    size_t padded;     /* the cell's length; 0 for any */
    const char *apart; /* a list of the last record whose entries stand apart in the cell, or null */
} limits[] = {
    {"65,536 records", make_records, MOST_RECORDS, CODE_DONE, 0, NULL},
    {"65,537 records", make_records, MOST_RECORDS + 1, CODE_SIZE, 0, NULL},
    {"65,536 records, features", make_features, MOST_RECORDS, CODE_DONE, 0, NULL},
    {"65,537 records, features", make_features, MOST_RECORDS + 1, CODE_SIZE, 0, NULL},
    {"65,537 records, the last unshaped", make_unshaped, MOST_RECORDS + 1, CODE_SHAPE, 0, NULL},
    {"held form of 5,242,880 bytes, shorter cell", make_bytes, LONGEST_HELD, CODE_DONE, 0, NULL},
    {"held form of 5,242,881 bytes, shorter cell", make_bytes, LONGEST_HELD + 1, CODE_SIZE, 0, NULL},
    {"held form of 5,242,880 bytes, cell of 5,242,879", make_bytes, LONGEST_HELD, CODE_DONE, LONGEST_HELD - 1, NULL},
    {"held form of 5,242,880 bytes, cell of 5,242,880", make_bytes, LONGEST_HELD, CODE_DONE, LONGEST_HELD, NULL},
    {"held form of 5,242,881 bytes, cell of 5,242,880", make_bytes, LONGEST_HELD + 1, CODE_SIZE, LONGEST_HELD, NULL},
    {"held form of 5,242,880 bytes, cell of 5,242,881", make_bytes, LONGEST_HELD, CODE_LONG, LONGEST_HELD + 1, NULL},
    {"65,537 records, held form of 5,242,881 bytes", make_records_and_bytes, MOST_RECORDS + 1, CODE_SIZE, 0, NULL},
    {"DSID record of 99,999 bytes", make_long_header, 1, CODE_DONE, 0, NULL},
    {"DSPM record of 99,999 bytes", make_long_header, 2, CODE_DONE, 0, NULL},
    {"node record of 99,999 bytes", make_long_vector, 0, CODE_DONE, 0, NULL},
    {"edge record of 99,999 bytes", make_long_edge, 0, CODE_DONE, 0, NULL},
    {"feature record of 99,999 bytes, by ATTF", make_long_feature, 3, CODE_DONE, 0, NULL},
    {"feature record of 99,999 bytes, by NATF", make_long_feature, 4, CODE_DONE, 0, NULL},
    {"feature record of 99,999 bytes, by FFPT", make_long_feature, 5, CODE_DONE, 0, NULL},
    {"6,000 attributes in 6,000 fields", make_labels, 6000, CODE_DONE, 0, "ATTF"},
    {"7,000 attributes of a node in 7,000 fields", make_node_labels, 7000, CODE_DONE, 0, "ATTV"},
    {"4,900 pairs in 4,900 fields", make_edge, 4900, CODE_DONE, 0, "SG2D"},
    {"2 pairs in 2 fields", make_edge, 2, CODE_DONE, 0, "SG2D"},
    {"2 pointers in 2 fields", make_edge, 1, CODE_DONE, 0, "VRPT"},
    {"4,900 edges of a line in 4,900 fields", make_line, 4900, CODE_DONE, 0, "FSPT"},
};

static struct answer verdict_of(uint32_t code, size_t records)
{
    return (struct answer){
        .code = code, .file = code == CODE_SIZE ? 3 : 1, .record = code == CODE_SHAPE ? (uint32_t)records - 1 : 0};
}

static struct admit_case make_limit(const struct limit *limit)
{
    struct random random = {limit->size + 1};
    struct admit_case made = {.kind = limit->name, .known = true};
    struct chart cell = limit->make(limit->size, &random);
    struct draft draft = {0};
    if (limit->code == CODE_DONE)
        made.held = held_of_chart(&cell);
    else
        made.verdict = verdict_of(limit->code, cell.list.count);
    if (limit->apart != NULL)
        split_entries(&cell, limit->apart);
    describe_briefly(&cell, &random);
    write_large(&cell, limit->padded, &draft, &random);
    made.records = draft.count;
    made.cell = draft.file;
    free(draft.records);
    chart_free(&cell);
    return made;
}

/* ---- with the cells of Judge before them */

size_t large_admits(void)
{
    return heavy_cells() + sizeof limits / sizeof limits[0];
}

const char *large_admit_name(size_t index)
{
    return index < heavy_cells() ? heavy_cell_name(index) : limits[index - heavy_cells()].name;
}

struct admit_case large_admit_make(size_t index)
{
    if (index >= heavy_cells())
        return make_limit(&limits[index - heavy_cells()]);
    struct judge_case judged = heavy_cell_make(index);
    return as_admit(&judged);
}
