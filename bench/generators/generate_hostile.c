/* Cells and updates of up to 5 MB: an ordinary one, hostile ones that put as much of some kind of work into their bytes as the rules allow, and
   files at the limits. */
#include "generate_read.h"

#include <stdlib.h>
#include <string.h>

enum { LARGEST_FILE = 5242880, MANY = 65535, MOST_LABELS = 33000, MOST_FIELDS = 6000 };

/* ---- parts */

struct chart bare_cell(struct random *random)
{
    struct scene_style style = {.plain = true};
    return make_cell(&style, random);
}

static struct chart bare_update(struct random *random)
{
    struct chart cell = bare_cell(random), update = make_update(&cell, random);
    chart_free(&cell);
    return update;
}

static struct chart_record *put_record_name(struct chart *chart)
{
    struct chart_record *record = add_record(&chart->list);
    put_number(&add_field(record, "0001")->content, 2, (chart->list.count - 1) & 0xFFFF);
    return record;
}

struct chart_record *put_vector(struct chart *chart, uint8_t class, uint32_t id)
{
    struct chart_record *record = put_record_name(chart);
    struct buffer *identifier = &add_field(record, "VRID")->content;
    put_number(identifier, 1, class);
    put_number(identifier, 4, id);
    put_number(identifier, 2, 1);
    put_number(identifier, 1, 1);
    return record;
}

struct chart_record *put_feature(struct chart *chart, uint32_t id, uint8_t primitive, uint16_t object, uint64_t foid)
{
    struct chart_record *record = put_record_name(chart);
    struct buffer *identifier = &add_field(record, "FRID")->content;
    put_number(identifier, 1, 100);
    put_number(identifier, 4, id);
    put_number(identifier, 1, primitive);
    put_number(identifier, 1, 2);
    put_number(identifier, 2, object);
    put_number(identifier, 2, 1);
    put_number(identifier, 1, 1);
    put_number(&add_field(record, "FOID")->content, 8, foid);
    return record;
}

static struct chart_record *put_tiny_feature(struct chart *chart, uint32_t id)
{
    return put_feature(chart, id, 1, 42, UINT64_C(0x0001000000020226));
}

/* `count` attributes with empty values, labels scattered: 7,919 and 65,536 have no common factor. */
static void put_labels(struct chart_record *record, uint32_t count, bool apart)
{
    for (uint32_t i = 0; i < count; i++) {
        struct chart_field *field = i > 0 && !apart ? &record->field[record->count - 1] : add_field(record, "ATTF");
        put_number(&field->content, 2, i * 7919 & 0xFFFF);
        put_text(&field->content, "");
    }
}

/* ---- whole charts */

struct chart make_ordinary(struct random *random)
{
    struct scene_style style = {
        .isolated = 2500, .soundings = 250, .connected = 5000, .edges = 600, .points = 3000, .lines = 1100, .areas = 1500, .collections = 100,
        .longest_ring = 8, .most_holes = 1, .most_coordinates = 27, .most_attributes = 11, .most_relations = 4, .plain = true};
    return make_cell(&style, random);
}

static struct chart make_many_fields(struct random *random)
{
    struct chart chart = bare_cell(random);
    for (uint32_t id = 1; id <= 57; id++)
        put_labels(put_tiny_feature(&chart, id), MOST_FIELDS, true);
    return chart;
}

static struct chart make_many_labels(struct random *random)
{
    struct chart chart = bare_cell(random);
    for (uint32_t id = 1; id <= 52; id++)
        put_labels(put_tiny_feature(&chart, id), MOST_LABELS, false);
    return chart;
}

static struct chart make_descending(struct random *random)
{
    struct chart chart = bare_cell(random);
    for (uint32_t i = 0; i < MANY; i++)
        put_vector(&chart, 110, UINT32_C(4294967294) - i);
    return chart;
}

static struct chart make_scattered(struct random *random)
{
    struct chart chart = bare_cell(random);
    for (uint32_t i = 0; i < MANY; i++)
        put_vector(&chart, (uint8_t)(110 + 10 * random_below(random, 3)), (uint32_t)((i * UINT64_C(2654435761)) % UINT64_C(4294967294)) + 1);
    return chart;
}

/* No file has more records that pass Layout: 49 bytes each. */
static struct chart make_most_records(struct random *random)
{
    struct chart chart = bare_cell(random);
    for (uint32_t i = 0; i < 106900; i++)
        put_vector(&chart, 130, 200000 - i);
    return chart;
}

static struct chart make_one_object(struct random *random)
{
    struct chart chart = bare_cell(random);
    for (uint32_t i = 0; i < 70700; i++)
        put_tiny_feature(&chart, 200000 - i);
    return chart;
}

/* No file has more records that are well framed: 32 bytes each. None of them has a layout. */
static struct chart make_most_framed(struct random *random)
{
    struct chart chart = {0};
    add_record(&chart.list);
    describe_chart(&chart, true, random);
    for (uint32_t i = 0; i < 160000; i++)
        add_field(add_record(&chart.list), "0001");
    return chart;
}

static struct chart make_label_again(struct random *random)
{
    struct chart chart = make_many_labels(random);
    struct buffer *content = &chart.list.record[chart.list.count - 1].field[3].content;
    memcpy(content->bytes + content->length - 3, content->bytes, 2);
    return chart;
}

static struct chart make_one_name(struct random *random)
{
    struct chart chart = bare_cell(random);
    for (uint32_t i = 0; i < MANY; i++)
        put_vector(&chart, 120, 7);
    return chart;
}

static struct chart make_name_again(struct random *random)
{
    struct chart chart = make_descending(random);
    put_vector(&chart, 110, UINT32_C(4294967294));
    return chart;
}

static struct chart make_descending_update(struct random *random)
{
    struct chart chart = bare_update(random);
    for (uint32_t i = 0; i < MANY; i++)
        put_vector(&chart, 130, MANY - i);
    return chart;
}

static struct chart make_most_updated(struct random *random)
{
    struct chart chart = bare_update(random);
    for (uint32_t i = 0; i < 106900; i++)
        put_vector(&chart, 130, 1 + i);
    return chart;
}

static struct chart make_labels_update(struct random *random)
{
    struct chart chart = bare_update(random);
    for (uint32_t id = 1; id <= 20; id++)
        put_labels(put_tiny_feature(&chart, id), MOST_LABELS, false);
    return chart;
}

/* ---- the table */

static const struct large {
    const char *name;
    struct chart (*make)(struct random *random);
    uint32_t code;
    int32_t record; /* -1 is the last */
    enum spot spot;
    size_t field, byte;
    size_t padded; /* the file's length; 0 for any */
} larges[] = {
    {"ordinary: 28,000 records", make_ordinary, 0, 0, AT_RECORD, 0, 0, 0},
    {"6,000 fields a record", make_many_fields, 0, 0, AT_RECORD, 0, 0, 0},
    {"33,000 attributes a list", make_many_labels, 0, 0, AT_RECORD, 0, 0, 0},
    {"65,535 nodes, RCID descending", make_descending, 0, 0, AT_RECORD, 0, 0, 0},
    {"65,535 vectors in any order", make_scattered, 0, 0, AT_RECORD, 0, 0, 0},
    {"106,900 edges, RCID descending", make_most_records, 0, 0, AT_RECORD, 0, 0, 0},
    {"70,700 features of one FOID, descending", make_one_object, 0, 0, AT_RECORD, 0, 0, 0},
    {"exactly 5,242,880 bytes", make_one_object, 0, 0, AT_RECORD, 0, 0, LARGEST_FILE},
    {"5,242,881 bytes", make_one_object, CODE_LONG, 0, AT_RECORD, 0, 0, LARGEST_FILE + 1},
    {"160,000 records of 32 bytes", make_most_framed, CODE_LAYOUT, 1, AT_BYTE, 0, 0, 0},
    {"33,000 attributes, the last label again", make_label_again, CODE_VALUE, -1, AT_BYTE, 3, 3 * (MOST_LABELS - 1), 0},
    {"65,535 nodes of one name", make_one_name, CODE_TWICE, 4, AT_RECORD, 0, 0, 0},
    {"65,536 nodes, the first name again at the end", make_name_again, CODE_TWICE, -1, AT_RECORD, 0, 0, 0},
    {"an update of 65,535 edges, descending", make_descending_update, 0, 0, AT_RECORD, 0, 0, 0},
    {"an update with 33,000 attributes a list", make_labels_update, 0, 0, AT_RECORD, 0, 0, 0},
    {"an update of 5,242,881 bytes", make_most_updated, CODE_LONG, 0, AT_RECORD, 0, 0, LARGEST_FILE + 1},
};

size_t large_cells(void)
{
    return sizeof larges / sizeof larges[0];
}

const char *large_cell_name(size_t index)
{
    return larges[index].name;
}

/* Where the length is given, record 0 has nine-digit sizes, so that none of them grows along. */
void write_large(struct chart *chart, size_t padded, struct draft *draft, struct random *random)
{
    struct style plain = {.least_digits = 1, .plain = true}, wide = {.least_digits = 9, .plain = true};
    if (chart->list.record[0].count == 0)
        describe_chart(chart, true, random);
    if (!chart->update && chart->list.record[1].count == 3)
        count_records(chart);
    struct chart zero = {.list = {.record = chart->list.record, .count = 1}};
    struct chart rest = {.list = {.record = chart->list.record + 1, .count = chart->list.count - 1}};
    write_chart(&zero, padded > 0 ? &wide : &plain, draft, random);
    write_chart(&rest, &plain, draft, random);
    if (padded == 0 || draft->file.length == padded)
        return;
    size_t missing = padded - draft->file.length;
    memset(buffer_more(&chart->list.record[0].field[0].content, missing), 'x', missing);
    draft_free(draft);
    write_large(chart, padded, draft, random);
}

static struct answer verdict_of(const struct large *large, const struct chart *chart, const struct draft *draft)
{
    size_t record = large->record < 0 ? chart->list.count - 1 : (size_t)large->record;
    struct fault fault = {.code = large->code, .record = record, .spot = large->spot, .field = large->field, .byte = large->byte};
    if (large->code == CODE_DONE)
        return (struct answer){0};
    return (struct answer){.code = large->code, .file = chart->update ? 2 : 1, .record = (uint32_t)record,
                           .offset = (uint32_t)fault_offset(&fault, chart, draft)};
}

struct read_case large_cell_make(size_t index)
{
    const struct large *large = &larges[index];
    struct random random = {index + 1};
    struct read_case made = {.kind = large->name, .known = true};
    struct chart chart = large->make(&random);
    struct draft draft = {0};
    write_large(&chart, large->padded, &draft, &random);
    made.verdict = verdict_of(large, &chart, &draft);
    made.records = draft.count;
    made.both = chart.update;
    if (made.both) {
        struct chart cell = bare_cell(&random);
        describe_chart(&cell, true, &random);
        made.update = draft.file;
        made.cell = write_file(&cell, true, &random, &made.records);
        chart_free(&cell);
    } else {
        made.cell = draft.file;
    }
    free(draft.records);
    chart_free(&chart);
    return made;
}
