/* Writes three updates of the sample harbour beside it: a buoy that was moved; a new wreck with its node; a corrected coastline, which splits an edge, so that
   the areas and the line along it change too. The program changes a copy of the chart by its own hand as it writes; the C reader must apply each update to
   what the one before left, and come to the same bytes.
   usage: make_corrections samples/harbour.000 */
#include "../generators/generate_pair.h"
#include "../generators/generate_scene.h"
#include "../reader/reader.h"

#include <stdio.h>
#include <stdlib.h>
#include <string.h>

enum { CORRECTIONS = 3, WRECKS = 159, AGENCY = 540 };

/* A hundredth of the cell's width and height a step, as in make_harbour.c. */
static void put_spot(struct buffer *content, int x, int y)
{
    put_number(content, 4, (uint32_t)(507000000 + y * 5000));
    put_number(content, 4, (uint32_t)(-15000000 + x * 7000));
}

/* ---- the chart as it is */

/* The records and fields of a good file. */
static struct chart chart_of(const struct buffer *file)
{
    struct chart chart = {0};
    for (size_t start = 0; start < file->length;) {
        struct record record = reader_record(file->bytes, start);
        struct chart_record *to = add_record(&chart.list);
        for (size_t i = 0; i < record.entries; i++) {
            struct field field = reader_field(file->bytes, &record, i);
            const char tag[4] = {(char)(field.tag >> 24), (char)(field.tag >> 16), (char)(field.tag >> 8), (char)field.tag};
            buffer_put(&add_field(to, tag)->content, file->bytes + field.start, field.length - 1);
        }
        start = record.end;
    }
    return chart;
}

static struct chart_record *item(const struct chart *chart, uint8_t class, uint32_t id)
{
    uint8_t name[5] = {class};
    set_number(name + 1, 4, id);
    return find_item(chart, FIRST_CELL_ITEM, name);
}

/* ---- what an update says */

struct correction {
    struct chart *chart;
    struct chart update;
    struct random random; /* for running numbers, which are set anew at the end */
};

static struct chart_record *modify(struct correction *correction, struct chart_record *record)
{
    uint64_t version = version_of_record(record) + 1;
    set_version(record, version);
    return say_change(&correction->update, record, version, MODIFY, &correction->random);
}

/* Once the record is whole. */
static void insert(struct correction *correction, const struct chart_record *record)
{
    *add_record(&correction->update.list) = copy_record(record);
}

static void edit(struct chart_record *record, struct chart_record *said, const char *control_tag, const char *tag, struct control control,
                 const struct buffer *entries)
{
    if (control.instruction != INSERT)
        remove_entries(record, tag, control.index, control.count);
    if (control.instruction != DELETE)
        insert_entries(record, tag, control.index, entries);
    say_edit(said, control_tag, tag, control, record);
}

/* ---- 1: buoy No 2, its light and its topmark stand at one node */

static void move_buoy(struct correction *correction)
{
    enum { SOUTH_BUOY = 1 };
    struct chart_record *node = item(correction->chart, 110, SOUTH_BUOY);
    struct buffer there = {0};
    put_spot(&there, 63, 43);
    edit(node, modify(correction, node), "SGCC", "SG2D", (struct control){MODIFY, 1, 1}, &there);
    buffer_free(&there);
}

/* ---- 2 */

static void put_attribute(struct buffer *content, uint16_t label, const char *value)
{
    put_number(content, 2, label);
    put_text(content, value);
}

static void add_wreck(struct correction *correction)
{
    enum { NODE = 8, FEATURE = 27, CATWRK = 71, QUASOU = 125, VALSOU = 179, WATLEV = 187 };
    struct chart_record *node = put_vector(correction->chart, 110, NODE);
    put_spot(&add_field(node, "SG2D")->content, 50, 22);
    insert(correction, node);
    struct chart_record *wreck = put_feature(correction->chart, FEATURE, 1, WRECKS, AGENCY | UINT64_C(7000351) << 16 | UINT64_C(1) << 48);
    struct buffer *attributes = &add_field(wreck, "ATTF")->content;
    put_attribute(attributes, CATWRK, "2");
    put_attribute(attributes, QUASOU, "6");
    put_attribute(attributes, VALSOU, "1.8");
    put_attribute(attributes, WATLEV, "3");
    struct buffer *spatial = &add_field(wreck, "FSPT")->content;
    put_number(spatial, 1, 110);
    put_number(spatial, 4, NODE);
    put_number(spatial, 3, 0xFFFFFF);
    insert(correction, wreck);
}

/* ---- 3: the shore between the southern edge and the mole turns at a new node; north of it it was surveyed anew */

enum { SHORE_SOUTH = 9, SHORE_MIDDLE = 16, TURN = 14, LAND = 4, SHALLOW = 7, COASTLINE = 9 };

/* The new edge runs from the node to the old one's end, with pairs and an accuracy of its own. */
static void add_shore(struct correction *correction, const uint8_t *ends)
{
    enum { POSACC = 401, END = 9 };
    struct chart_record *shore = put_vector(correction->chart, 130, SHORE_MIDDLE);
    put_attribute(&add_field(shore, "ATTV")->content, POSACC, "0.2");
    struct buffer *content = &add_field(shore, "VRPT")->content;
    buffer_put(content, ends, 2 * END);
    set_number(content->bytes + 1, 4, TURN);
    content = &add_field(shore, "SG2D")->content;
    put_spot(content, 34, 33);
    put_spot(content, 34, 37);
    put_spot(content, 36, 43);
    insert(correction, shore);
}

/* One boundary more in a feature's list, with the usage and mask of the one that it goes on from. */
static void add_boundary(struct correction *correction, uint32_t feature, uint32_t index, uint32_t from)
{
    struct chart_record *record = item(correction->chart, 100, feature);
    struct buffer entry = {0};
    buffer_put(&entry, record->field[find_field(record, "FSPT")].content.bytes + (size_t)8 * (from - 1), 8);
    set_number(entry.bytes + 1, 4, SHORE_MIDDLE);
    edit(record, modify(correction, record), "FSPC", "FSPT", (struct control){INSERT, index, 1}, &entry);
    buffer_free(&entry);
}

static void correct_coastline(struct correction *correction)
{
    struct buffer end = {0};
    struct chart_record *turn = put_vector(correction->chart, 120, TURN);
    put_spot(&add_field(turn, "SG2D")->content, 38, 27);
    insert(correction, turn);
    struct chart_record *shore = item(correction->chart, 130, SHORE_SOUTH);
    add_shore(correction, shore->field[find_field(shore, "VRPT")].content.bytes);
    shore = item(correction->chart, 130, SHORE_SOUTH);
    buffer_put(&end, shore->field[find_field(shore, "VRPT")].content.bytes + 9, 9);
    set_number(end.bytes + 1, 4, TURN);
    struct chart_record *said = modify(correction, shore);
    edit(shore, said, "VRPC", "VRPT", (struct control){MODIFY, 2, 1}, &end);
    edit(shore, said, "SGCC", "SG2D", (struct control){DELETE, 3, 2}, &end);
    /* the land has the shore reversed: there the new edge comes before the old one */
    add_boundary(correction, LAND, 4, 4);
    add_boundary(correction, SHALLOW, 2, 1);
    add_boundary(correction, COASTLINE, 2, 1);
    buffer_free(&end);
}

static const struct {
    const char *date;
    void (*correct)(struct correction *correction);
} corrections[CORRECTIONS] = {{"20240115", move_buoy}, {"20240212", add_wreck}, {"20240318", correct_coastline}};

/* ---- files */

/* Records 0 and 1 of the update of this number. */
static struct chart start_correction(const struct chart *chart, unsigned number, const char *date, struct random *random)
{
    const struct chart_record *header = &chart->list.record[1];
    char digits[8];
    struct chart update = {.update = true};
    struct scene scene = {.random = random, .style = {.plain = true}};
    struct data_set set = {.edition = "1", .number = digits, .update = true, .plain = true};
    snprintf(digits, sizeof digits, "%u", number);
    memcpy(set.name, header->field[1].content.bytes + 7, 9);
    snprintf(set.name + 9, 4, "%03u", number % 1000);
    add_record(&update.list);
    struct chart_record *record = new_record(&update.list, &scene);
    put_data_set(record, &set, random);
    struct chart_field *dsid = &record->field[1];
    memcpy(dsid->content.bytes + subfield_place(dsid, 0, "UADT").start, "        ", 8);
    memcpy(dsid->content.bytes + subfield_place(dsid, 0, "ISDT").start, date, 8);
    replace_bytes(&dsid->content, subfield_place(dsid, 0, "COMT"), "", 0);
    put_structure(record, header->field[2].content.bytes[1], header->field[2].content.bytes[2]);
    return update;
}

static struct buffer write_update(struct chart *update, struct random *random)
{
    struct draft draft = {0};
    for (size_t i = 1; i < update->list.count; i++)
        set_number(update->list.record[i].field[0].content.bytes, 2, i);
    count_records(update);
    write_large(update, 0, &draft, random);
    dress_leader(draft.file.bytes);
    free(draft.records);
    return draft.file;
}

/* The reader's result takes the cell's place; whether it is the chart's held form. */
static bool applies(struct buffer *cell, const struct buffer *update, const struct chart *chart)
{
    struct buffer expected = held_of_chart(chart), held = {0};
    uint8_t *out = buffer_more(&held, expected.length);
    struct answer answer = reader_apply(cell->bytes, cell->length, update->bytes, update->length, SIZE_MAX, out, held.length);
    bool good = answer.code == CODE_DONE && answer.number == expected.length && memcmp(held.bytes, expected.bytes, held.length) == 0;
    if (!good)
        fprintf(stderr, "make_corrections: code %u, file %u, record %u\n", (unsigned)answer.code, (unsigned)answer.file, (unsigned)answer.record);
    buffer_free(&expected);
    buffer_free(cell);
    *cell = held;
    return good;
}

static bool write_correction(struct chart *chart, struct buffer *cell, unsigned number, const char *path)
{
    struct correction correction = {.chart = chart, .random = {number}};
    struct numbering numbering = {.edition = 1, .number = number};
    const char *date = corrections[number - 1].date;
    memcpy(numbering.date, date, 9);
    correction.update = start_correction(chart, number, date, &correction.random);
    corrections[number - 1].correct(&correction);
    number_after(chart, &numbering);
    struct buffer file = write_update(&correction.update, &correction.random);
    bool written = applies(cell, &file, chart) && buffer_save(&file, path);
    printf("%s: %zu records, %zu bytes\n", path, correction.update.list.count, file.length);
    chart_free(&correction.update);
    buffer_free(&file);
    return written;
}

int main(int words, char **word)
{
    struct buffer cell = {0};
    size_t length = words == 2 ? strlen(word[1]) : 0;
    char path[4096];
    if (length < 4 || length >= sizeof path || !buffer_load(&cell, word[1]) || reader_judge(cell.bytes, cell.length, SIZE_MAX).code != CODE_DONE) {
        fprintf(stderr, "usage: make_corrections samples/harbour.000\n");
        return 2;
    }
    struct chart chart = chart_of(&cell);
    bool written = true;
    for (unsigned number = 1; number <= CORRECTIONS && written; number++) {
        snprintf(path, sizeof path, "%.*s%03u", (int)length - 3, word[1], number % 1000);
        written = write_correction(&chart, &cell, number, path);
    }
    chart_free(&chart);
    buffer_free(&cell);
    return written ? 0 : 1;
}
