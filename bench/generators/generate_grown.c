/* Pairs whose result touches a limit of the held form, on both sides: 99,999 bytes a record, which no cell can bring Admit, 65,536 records with record 0 and
   5,242,880 bytes in all; and results that are over one and wrong besides, which is told first. */
#include "generate_apply.h"

#include <stdlib.h>
#include <string.h>

enum { LONGEST_HELD = 5242880, MOST_RECORDS = 65536, LONGEST_RECORD = 99999, LONG_TEXT = 20000, HALF_RING = 12000, HALF_MANY = 65000, LONG_LIST = 12000 };

/* ---- parts */

static struct chart_pair pair_at(uint32_t number, struct random *random)
{
    const struct numbering next = {.edition = 1, .number = number + 1, .date = "20240229"};
    struct chart_pair pair = {.cell = bare_cell(random)};
    number_before(&pair.cell, &next, random);
    pair.update = start_update(&pair.cell, &next, random);
    pair.result = copy_chart(&pair.cell);
    number_after(&pair.result, &next);
    return pair;
}

static void put_pair(struct buffer *content, uint32_t at)
{
    put_number(content, 4, 530000000 + at);
    put_number(content, 4, 80000000 + at);
}

static void put_node(struct chart *chart, uint32_t id)
{
    put_pair(&add_field(put_vector(chart, 120, id), "SG2D")->content, id);
}

static struct chart_record *put_edge(struct chart *chart, uint32_t id, uint32_t begin, uint32_t end)
{
    struct chart_record *record = put_vector(chart, 130, id);
    struct buffer *content = &add_field(record, "VRPT")->content;
    for (uint8_t topology = 1; topology <= 2; topology++) {
        put_number(content, 1, 120);
        put_number(content, 4, topology == 1 ? begin : end);
        put_number(content, 2, 0xFFFF);
        put_number(content, 1, topology);
        put_number(content, 1, 0xFF);
    }
    return record;
}

static void put_boundary(struct buffer *content, uint32_t edge, uint8_t usage)
{
    put_number(content, 1, 130);
    put_number(content, 4, edge);
    put_number(content, 1, 1);
    put_number(content, 1, usage);
    put_number(content, 1, 1);
}

static struct chart_record *last_of(struct chart *chart)
{
    return &chart->list.record[chart->list.count - 1];
}

/* An attribute without a value. */
static void put_attribute(struct chart_record *record, const char *tag)
{
    struct buffer *content = &insert_field(record, place_of_tag(record, tag), tag)->content;
    put_number(content, 2, 116);
    put_text(content, "");
}

/* Lengthens the text that the field ends with until the record has that many bytes. From LONG_TEXT on no size gets another digit by that. */
static void fill_record(struct chart_record *record, const char *tag, size_t bytes)
{
    struct chart_field *field = &record->field[find_field(record, tag)];
    lengthen_text(field, LONG_TEXT);
    lengthen_text(field, bytes - held_record_length(record));
}

/* All that the cell has, the result has too. */
static void keep_all(struct chart_pair *pair)
{
    for (size_t i = FIRST_CELL_ITEM; i < pair->cell.list.count; i++)
        *add_record(&pair->result.list) = copy_record(&pair->cell.list.record[i]);
}

/* ---- records */

/* Nodes in the cell, so many that the file has that many records; the first `gone` of them go, and `come` come. */
static struct chart_pair make_records(size_t records, size_t gone, size_t come, struct random *random)
{
    struct chart_pair pair = pair_at(0, random);
    while (pair.cell.list.count < records)
        put_node(&pair.cell, (uint32_t)pair.cell.list.count * 2);
    for (size_t i = FIRST_CELL_ITEM; i < records; i++) {
        const struct chart_record *held = &pair.cell.list.record[i];
        if (i < FIRST_CELL_ITEM + gone)
            say_change(&pair.update, held, 2, DELETE, random);
        else
            *add_record(&pair.result.list) = copy_record(held);
    }
    for (uint32_t id = 1; come > 0; come--, id += 2) {
        put_node(&pair.update, id);
        put_node(&pair.result, id);
    }
    return pair;
}

static struct chart_pair make_most_records(size_t over, struct random *random)
{
    return make_records(MOST_RECORDS - 1, 0, 1 + over, random);
}

static struct chart_pair make_fewer_records(size_t over, struct random *random)
{
    return make_records(MOST_RECORDS + 4, 4 - over, 0, random);
}

static struct chart_pair make_both_many(size_t unused, struct random *random)
{
    (void)unused;
    return make_records(HALF_MANY, 0, HALF_MANY, random);
}

/* The one at the last place isn't a collection, though its class is. */
static struct chart_pair make_unshaped(size_t come, struct random *random)
{
    struct chart_pair pair = make_records(HALF_MANY, 0, come, random);
    put_feature(&pair.update, 1, 1, 400, 1);
    put_feature(&pair.result, 1, 1, 400, 1);
    return pair;
}

/* As many inserts as a file can have: edges without ends. */
static struct chart_pair make_most_inserts(size_t inserts, struct random *random)
{
    struct chart_pair pair = pair_at(0, random);
    for (uint32_t id = (uint32_t)inserts; id > 0; id--)
        put_vector(&pair.update, 130, id);
    return pair;
}

/* Identifiers alone: every version goes up by one. */
static struct chart_pair make_all_versions(size_t records, struct random *random)
{
    struct chart_pair pair = make_records(records, 0, 0, random);
    for (size_t i = FIRST_CELL_ITEM; i < records; i++) {
        set_version(&pair.result.list.record[i], 2);
        say_change(&pair.update, &pair.cell.list.record[i], 2, MODIFY, random);
    }
    return pair;
}

/* ---- bytes in all */

/* Soundings of nearly 5 MB, and a node that gets a text, or of its text loses `lost` bytes, so that the result's held form has that many bytes. */
static struct chart_pair make_bytes(size_t bytes, size_t lost, struct random *random)
{
    struct chart_pair pair = pair_at(0, random);
    for (uint32_t id = 1; id <= 52; id++) {
        struct buffer *content = &add_field(put_vector(&pair.cell, 110, id), "SG3D")->content;
        for (uint32_t i = 0; i < 8300; i++) {
            put_pair(content, i);
            put_number(content, 4, i);
        }
    }
    put_node(&pair.cell, 1);
    put_attribute(last_of(&pair.cell), "ATTV");
    keep_all(&pair);
    struct chart_record *held = last_of(&pair.cell), *result = last_of(&pair.result);
    lengthen_text(&result->field[2], LONG_TEXT);
    struct buffer all = held_of_chart(&pair.result);
    lengthen_text(&result->field[2], bytes - all.length);
    buffer_free(&all);
    if (lost > 0)
        lengthen_text(&held->field[2], result->field[2].content.length - held->field[2].content.length + lost);
    set_version(result, 2);
    struct chart_record *said = say_change(&pair.update, held, 2, MODIFY, random);
    buffer_put(&add_field(said, "ATTV")->content, result->field[2].content.bytes, result->field[2].content.length);
    return pair;
}

static struct chart_pair make_grown(size_t bytes, struct random *random)
{
    return make_bytes(bytes, 0, random);
}

/* The cell's own held form is over the limit; the cell isn't, by a short record 0. */
static struct chart_pair make_shrunk(size_t bytes, struct random *random)
{
    struct chart_pair pair = make_bytes(bytes, 200, random);
    describe_briefly(&pair.cell, random);
    return pair;
}

/* ---- bytes a record */

/* An edge at node 5, and beside it every list that a vector or a feature can have. */
static struct chart_record *put_full_vector(struct chart *chart, bool soundings)
{
    put_node(chart, 5);
    struct chart_record *record = soundings ? put_vector(chart, 110, 3) : put_edge(chart, 3, 5, 5);
    put_attribute(record, "ATTV");
    struct buffer *content = &add_field(record, soundings ? "SG3D" : "SG2D")->content;
    for (uint32_t i = 0; i < 5000; i++) {
        put_pair(content, i);
        if (soundings)
            put_number(content, 4, i);
    }
    return record;
}

static struct chart_record *put_full_feature(struct chart *chart)
{
    put_node(chart, 5);
    put_edge(chart, 3, 5, 5);
    struct chart_record *record = put_feature(chart, 9, 2, 42, 11);
    put_attribute(record, "ATTF");
    put_attribute(record, "NATF");
    struct buffer *relations = &add_field(record, "FFPT")->content;
    put_number(relations, 8, 11);
    put_number(relations, 1, 2);
    put_text(relations, "");
    struct buffer *content = &add_field(record, "FSPT")->content;
    for (uint32_t i = 0; i < 3000; i++)
        put_boundary(content, 3, 255);
    return record;
}

/* Which list grows by the update; the others are held. */
enum { BY_ATTV, BY_SG2D, BY_SG3D, BY_ATTF, BY_NATF, BY_FFPT, BY_FSPT, BY_LISTS, LONG = 100 };

static const struct {
    const char *tag, *control;
    const char *filled; /* what gives the record its length */
} growing[BY_LISTS] = {{"ATTV", NULL, "ATTV"},   {"SG2D", "SGCC", "ATTV"}, {"SG3D", "SGCC", "ATTV"}, {"ATTF", NULL, "ATTF"},
                       {"NATF", NULL, "NATF"},   {"FFPT", "FFPC", "FFPT"}, {"FSPT", "FSPC", "ATTF"}};

/* `way` is the list, and LONG more where the record is to have one byte too many. Attributes and FFPT get a longer text, the others an entry more. */
static struct chart_pair make_long(size_t way, struct random *random)
{
    size_t list = way % LONG, bytes = LONGEST_RECORD + way / LONG;
    const char *tag = growing[list].tag;
    struct chart_pair pair = pair_at(0, random);
    struct chart_record *result = list <= BY_SG3D ? put_full_vector(&pair.result, list == BY_SG3D) : put_full_feature(&pair.result);
    fill_record(result, growing[list].filled, bytes);
    for (size_t i = FIRST_CELL_ITEM; i < pair.result.list.count; i++)
        *add_record(&pair.cell.list) = copy_record(&pair.result.list.record[i]);
    struct chart_record *held = last_of(&pair.cell), *said = say_change(&pair.update, held, 2, MODIFY, random);
    struct chart_field *field = &held->field[find_field(held, tag)];
    uint32_t length = (uint32_t)list_length(held, tag);
    bool text = growing[list].control == NULL || list == BY_FFPT;
    set_version(result, 2);
    if (text)
        buffer_remove(&field->content, field->content.length - 11, 10);
    else
        remove_entries(held, tag, length, 1);
    if (growing[list].control != NULL)
        say_edit(said, growing[list].control, tag, (struct control){text ? MODIFY : INSERT, length, 1}, result);
    else
        buffer_put(&add_field(said, tag)->content, result->field[find_field(result, tag)].content.bytes,
                   result->field[find_field(result, tag)].content.length);
    return pair;
}

/* UPDN goes from 9 to 10, and record 1 gets a byte more. */
static struct chart_pair make_long_header(size_t over, struct random *random)
{
    struct chart_pair pair = pair_at(9, random);
    struct chart_record *header = &pair.result.list.record[1];
    replace_bytes(&header->field[1].content, subfield_place(&header->field[1], 0, "EDTN"), "1", 1);
    fill_record(header, "DSID", LONGEST_RECORD + over);
    struct chart_field *dsid = &pair.cell.list.record[1].field[1], *filled = &header->field[1];
    struct place comment = subfield_place(filled, 0, "COMT");
    replace_bytes(&dsid->content, subfield_place(dsid, 0, "COMT"), filled->content.bytes + comment.start, comment.length);
    replace_bytes(&dsid->content, subfield_place(dsid, 0, "EDTN"), "1", 1);
    replace_bytes(&dsid->content, subfield_place(dsid, 0, "UPDN"), "9", 1);
    return pair;
}

/* ---- records of nearly twice the length */

/* An edge of 12,000 pairs gets 12,000 more. */
static struct chart_pair make_twice(size_t unused, struct random *random)
{
    struct chart_pair pair = pair_at(0, random);
    struct buffer pairs = {0};
    (void)unused;
    put_node(&pair.cell, 5);
    struct buffer *content = &add_field(put_edge(&pair.cell, 3, 5, 5), "SG2D")->content;
    for (uint32_t i = 0; i < LONG_LIST; i++) {
        put_pair(content, i);
        put_pair(&pairs, LONG_LIST + i);
    }
    struct chart_record *said = say_change(&pair.update, last_of(&pair.cell), 2, MODIFY, random);
    put_control(said, "SGCC", (struct control){INSERT, LONG_LIST + 1, LONG_LIST});
    add_field(said, "SG2D")->content = pairs;
    keep_all(&pair);
    return pair;
}

/* The last of the new pairs is beyond the limit. */
static struct chart_pair make_twice_unshaped(size_t unused, struct random *random)
{
    struct chart_pair pair = make_twice(unused, random);
    struct buffer *content = &last_of(&pair.update)->field[3].content;
    set_number(content->bytes + content->length - 4, 4, 1800000001);
    return pair;
}

/* A line behind the long edge names an edge that isn't there. */
static struct chart_pair make_twice_pointing(size_t unused, struct random *random)
{
    struct chart_pair pair = make_twice(unused, random);
    put_boundary(&add_field(put_feature(&pair.cell, 1, 2, 30, 1), "FSPT")->content, 4, 255);
    *add_record(&pair.result.list) = copy_record(last_of(&pair.cell));
    return pair;
}

/* 33,000 attributes get 32,500 others. */
static struct chart_pair make_twice_labels(size_t unused, struct random *random)
{
    struct chart_pair pair = pair_at(0, random);
    (void)unused;
    struct buffer *content = &add_field(put_feature(&pair.cell, 1, 255, 400, 1), "ATTF")->content;
    for (uint32_t label = 0; label < 33000; label++) {
        put_number(content, 2, label);
        put_text(content, "");
    }
    content = &add_field(say_change(&pair.update, last_of(&pair.cell), 2, MODIFY, random), "ATTF")->content;
    for (uint32_t label = 65535; label >= 33000; label--) {
        put_number(content, 2, label);
        put_text(content, "");
    }
    return pair;
}

/* A ring of 24,000 edges, half of which the update brings; `missing` of them are missing at the end. */
static struct chart_pair make_ring(size_t missing, struct random *random)
{
    struct chart_pair pair = pair_at(0, random);
    struct buffer more = {0};
    for (uint32_t i = 1; i <= 2 * HALF_RING; i++)
        put_node(&pair.cell, i);
    for (uint32_t i = 1; i <= 2 * HALF_RING; i++)
        put_edge(&pair.cell, i, i, i % (2 * HALF_RING) + 1);
    struct buffer *content = &add_field(put_feature(&pair.cell, 1, 3, 42, 1), "FSPT")->content;
    for (uint32_t i = 1; i <= 2 * HALF_RING - missing; i++)
        put_boundary(i <= HALF_RING ? content : &more, i, 1);
    struct chart_record *said = say_change(&pair.update, last_of(&pair.cell), 2, MODIFY, random);
    put_control(said, "FSPC", (struct control){INSERT, HALF_RING + 1, (uint32_t)(HALF_RING - missing)});
    add_field(said, "FSPT")->content = more;
    keep_all(&pair);
    return pair;
}

/* ---- files of the longest length */

/* Soundings of nearly 5 MB, all of which the update replaces. */
static struct chart_pair make_all_soundings(size_t unused, struct random *random)
{
    struct chart_pair pair = pair_at(0, random);
    (void)unused;
    for (uint32_t id = 1; id <= 52; id++) {
        struct buffer *held = &add_field(put_vector(&pair.cell, 110, id), "SG3D")->content;
        struct chart_record *said = say_change(&pair.update, last_of(&pair.cell), 2, MODIFY, random);
        struct buffer *result = &add_field(put_vector(&pair.result, 110, id), "SG3D")->content;
        set_version(last_of(&pair.result), 2);
        for (uint32_t i = 0; i < 8300; i++) {
            put_pair(held, i);
            put_number(held, 4, i);
            put_pair(result, i + id);
            put_number(result, 4, i * id);
        }
        say_edit(said, "SGCC", "SG3D", (struct control){MODIFY, 1, 8300}, last_of(&pair.result));
    }
    return pair;
}

/* ---- the table */

enum { LAST_PLACE = -1 };

static const struct limit {
    const char *name;
    struct chart_pair (*make)(size_t way, struct random *random);
    size_t way;
    uint32_t code, file;
    int32_t place;
    size_t cell, update; /* lengths of the files; 0 for any */
} limits[] = {
    {"65,536 records by an insert", make_most_records, 0, CODE_DONE, 0, 0, 0, 0},
    {"65,537 records by inserts", make_most_records, 1, CODE_SIZE, 3, 0, 0, 0},
    {"65,536 records by deletes", make_fewer_records, 0, CODE_DONE, 0, 0, 0, 0},
    {"65,537 records after deletes", make_fewer_records, 1, CODE_SIZE, 3, 0, 0, 0},
    {"65,536 records and their versions", make_all_versions, MOST_RECORDS, CODE_DONE, 0, 0, 0, 0},
    {"75,000 records and their versions", make_all_versions, 75000, CODE_SIZE, 3, 0, 0, 0},
    {"130,000 records of both files", make_both_many, 0, CODE_SIZE, 3, 0, 0, 0},
    {"130,000 records of both files, the last unshaped", make_unshaped, HALF_MANY, CODE_SHAPE, 3, LAST_PLACE, 0, 0},
    {"106,800 inserts, all unshaped", make_most_inserts, 106800, CODE_SHAPE, 3, 3, 0, 0},
    {"held form grown to 5,242,880 bytes", make_grown, LONGEST_HELD, CODE_DONE, 0, 0, 0, 0},
    {"held form grown to 5,242,881 bytes", make_grown, LONGEST_HELD + 1, CODE_SIZE, 3, 0, 0, 0},
    {"held form shrunk to 5,242,880 bytes", make_shrunk, LONGEST_HELD, CODE_DONE, 0, 0, 0, 0},
    {"held form shrunk to 5,242,881 bytes", make_shrunk, LONGEST_HELD + 1, CODE_SIZE, 3, 0, 0, 0},
    {"DSID record of 99,999 bytes by UPDN", make_long_header, 0, CODE_DONE, 0, 0, 0, 0},
    {"DSID record of 100,000 bytes by UPDN", make_long_header, 1, CODE_SIZE, 3, 0, 0, 0},
    {"node of 99,999 bytes by ATTV", make_long, BY_ATTV, CODE_DONE, 0, 0, 0, 0},
    {"node of 100,000 bytes by ATTV", make_long, LONG + BY_ATTV, CODE_SIZE, 3, 0, 0, 0},
    {"edge of 99,999 bytes by SG2D", make_long, BY_SG2D, CODE_DONE, 0, 0, 0, 0},
    {"edge of 100,000 bytes by SG2D", make_long, LONG + BY_SG2D, CODE_SIZE, 3, 0, 0, 0},
    {"soundings of 99,999 bytes by SG3D", make_long, BY_SG3D, CODE_DONE, 0, 0, 0, 0},
    {"soundings of 100,000 bytes by SG3D", make_long, LONG + BY_SG3D, CODE_SIZE, 3, 0, 0, 0},
    {"feature of 99,999 bytes by ATTF", make_long, BY_ATTF, CODE_DONE, 0, 0, 0, 0},
    {"feature of 100,000 bytes by ATTF", make_long, LONG + BY_ATTF, CODE_SIZE, 3, 0, 0, 0},
    {"feature of 99,999 bytes by NATF", make_long, BY_NATF, CODE_DONE, 0, 0, 0, 0},
    {"feature of 100,000 bytes by NATF", make_long, LONG + BY_NATF, CODE_SIZE, 3, 0, 0, 0},
    {"feature of 99,999 bytes by FFPT", make_long, BY_FFPT, CODE_DONE, 0, 0, 0, 0},
    {"feature of 100,000 bytes by FFPT", make_long, LONG + BY_FFPT, CODE_SIZE, 3, 0, 0, 0},
    {"feature of 99,999 bytes by FSPT", make_long, BY_FSPT, CODE_DONE, 0, 0, 0, 0},
    {"feature of 100,000 bytes by FSPT", make_long, LONG + BY_FSPT, CODE_SIZE, 3, 0, 0, 0},
    {"edge of 192,000 bytes", make_twice, 0, CODE_SIZE, 3, 0, 0, 0},
    {"edge of 192,000 bytes, its last pair beyond X", make_twice_unshaped, 0, CODE_SHAPE, 3, LAST_PLACE, 0, 0},
    {"edge of 192,000 bytes, a line without its edge", make_twice_pointing, 0, CODE_POINTER, 3, LAST_PLACE, 0, 0},
    {"33,000 attributes and 32,536 others", make_twice_labels, 0, CODE_SIZE, 3, 0, 0, 0},
    {"ring of 24,000 edges", make_ring, 0, CODE_SIZE, 3, 0, 0, 0},
    {"ring of 24,000 edges, the last missing", make_ring, 1, CODE_RING, 3, LAST_PLACE, 0, 0},
    {"cell and update of 5,242,880 bytes", make_all_soundings, 0, CODE_DONE, 0, 0, LONGEST_HELD, LONGEST_HELD},
    {"cell of 5,242,881 bytes", make_all_soundings, 0, CODE_LONG, 1, 0, LONGEST_HELD + 1, 0},
    {"update of 5,242,881 bytes", make_all_soundings, 0, CODE_LONG, 2, 0, 0, LONGEST_HELD + 1},
};

size_t limit_applies(void)
{
    return sizeof limits / sizeof limits[0];
}

const char *limit_apply_name(size_t index)
{
    return limits[index].name;
}

static struct buffer write_padded(struct chart *chart, size_t padded, struct random *random, size_t *records)
{
    struct draft draft = {0};
    write_large(chart, padded, &draft, random);
    *records += draft.count;
    free(draft.records);
    return draft.file;
}

struct apply_case limit_apply_make(size_t index)
{
    const struct limit *limit = &limits[index];
    struct random random = {index + 1};
    struct apply_case made = {.kind = limit->name, .known = true};
    struct chart_pair pair = limit->make(limit->way, &random);
    uint32_t last = (uint32_t)pair.result.list.count - 1;
    made.verdict = (struct answer){.code = limit->code, .file = limit->file, .record = limit->place == LAST_PLACE ? last : (uint32_t)limit->place};
    if (limit->code == CODE_DONE)
        made.held = held_of_chart(&pair.result);
    made.cell = write_padded(&pair.cell, limit->cell, &random, &made.records);
    made.update = write_padded(&pair.update, limit->update, &random, &made.records);
    pair_free(&pair);
    return made;
}
