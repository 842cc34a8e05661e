/* The rows of document 01's bench sheet as pairs of a cell and an update, one or more for each row. The cell is a triangle: nodes A, B and C, the edges 1 from
   A to B, 2 from B to C and 3 from A to C, the last with two pairs; soundings, a line along edge 1 and 2, and a collection of two. */
#include "generate_apply.h"

#include <stdio.h>
#include <stdlib.h>
#include <string.h>

enum { A = 1, B = 2, C = 3, LOOP = 4, SECOND_LOOP = 5, LINE = 1, COLLECTION = 2, AREA = 3 };

/* ---- parts */

static void put_pair(struct buffer *content, int32_t y, int32_t x)
{
    put_number(content, 4, (uint32_t)y);
    put_number(content, 4, (uint32_t)x);
}

static void put_node(struct chart *chart, uint32_t id)
{
    put_pair(&add_field(put_vector(chart, 120, id), "SG2D")->content, (int32_t)id * 10, (int32_t)id);
}

static struct chart_record *put_edge(struct chart *chart, uint32_t id, uint32_t begin, uint32_t end)
{
    struct chart_record *record = put_vector(chart, 130, id);
    struct buffer *content = &add_field(record, "VRPT")->content;
    for (uint8_t topology = 1; topology <= 2; topology++) {
        const uint8_t rest[] = {255, 255, topology, 255};
        put_number(content, 1, 120);
        put_number(content, 4, topology == 1 ? begin : end);
        buffer_put(content, rest, sizeof rest);
    }
    return record;
}

static void put_boundary(struct buffer *content, uint32_t edge, uint8_t turn, uint8_t usage)
{
    const uint8_t rest[] = {turn, usage, 1};
    put_number(content, 1, 130);
    put_number(content, 4, edge);
    buffer_put(content, rest, sizeof rest);
}

static void put_relation(struct buffer *content, uint64_t object)
{
    put_number(content, 8, object);
    put_number(content, 1, 2);
    put_text(content, "");
}

/* ---- the cell */

static struct chart triangle(struct random *random)
{
    struct chart cell = bare_cell(random);
    for (uint32_t node = A; node <= C; node++)
        put_node(&cell, node);
    struct buffer *soundings = &add_field(put_vector(&cell, 110, 1), "SG3D")->content;
    for (int32_t i = 1; i <= 2; i++) {
        put_pair(soundings, i, i);
        put_number(soundings, 4, (uint32_t)i);
    }
    put_edge(&cell, 1, A, B);
    put_edge(&cell, 2, B, C);
    struct buffer *pairs = &add_field(put_edge(&cell, 3, A, C), "SG2D")->content;
    put_pair(pairs, 1, 2);
    put_pair(pairs, 3, 4);
    put_edge(&cell, LOOP, A, A);
    put_edge(&cell, SECOND_LOOP, A, A);
    struct chart_record *line = put_feature(&cell, LINE, 2, 42, 71);
    struct buffer *attributes = &add_field(line, "ATTF")->content;
    put_number(attributes, 2, 116);
    put_text(attributes, "known");
    put_number(attributes, 2, 117);
    put_text(attributes, "known too");
    struct buffer *boundaries = &add_field(line, "FSPT")->content;
    put_boundary(boundaries, 1, 1, 255);
    put_boundary(boundaries, 2, 1, 255);
    struct buffer *relations = &add_field(put_feature(&cell, COLLECTION, 255, 400, 72), "FFPT")->content;
    put_relation(relations, 71);
    put_relation(relations, 72);
    return cell;
}

/* A pair whose update does nothing yet; the cell is at that number. */
static struct chart_pair start_pair(uint32_t number, struct random *random)
{
    struct numbering numbering = {.edition = 1, .number = number + 1, .date = "20240229"};
    struct chart_pair pair = {.cell = triangle(random)};
    number_before(&pair.cell, &numbering, random);
    pair.update = start_update(&pair.cell, &numbering, random);
    pair.result = copy_chart(&pair.cell);
    number_after(&pair.result, &numbering);
    return pair;
}

static struct chart_record *item(struct chart *chart, uint8_t class, uint32_t id)
{
    uint8_t name[5] = {class};
    set_number(name + 1, 4, id);
    return find_item(chart, FIRST_CELL_ITEM, name);
}

/* The update modifies an item, which the result then has in its next version. */
static struct chart_record *modify(struct chart_pair *pair, struct chart_record *result, struct random *random)
{
    set_version(result, 2);
    return say_change(&pair->update, result, 2, MODIFY, random);
}

/* ---- the rows. Each says what Apply must answer; 0 where the result stands. */

typedef struct answer row_maker(struct chart_pair *pair, size_t way, struct random *random);

static const struct answer fine = {0};

static struct answer refused(uint32_t code, uint32_t file, uint32_t record)
{
    return (struct answer){.code = code, .file = file, .record = record};
}

/* 1, 2: the new record is the last of its class, and its leader is that of the sheet. */
static struct answer insert_vector(struct chart_pair *pair, size_t way, struct random *random)
{
    (void)random;
    for (int i = 0; i < 2; i++) {
        struct chart *chart = i == 0 ? &pair->update : &pair->result;
        if (way == 1)
            put_node(chart, 9);
        else
            put_edge(chart, 9, A, C);
    }
    const char *leader = way == 1 ? "00067 D     00046   1204" : "00080 D     00049   2204";
    struct buffer held = held_of_chart(&pair->result);
    bool stands = false;
    for (size_t at = 0; at + 24 <= held.length; at++)
        stands = stands || memcmp(held.bytes + at, leader, 24) == 0;
    if (!stands || held_record_length(&pair->update.list.record[2]) != (way == 1 ? 67 : 80))
        abort();
    buffer_free(&held);
    return fine;
}

/* 3: the update's number is `way`, the cell is at 3. */
static struct answer number(struct chart_pair *pair, size_t way, struct random *random)
{
    struct chart_field *dsid = &pair->update.list.record[1].field[1];
    char digits[8];
    snprintf(digits, sizeof digits, "%03u", (unsigned)way % 1000);
    memcpy(dsid->content.bytes + subfield_place(dsid, 0, "DSNM").start + 9, digits, 3);
    spell(dsid, "UPDN", (uint32_t)way, 3, random);
    return way == 4 ? fine : refused(CODE_NUMBER, 2, 1);
}

/* 4: an area along 1, 2 and 3, the last forwards or reversed. Its place is behind 3 nodes, soundings, 5 edges and 2 features. */
static struct answer insert_area(struct chart_pair *pair, size_t way, struct random *random)
{
    (void)random;
    for (int i = 0; i < 2; i++) {
        struct buffer *content = &add_field(put_feature(i == 0 ? &pair->update : &pair->result, AREA, 3, 42, 73), "FSPT")->content;
        put_boundary(content, 1, 1, 1);
        put_boundary(content, 2, 1, 1);
        put_boundary(content, 3, (uint8_t)way, 1);
    }
    return way == 2 ? fine : refused(CODE_RING, 3, 14);
}

/* 5: one loop, or two of them, as exterior. */
static struct answer insert_loops(struct chart_pair *pair, size_t way, struct random *random)
{
    (void)random;
    for (int i = 0; i < 2; i++) {
        struct buffer *content = &add_field(put_feature(i == 0 ? &pair->update : &pair->result, AREA, 3, 42, 73), "FSPT")->content;
        put_boundary(content, LOOP, 1, 1);
        if (way == 2)
            put_boundary(content, SECOND_LOOP, 1, 1);
    }
    return way == 1 ? fine : refused(CODE_RING, 3, 14);
}

/* The four lists that can have two entries and three. */
static const struct {
    uint8_t class;
    uint32_t id;
    const char *tag, *control;
} lists[] = {{130, 3, "SG2D", "SGCC"}, {110, 1, "SG3D", "SGCC"}, {100, COLLECTION, "FFPT", "FFPC"}, {100, LINE, "FSPT", "FSPC"}};

/* One more, such as it may be. */
static struct buffer another(const char *tag)
{
    struct buffer entry = {0};
    if (strcmp(tag, "FFPT") == 0)
        put_relation(&entry, 71);
    else if (strcmp(tag, "FSPT") == 0)
        put_boundary(&entry, 3, 2, 255);
    else
        put_pair(&entry, 5, 6);
    if (strcmp(tag, "SG3D") == 0)
        put_number(&entry, 4, 7);
    return entry;
}

/* 6: of list `way` % 4 an insert at `way` / 4. */
static struct answer insert_entry(struct chart_pair *pair, size_t way, struct random *random)
{
    uint32_t index = (uint32_t)way / 4;
    const char *tag = lists[way % 4].tag;
    struct chart_record *result = item(&pair->result, lists[way % 4].class, lists[way % 4].id), *said = modify(pair, result, random);
    struct buffer entry = another(tag);
    put_control(said, lists[way % 4].control, (struct control){INSERT, index, 1});
    buffer_put(&add_field(said, tag)->content, entry.bytes, entry.length);
    insert_entries(result, tag, index, &entry);
    buffer_free(&entry);
    return index == 3 ? fine : refused(CODE_EDIT, 2, 2);
}

/* 7: of list `way` % 4 a delete from 2 on, of `way` / 4 entries. */
static struct answer delete_entries(struct chart_pair *pair, size_t way, struct random *random)
{
    uint32_t count = (uint32_t)way / 4;
    struct chart_record *result = item(&pair->result, lists[way % 4].class, lists[way % 4].id), *said = modify(pair, result, random);
    put_control(said, lists[way % 4].control, (struct control){DELETE, 2, count});
    remove_entries(result, lists[way % 4].tag, 2, 1);
    return count == 1 ? fine : refused(CODE_EDIT, 2, 2);
}

/* 8: an empty value, or 7F, for the first of two attributes. */
static struct answer change_value(struct chart_pair *pair, size_t way, struct random *random)
{
    struct chart_record *result = item(&pair->result, 100, LINE), *said = modify(pair, result, random);
    struct chart_field *field = &result->field[find_field(result, "ATTF")];
    struct buffer *content = &add_field(said, "ATTF")->content;
    put_number(content, 2, 116);
    put_text(content, way == 1 ? "" : "\x7F");
    if (way == 1)
        replace_bytes(&field->content, subfield_place(field, 0, "ATVL"), "", 0);
    else
        remove_entries(result, "ATTF", 1, 1);
    return fine;
}

/* 9: a node moved to the limit of X, or `way` beyond it. Node A's place is behind the soundings. */
static struct answer move_to_limit(struct chart_pair *pair, size_t way, struct random *random)
{
    struct chart_record *result = item(&pair->result, 120, A), *said = modify(pair, result, random);
    struct buffer pair_there = {0};
    put_pair(&pair_there, 0, (int32_t)(1800000000 + way));
    remove_entries(result, "SG2D", 1, 1);
    insert_entries(result, "SG2D", 1, &pair_there);
    say_edit(said, "SGCC", "SG2D", (struct control){MODIFY, 1, 1}, result);
    buffer_free(&pair_there);
    return way == 0 ? fine : refused(CODE_SHAPE, 3, 4);
}

static const struct {
    const char *name;
    row_maker *make;
    size_t way;
} rows[] = {
    {"sheet 1: a connected node inserted", insert_vector, 1},
    {"sheet 2: an edge without coordinates inserted", insert_vector, 2},
    {"sheet 3: a cell at 3, update 3", number, 3},
    {"sheet 3: a cell at 3, update 5", number, 5},
    {"sheet 3: a cell at 3, update 4", number, 4},
    {"sheet 4: area 1F 2F 3R", insert_area, 2},
    {"sheet 4: area 1F 2F 3F", insert_area, 1},
    {"sheet 5: a loop edge alone", insert_loops, 1},
    {"sheet 5: two loops as exterior", insert_loops, 2},
    {"sheet 6: p,q, r inserted at 3, SG2D", insert_entry, 4 * 3},
    {"sheet 6: p,q, r inserted at 3, SG3D", insert_entry, 4 * 3 + 1},
    {"sheet 6: p,q, r inserted at 3, FFPT", insert_entry, 4 * 3 + 2},
    {"sheet 6: p,q, r inserted at 3, FSPT", insert_entry, 4 * 3 + 3},
    {"sheet 6: p,q, r inserted at 4, SG2D", insert_entry, 4 * 4},
    {"sheet 6: p,q, r inserted at 4, SG3D", insert_entry, 4 * 4 + 1},
    {"sheet 6: p,q, r inserted at 4, FFPT", insert_entry, 4 * 4 + 2},
    {"sheet 6: p,q, r inserted at 4, FSPT", insert_entry, 4 * 4 + 3},
    {"sheet 7: p,q, two deleted from 2, SG2D", delete_entries, 4 * 2},
    {"sheet 7: p,q, two deleted from 2, SG3D", delete_entries, 4 * 2 + 1},
    {"sheet 7: p,q, two deleted from 2, FFPT", delete_entries, 4 * 2 + 2},
    {"sheet 7: p,q, two deleted from 2, FSPT", delete_entries, 4 * 2 + 3},
    {"sheet 7: p,q, one deleted at 2, SG2D", delete_entries, 4},
    {"sheet 7: p,q, one deleted at 2, SG3D", delete_entries, 4 + 1},
    {"sheet 7: p,q, one deleted at 2, FFPT", delete_entries, 4 + 2},
    {"sheet 7: p,q, one deleted at 2, FSPT", delete_entries, 4 + 3},
    {"sheet 8: a value empty", change_value, 1},
    {"sheet 8: a value 7F", change_value, 2},
    {"sheet 9: X at its limit", move_to_limit, 0},
    {"sheet 9: X one beyond", move_to_limit, 1},
};

size_t sheet_rows(void)
{
    return sizeof rows / sizeof rows[0];
}

struct apply_case sheet_row_make(size_t index)
{
    struct random random = {index + 1};
    struct apply_case made = {.kind = rows[index].name, .known = true};
    struct chart_pair pair = start_pair(3, &random);
    made.verdict = rows[index].make(&pair, rows[index].way, &random);
    if (made.verdict.code == CODE_DONE)
        made.held = held_of_chart(&pair.result);
    arrange(&pair.cell, &random);
    count_records(&pair.cell);
    finish_pair(&made, &pair, &random);
    return made;
}
