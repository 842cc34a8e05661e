/* Cells of up to 5 MB for Judge: an ordinary one, and such as put much of one kind of work into their bytes. */
#include "generate_judge.h"

#include <stdlib.h>
#include <string.h>

enum { LARGEST_FILE = 5242880, MANY = 65535, RING = 12000 };

/* ---- parts */

static void put_pair(struct chart_record *record, uint32_t at)
{
    struct buffer *content = &add_field(record, "SG2D")->content;
    put_number(content, 4, 530000000 + at);
    put_number(content, 4, 80000000 + at);
}

static void put_node(struct chart *chart, uint32_t id)
{
    put_pair(put_vector(chart, 120, id), id);
}

static void put_edge(struct chart *chart, uint32_t id, uint32_t begin, uint32_t end)
{
    struct buffer *content = &add_field(put_vector(chart, 130, id), "VRPT")->content;
    for (uint8_t topology = 1; topology <= 2; topology++) {
        put_number(content, 1, 120);
        put_number(content, 4, topology == 1 ? begin : end);
        put_number(content, 2, 0xFFFF);
        put_number(content, 1, topology);
        put_number(content, 1, 0xFF);
    }
}

static void put_boundary(struct buffer *content, uint32_t edge, uint8_t turn, uint8_t usage)
{
    put_number(content, 1, 130);
    put_number(content, 4, edge);
    put_number(content, 1, turn);
    put_number(content, 1, usage);
    put_number(content, 1, 1);
}

/* Nodes 1 to RING on a circle and the edges between neighbours, every third edge drawn backwards. */
static struct chart circle(struct random *random)
{
    struct chart chart = bare_cell(random);
    for (uint32_t i = 1; i <= RING; i++)
        put_node(&chart, i);
    for (uint32_t i = 1; i <= RING; i++)
        put_edge(&chart, i, i % 3 == 0 ? i % RING + 1 : i, i % 3 == 0 ? i : i % RING + 1);
    return chart;
}

/* The whole circle as one ring, from another node each time. */
static struct buffer *put_circle(struct chart *chart, uint32_t id)
{
    struct buffer *content = &add_field(put_feature(chart, id, 3, 42, id), "FSPT")->content;
    for (uint32_t step = 0; step < RING; step++) {
        uint32_t edge = (id * 977 + step) % RING + 1;
        put_boundary(content, edge, edge % 3 == 0 ? 2 : 1, 1);
    }
    return content;
}

/* ---- the cells */

static struct chart make_descending(struct random *random)
{
    struct chart chart = bare_cell(random);
    for (uint32_t i = 0; i < MANY; i++)
        put_node(&chart, UINT32_C(4294967294) - i);
    return chart;
}

static struct chart make_circles(struct random *random)
{
    struct chart chart = circle(random);
    for (uint32_t id = 1; id <= 34; id++)
        put_circle(&chart, id);
    return chart;
}

static struct chart make_open_circle(struct random *random)
{
    struct chart chart = circle(random);
    for (uint32_t id = 1; id <= 34; id++)
        put_circle(&chart, id);
    struct buffer *content = &chart.list.record[chart.list.count - 1].field[3].content;
    content->length -= 8;
    return chart;
}

/* Loops at one node: as many rings as edges. */
static struct chart make_loops(struct random *random)
{
    struct chart chart = bare_cell(random);
    put_node(&chart, 1);
    for (uint32_t i = 1; i <= RING; i++)
        put_edge(&chart, i, 1, 1);
    for (uint32_t id = 1; id <= 42; id++) {
        struct buffer *content = &add_field(put_feature(&chart, id, 3, 42, id), "FSPT")->content;
        for (uint32_t i = 0; i < RING; i++)
            put_boundary(content, (id * 577 + i) % RING + 1, (uint8_t)(1 + i % 2), i == 0 ? 1 : 2);
    }
    return chart;
}

static uint64_t object_of(uint32_t feature)
{
    return feature * UINT64_C(0x9E3779B97F4A7C15);
}

static struct chart make_relations(struct random *random)
{
    enum { FEATURES = 30000, EACH = 8 };
    struct chart chart = bare_cell(random);
    for (uint32_t id = 1; id <= FEATURES; id++) {
        struct buffer *content = &add_field(put_feature(&chart, id, 255, 400, object_of(id)), "FFPT")->content;
        for (uint32_t i = 0; i < EACH; i++) {
            put_number(content, 8, object_of(random_between(random, 1, FEATURES)));
            put_number(content, 1, 3);
            put_text(content, "");
        }
    }
    return chart;
}

static struct chart make_missing_object(struct random *random)
{
    struct chart chart = make_relations(random);
    chart.list.record[chart.list.count - 1].field[3].content.bytes[70] ^= 1;
    return chart;
}

static struct chart make_one_object(struct random *random)
{
    struct chart chart = bare_cell(random);
    for (uint32_t id = 55000; id > 0; id--) {
        struct buffer *content = &add_field(put_feature(&chart, id, 255, 401, 7), "FFPT")->content;
        put_number(content, 8, 7);
        put_number(content, 1, 2);
        put_text(content, "");
    }
    return chart;
}

static struct chart make_soundings(struct random *random)
{
    struct chart chart = bare_cell(random);
    for (uint32_t id = 1; id <= 52; id++) {
        struct buffer *content = &add_field(put_vector(&chart, 110, id), "SG3D")->content;
        for (uint32_t i = 0; i < 8300; i++) {
            put_number(content, 4, 530000000 + i);
            put_number(content, 4, 80000000 + i);
            put_number(content, 4, i % 300);
        }
    }
    return chart;
}

/* ---- refused late in reading: the ordinary cell, its last record a feature */

static struct chart make_late_value(struct random *random)
{
    enum { FRID = 1, PRIM = 5 };
    struct chart chart = make_ordinary(random);
    chart.list.record[chart.list.count - 1].field[FRID].content.bytes[PRIM] = 4;
    return chart;
}

static struct chart make_late_layout(struct random *random)
{
    enum { FOID = 2 };
    struct chart chart = make_ordinary(random);
    chart.list.record[chart.list.count - 1].field[FOID].content.length--;
    return chart;
}

/* ---- the table */

static const struct heavy {
    const char *name;
    struct chart (*make)(struct random *random);
    uint32_t code; /* of the last record, be it in the file or in held order, if not 0 */
    size_t padded; /* the file's length; 0 for any */
} heavies[] = {
    {"ordinary: 28,000 records", make_ordinary, 0, 0},
    {"65,535 nodes, RCID descending", make_descending, 0, 0},
    {"34 areas of 12,000 edges", make_circles, 0, 0},
    {"8 FFPT in each of 30,000 features", make_relations, 0, 0},
    {"42 areas of 12,000 loops", make_loops, 0, 0},
    {"55,000 features of one FOID, an FFPT each", make_one_object, 0, 0},
    {"52 records of 8,300 soundings", make_soundings, 0, 0},
    {"exactly 5,242,880 bytes", make_soundings, 0, LARGEST_FILE},
    {"5,242,881 bytes", make_soundings, CODE_LONG, LARGEST_FILE + 1},
    {"the last of 34 areas of 12,000 edges open", make_open_circle, CODE_RING, 0},
    {"the last of 240,000 FFPT missing", make_missing_object, CODE_POINTER, 0},
    {"ordinary, a wrong value in the last record", make_late_value, CODE_VALUE, 0},
    {"ordinary, the last record's FOID cut short", make_late_layout, CODE_LAYOUT, 0},
};

size_t heavy_cells(void)
{
    return sizeof heavies / sizeof heavies[0];
}

const char *heavy_cell_name(size_t index)
{
    return heavies[index].name;
}

struct judge_case heavy_cell_make(size_t index)
{
    const struct heavy *heavy = &heavies[index];
    struct random random = {index + 1};
    struct judge_case made = {.kind = heavy->name, .known = true};
    struct chart chart = heavy->make(&random);
    struct draft draft = {0};
    write_large(&chart, heavy->padded, &draft, &random);
    made.records = draft.count;
    if (heavy->code != CODE_DONE)
        made.verdict = (struct answer){.code = heavy->code, .file = 1, .record = heavy->code == CODE_LONG ? 0 : (uint32_t)draft.count - 1};
    made.cell = draft.file;
    free(draft.records);
    chart_free(&chart);
    return made;
}
