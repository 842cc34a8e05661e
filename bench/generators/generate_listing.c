/* Which seed makes which cell for the listing, and the cells at its limits. */
#include "generate_listing.h"

#include <stdlib.h>
#include <string.h>

enum { LONGEST = 65536, SHORTEST_RECORD = 32 };

/* ---- a seed's cell */

static const char *const LARGER = "good, larger";

size_t listing_kinds(void)
{
    return judge_kinds() + 1;
}

const char *listing_kind(size_t index)
{
    return index < judge_kinds() ? judge_kind(index) : LARGER;
}

static struct listing_case as_listing(const struct judge_case *made)
{
    return (struct listing_case){.kind = made->kind, .cell = made->cell, .known = made->known, .verdict = made->verdict};
}

/* Now and then a cell passes the limit. */
static struct listing_case make_larger(struct random *random)
{
    struct scene_style style = larger_style_of(random);
    size_t records = 0;
    struct chart chart = make_cell(&style, random);
    vary(&chart, random);
    struct listing_case made = {.kind = LARGER, .known = true, .cell = write_file(&chart, false, random, &records)};
    if (made.cell.length > LONGEST)
        made.verdict = (struct answer){.code = CODE_LONG, .file = 1};
    chart_free(&chart);
    return made;
}

struct listing_case listing_case_make(uint64_t seed)
{
    struct random random = {seed ^ UINT64_C(0x115717)};
    struct judge_case judged;
    switch (seed % 4) {
    case 2:
        judged = judge_case_make(8 * seed); /* a good one */
        return as_listing(&judged);
    case 3:
        return make_larger(&random);
    default:
        judged = judge_case_make(seed / 4 * 2 + seed % 4);
        return as_listing(&judged);
    }
}

/* ---- parts of the cells at a limit */

/* The bytes that close fields and texts, where they close nothing. */
static const uint32_t CLOSING_ID = 0x1E1F1F1F;
static const uint64_t CLOSING_OBJECT = UINT64_C(0x1F1F1E1F1F1E1F1F);

static void put_pair(struct buffer *content)
{
    put_number(content, 8, CLOSING_OBJECT & UINT64_C(0x00FFFFFF00FFFFFF));
}

static struct chart_record *put_node(struct chart *chart, uint32_t id)
{
    struct chart_record *record = put_vector(chart, 120, id);
    put_pair(&add_field(record, "SG2D")->content);
    return record;
}

static struct chart_record *put_edge(struct chart *chart, uint32_t id, uint32_t begin, uint32_t end)
{
    struct chart_record *record = put_vector(chart, 130, id);
    struct buffer *content = &add_field(record, "VRPT")->content;
    for (uint8_t topology = 1; topology <= 2; topology++) {
        put_number(content, 1, 120);
        put_number(content, 4, topology == 1 ? begin : end);
        put_number(content, 2, 0xFFFF);
        put_number(content, 1, topology);
        put_number(content, 1, 0xFF);
    }
    return record;
}

static void put_line(struct chart *chart, uint32_t id, uint32_t edge, size_t times)
{
    struct buffer *content = &add_field(put_feature(chart, id, 2, 30, CLOSING_OBJECT), "FSPT")->content;
    for (; times > 0; times--) {
        put_number(content, 1, 130);
        put_number(content, 4, edge);
        put_number(content, 1, 1);
        put_number(content, 1, 0xFF);
        put_number(content, 1, 2);
    }
}

/* Without values; the labels run through all bytes. */
static void put_labels(struct chart_record *record, const char *tag, uint32_t count)
{
    struct buffer *content = &add_field(record, tag)->content;
    for (uint32_t label = 1; label <= count; label++) {
        put_number(content, 2, label);
        put_text(content, "");
    }
}

/* ---- the cells. A length of 0 leaves it to the content. */

static struct buffer written(struct chart *chart, size_t length, struct random *random)
{
    struct draft draft = {0};
    write_large(chart, length, &draft, random);
    free(draft.records);
    chart_free(chart);
    return draft.file;
}

static struct buffer make_zeros(size_t length)
{
    struct buffer cell = {0};
    if (length > 0)
        memset(buffer_more(&cell, length), 0, length);
    return cell;
}

/* As many records as its bytes allow, none of them more than framed: for these the work area just suffices. */
static struct buffer make_shortest(size_t length)
{
    struct draft draft = {0};
    struct style style = {.least_digits = 1, .plain = true};
    struct random random = {1};
    uint32_t field = 1;
    for (size_t i = 0; i < length / SHORTEST_RECORD; i++)
        draft_record(&draft, &style, &field, 1, &random);
    free(draft.records);
    return draft.file;
}

static struct buffer make_bare(size_t length)
{
    struct random random = {1};
    struct chart chart = bare_cell(&random);
    return written(&chart, length, &random);
}

/* "Two connected nodes, their edge and a line" */
static struct buffer make_example(size_t length)
{
    struct random random = {1};
    struct chart chart = bare_cell(&random);
    put_node(&chart, 1);
    put_node(&chart, 2);
    put_edge(&chart, 1, 1, 2);
    put_line(&chart, 1, 1, 1);
    return written(&chart, length, &random);
}

/* As many lines as fit, more or less, and as long as they get, in the wrong order. */
static struct buffer make_nodes(size_t length)
{
    enum { NODES = 940, VERSION = 5 };
    struct random random = {1};
    struct chart chart = bare_cell(&random);
    for (uint32_t i = 0; i < NODES; i++)
        set_number(put_node(&chart, UINT32_C(4294967294) - i)->field[1].content.bytes + VERSION, 2, 65535);
    return written(&chart, length, &random);
}

static struct buffer make_pairs(size_t length)
{
    struct random random = {1};
    struct chart chart = bare_cell(&random);
    put_node(&chart, CLOSING_ID);
    struct buffer *content = &add_field(put_edge(&chart, CLOSING_ID, CLOSING_ID, CLOSING_ID), "SG2D")->content;
    for (size_t i = 0; i < 7700; i++)
        put_pair(content);
    return written(&chart, length, &random);
}

static struct buffer make_soundings(size_t length)
{
    struct random random = {1};
    struct chart chart = bare_cell(&random);
    struct buffer *content = &add_field(put_vector(&chart, 110, CLOSING_ID), "SG3D")->content;
    for (size_t i = 0; i < 5100; i++) {
        put_pair(content);
        put_number(content, 4, CLOSING_ID);
    }
    return written(&chart, length, &random);
}

static struct buffer make_attributes(size_t length)
{
    struct random random = {1};
    struct chart chart = bare_cell(&random);
    struct chart_record *record = put_feature(&chart, CLOSING_ID, 255, 400, CLOSING_OBJECT);
    put_labels(record, "ATTF", 12000);
    put_labels(record, "NATF", 8500);
    return written(&chart, length, &random);
}

static struct buffer make_vector_attributes(size_t length)
{
    struct random random = {1};
    struct chart chart = bare_cell(&random);
    struct chart_record *record = put_vector(&chart, 120, CLOSING_ID);
    put_labels(record, "ATTV", 20500);
    put_pair(&add_field(record, "SG2D")->content);
    return written(&chart, length, &random);
}

static struct buffer make_relations(size_t length)
{
    struct random random = {1};
    struct chart chart = bare_cell(&random);
    struct buffer *content = &add_field(put_feature(&chart, CLOSING_ID, 255, 401, CLOSING_OBJECT), "FFPT")->content;
    for (size_t i = 0; i < 6200; i++) {
        put_number(content, 8, CLOSING_OBJECT);
        put_number(content, 1, 3);
        put_text(content, "");
    }
    return written(&chart, length, &random);
}

static struct buffer make_boundaries(size_t length)
{
    struct random random = {1};
    struct chart chart = bare_cell(&random);
    put_node(&chart, CLOSING_ID);
    put_edge(&chart, CLOSING_ID, CLOSING_ID, CLOSING_ID);
    put_line(&chart, CLOSING_ID, CLOSING_ID, 7600);
    return written(&chart, length, &random);
}

/* ---- the table */

#define HEADER "index\tname\tid\tversion\tattributes\tpointers\tcoordinates\n"
#define REFUSED(code) "refused\t" #code "\t1\t0\n"
#define ONE_ID "\t505356063\t1\t"

static const struct limit {
    const char *name;
    struct buffer (*make)(size_t length);
    size_t length;
    uint32_t code; /* of record 0, if not 0 */
    const char *text;
} limits[] = {
    {"no bytes", make_zeros, 0, CODE_FRAME, REFUSED(2)},
    {"no vectors and features", make_bare, 0, CODE_DONE, HEADER},
    {"document 01's example", make_example, 0, CODE_DONE,
     HEADER "3\t120\t1\t1\t0\t0\t1\n4\t120\t2\t1\t0\t0\t1\n5\t130\t1\t1\t0\t2\t0\n6\t100\t1\t1\t0\t1\t0\n"},
    {"no vectors and features, 65,536 bytes", make_bare, LONGEST, CODE_DONE, HEADER},
    {"no vectors and features, 65,537 bytes", make_bare, LONGEST + 1, CODE_LONG, REFUSED(1)},
    {"940 nodes, RCID descending", make_nodes, 0, CODE_DONE, NULL},
    {"940 nodes, 65,536 bytes", make_nodes, LONGEST, CODE_DONE, NULL},
    {"940 nodes, 65,537 bytes", make_nodes, LONGEST + 1, CODE_LONG, REFUSED(1)},
    {"65,535 zero bytes", make_zeros, LONGEST - 1, CODE_FRAME, REFUSED(2)},
    {"65,536 zero bytes", make_zeros, LONGEST, CODE_FRAME, REFUSED(2)},
    {"65,537 zero bytes", make_zeros, LONGEST + 1, CODE_LONG, REFUSED(1)},
    {"5,242,881 zero bytes", make_zeros, 5242881, CODE_LONG, REFUSED(1)},
    {"2,048 records of 32 bytes", make_shortest, LONGEST, CODE_DESCRIBED, REFUSED(4)},
    {"2,049 records of 32 bytes", make_shortest, LONGEST + SHORTEST_RECORD, CODE_LONG, REFUSED(1)},
    {"7,700 pairs", make_pairs, 0, CODE_DONE, HEADER "3\t120" ONE_ID "0\t0\t1\n4\t130" ONE_ID "0\t2\t7700\n"},
    {"5,100 soundings", make_soundings, 0, CODE_DONE, HEADER "3\t110" ONE_ID "0\t0\t5100\n"},
    {"20,500 attributes, 8,500 national", make_attributes, 0, CODE_DONE, HEADER "3\t100" ONE_ID "20500\t0\t0\n"},
    {"20,500 attributes of a vector", make_vector_attributes, 0, CODE_DONE, HEADER "3\t120" ONE_ID "20500\t0\t1\n"},
    {"6,200 pointers to features", make_relations, 0, CODE_DONE, HEADER "3\t100" ONE_ID "0\t6200\t0\n"},
    {"7,600 pointers to vectors", make_boundaries, 0, CODE_DONE,
     HEADER "3\t120" ONE_ID "0\t0\t1\n4\t130" ONE_ID "0\t2\t0\n5\t100" ONE_ID "0\t7600\t0\n"},
};

size_t limit_cells(void)
{
    return sizeof limits / sizeof limits[0];
}

const char *limit_cell_name(size_t index)
{
    return limits[index].name;
}

struct listing_case limit_cell_make(size_t index)
{
    const struct limit *limit = &limits[index];
    struct listing_case made = {.kind = limit->name, .cell = limit->make(limit->length), .known = true, .text = limit->text};
    if (limit->code != CODE_DONE)
        made.verdict = (struct answer){.code = limit->code, .file = 1};
    return made;
}
