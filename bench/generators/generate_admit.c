/* Which seed makes which case of Admit. A good cell's held form is taken from its structure, before the cell is written in one of the many ways that are
   legal: lists in several fields, records in any order, numbers with leading zeros, any running numbers, wide sizes, odd leaders, another record 0. */
#include "generate_admit.h"

#include <stdio.h>
#include <string.h>

static const char *const MANY_WAYS = "good, held form known";
static const char *const LARGER = "good, larger, held form known";
static const char *const STEPS = "fields of about 10, 100, 1,000 and 10,000 bytes";
static const char *const AGAIN = "a held form";

enum { OWN_KINDS = 4 };

size_t admit_kinds(void)
{
    return OWN_KINDS + judge_kinds();
}

const char *admit_kind(size_t index)
{
    const char *const own[OWN_KINDS] = {MANY_WAYS, LARGER, STEPS, AGAIN};
    return index < OWN_KINDS ? own[index] : judge_kind(index - OWN_KINDS);
}

/* ---- ways that don't change the held form, save for the two numbers themselves */

uint32_t any_number(uint32_t least, uint32_t most, struct random *random)
{
    static const uint32_t steps[] = {0, 1, 9, 10, 99, 100, 101, 999, 1000, 9999};
    uint32_t number = steps[random_below(random, sizeof steps / sizeof steps[0])];
    return number >= least && number <= most && random_one_in(random, 2) ? number : random_between(random, least, most);
}

void spell(struct chart_field *field, const char *label, uint32_t number, int width, struct random *random)
{
    char text[16];
    int length = snprintf(text, sizeof text, "%0*u", (int)random_between(random, 1, (uint32_t)width), (unsigned)number);
    replace_bytes(&field->content, subfield_place(field, 0, label), text, (size_t)length);
}

static void spell_numbers(struct chart *cell, struct random *random)
{
    struct chart_field *dsid = &cell->list.record[1].field[1];
    spell(dsid, "EDTN", any_number(1, 9999, random), 4, random);
    spell(dsid, "UPDN", any_number(0, 999, random), 3, random);
}

static void number_anyhow(struct chart *cell, struct random *random)
{
    for (size_t i = 1; i < cell->list.count; i++)
        set_number(cell->list.record[i].field[0].content.bytes, 2, random_next(random));
}

/* Split up to four times over, a list of a few entries may end with a field for each. */
static void finish(struct admit_case *made, struct chart *cell, struct random *random)
{
    spell_numbers(cell, random);
    made->known = true;
    made->held = held_of_chart(cell);
    if (random_one_in(random, 2))
        number_anyhow(cell, random);
    for (uint32_t times = random_below(random, 5); times > 0; times--)
        split_lists(cell, random);
    describe_chart(cell, random_one_in(random, 4), random);
    made->cell = write_file(cell, false, random, &made->records);
    chart_free(cell);
}

/* ---- cells whose sizes are about to need another digit */

static size_t near_step(struct random *random)
{
    static const size_t steps[] = {10, 100, 100, 1000, 1000, 10000};
    return steps[random_below(random, sizeof steps / sizeof steps[0])] - 2 + random_below(random, 5);
}

/* A list of attributes whose field has that many bytes, at least 4, its closing 1E counted. */
static void put_sized(struct chart_record *record, const char *tag, size_t size, struct random *random)
{
    enum { SHORTEST = 3 };
    struct buffer *content = &add_field(record, tag)->content;
    uint32_t label = random_below(random, 65536);
    for (size_t left = size - 1; left > 0; label++) {
        size_t length = left < 2 * SHORTEST || random_one_in(random, 3) ? left : random_between(random, SHORTEST, (uint32_t)(left - SHORTEST));
        put_number(content, 2, label & 0xFFFF);
        for (size_t i = SHORTEST; i < length; i++)
            *buffer_more(content, 1) = (uint8_t)random_between(random, 0x20, 0x7E);
        put_text(content, "");
        left -= length;
    }
}

/* The list's own field near a step, or what stands behind it: the bytes before it are `before`. */
static void put_near(struct chart_record *record, const char *tag, size_t before, struct random *random)
{
    enum { LEAST = 4 };
    size_t size = near_step(random);
    if (size >= before + LEAST && random_one_in(random, 2))
        size -= before;
    put_sized(record, tag, size, random);
}

static void put_near_node(struct chart *cell, uint8_t class, uint32_t id, struct random *random)
{
    enum { BEFORE = 3 + 9 };
    struct chart_record *record = put_vector(cell, class, id);
    put_near(record, "ATTV", BEFORE, random);
    put_number(&add_field(record, "SG2D")->content, 8, random_next(random) & UINT64_C(0x0FFFFFFF0FFFFFFF));
}

static void put_near_collection(struct chart *cell, uint32_t id, struct random *random)
{
    enum { BEFORE = 3 + 13 + 9 };
    size_t before = BEFORE;
    struct chart_record *record = put_feature(cell, id, 255, 400, id);
    if (random_one_in(random, 2)) {
        put_near(record, "ATTF", before, random);
        before += record->field[record->count - 1].content.length + 1;
    }
    put_near(record, "NATF", before, random);
    struct buffer *content = &add_field(record, "FFPT")->content;
    for (uint32_t relations = random_between(random, 1, 12); relations > 0; relations--) {
        put_number(content, 8, random_between(random, 1, id));
        put_number(content, 1, 2);
        put_text(content, random_one_in(random, 2) ? "" : "see there");
    }
}

static struct chart make_steps(struct random *random)
{
    struct chart cell = bare_cell(random);
    lengthen_text(&cell.list.record[1].field[1], near_step(random));
    lengthen_text(&cell.list.record[2].field[1], near_step(random));
    for (uint32_t id = random_between(random, 1, 3); id > 0; id--)
        put_near_node(&cell, random_one_in(random, 2) ? 110 : 120, id, random);
    for (uint32_t id = 1, last = random_below(random, 4); id <= last; id++)
        put_near_collection(&cell, id, random);
    count_records(&cell);
    return cell;
}

/* ---- the cases */

static void make_good(struct admit_case *made, struct random *random)
{
    struct scene_style style = scene_style_of(random);
    struct chart cell = make_cell(&style, random);
    made->kind = MANY_WAYS;
    finish(made, &cell, random);
}

static void make_larger(struct admit_case *made, struct random *random)
{
    struct scene_style style = larger_style_of(random);
    struct chart cell = make_cell(&style, random);
    made->kind = LARGER;
    finish(made, &cell, random);
}

static void make_near_steps(struct admit_case *made, struct random *random)
{
    struct chart cell = make_steps(random);
    made->kind = STEPS;
    finish(made, &cell, random);
}

static void make_again(struct admit_case *made, struct random *random)
{
    make_good(made, random);
    made->kind = AGAIN;
    made->cell.length = 0;
    buffer_put(&made->cell, made->held.bytes, made->held.length);
}

struct admit_case as_admit(const struct judge_case *judged)
{
    enum { MOST_RECORDS = 65536 };
    struct admit_case made = {
        .kind = judged->kind, .cell = judged->cell, .records = judged->records, .known = judged->known, .verdict = judged->verdict};
    if (made.verdict.code == CODE_DONE && made.records > MOST_RECORDS)
        made.verdict = (struct answer){.code = CODE_SIZE, .file = 3};
    return made;
}

struct admit_case admit_case_make(uint64_t seed)
{
    struct random random = {seed ^ UINT64_C(0xAD3172E155)};
    struct admit_case made = {0};
    struct judge_case judged;
    switch (seed % 8) {
    case 4:
    case 5:
        make_good(&made, &random);
        return made;
    case 6:
        make_near_steps(&made, &random);
        return made;
    case 7:
        (seed / 8 % 2 == 0 ? make_larger : make_again)(&made, &random);
        return made;
    default:
        judged = judge_case_make(seed / 8 * 4 + seed % 4);
        return as_admit(&judged);
    }
}

void admit_case_free(struct admit_case *made)
{
    buffer_free(&made->cell);
    buffer_free(&made->held);
}

/* ---- what the answer must be */

static bool same_answer(const struct answer *left, const struct answer *right)
{
    return left->code == right->code && left->file == right->file && left->record == right->record && left->number == right->number;
}

bool admit_agrees(const struct admit_case *made, const struct answer *answer, size_t work_length, size_t out_length)
{
    struct judge_case judged = {.records = made->records, .verdict = made->verdict};
    struct answer expected = judge_verdict(&judged, work_length);
    if (!made->known)
        return true;
    if (expected.code == CODE_DONE) {
        expected.number = made->held.length > 0 ? (uint32_t)made->held.length : answer->number;
        expected.code = out_length < expected.number ? CODE_ROOM : CODE_DONE;
    }
    return same_answer(answer, &expected);
}
