/* Which seed makes which case of Judge. */
#include "generate_judge.h"

#include <stdlib.h>
#include <string.h>

static const char *const GOOD = "good";
static const char *const POINTERS = "damaged: pointers and coordinates";
static const char *const RINGS = "damaged: rings, shapes and pointers kept";
static const char *const CONTENTS = "damaged: contents of fields";
static const char *const READING = "codes 1 to 8";
static const char *const TWO = "two rules of topology broken";

enum { OTHER_KINDS = 6 };

size_t judge_kinds(void)
{
    return OTHER_KINDS + topology_faults.count;
}

const char *judge_kind(size_t index)
{
    const char *const others[OTHER_KINDS] = {GOOD, POINTERS, RINGS, CONTENTS, READING, TWO};
    return index < OTHER_KINDS ? others[index] : topology_faults.rule[index - OTHER_KINDS].name;
}

/* Lists are split and record 0 is written after the fault was made: the place in held order stays. */
static void finish(struct judge_case *made, struct chart *cell, struct random *random)
{
    vary(cell, random);
    made->cell = write_file(cell, false, random, &made->records);
    chart_free(cell);
}

static struct chart any_cell(struct random *random)
{
    struct scene_style style = scene_style_of(random);
    return make_cell(&style, random);
}

/* ---- random damage to what topology looks at */

static void damage_byte(uint8_t *byte, struct random *random)
{
    static const uint8_t likely[] = {0, 1, 2, 3, 255, 110, 120, 130, 100, 4};
    if (random_one_in(random, 4))
        *byte ^= (uint8_t)(1u << random_below(random, 8));
    else
        *byte = likely[random_below(random, sizeof likely)];
}

/* An entry goes, comes twice, or comes from elsewhere in the list. */
static void damage_entries(struct chart_field *field, struct random *random)
{
    uint32_t entries = (uint32_t)count_entries(field);
    struct place chosen = entry_place(field, random_below(random, entries)), other = entry_place(field, random_below(random, entries));
    uint8_t copy[64];
    if (chosen.length > sizeof copy)
        return;
    memcpy(copy, field->content.bytes + chosen.start, chosen.length);
    if (entries > 1 && random_one_in(random, 3))
        buffer_remove(&field->content, chosen.start, chosen.length);
    else if (random_one_in(random, 2))
        memcpy(buffer_open(&field->content, other.start, chosen.length), copy, chosen.length);
    else
        replace_bytes(&field->content, other, copy, chosen.length);
}

void damage_pointers(struct chart *cell, struct random *random)
{
    static const char *const tags[] = {"VRPT", "FSPT", "FSPT", "FFPT", "SG2D", "SG3D", "FOID", "FRID"};
    const char *tag = tags[random_below(random, sizeof tags / sizeof tags[0])];
    size_t record, at;
    if (!pick_field(cell, tag, random, &record, &at))
        return;
    struct chart_field *field = &cell->list.record[record].field[at];
    if (has_tag(field, "FRID")) {
        field->content.bytes[5] = random_one_in(random, 4) ? 255 : (uint8_t)random_between(random, 1, 3);
        return;
    }
    if (row_of_tag(tag)->repeats && random_one_in(random, 2)) {
        damage_entries(field, random);
        return;
    }
    struct place entry = entry_place(field, random_below(random, (uint32_t)count_entries(field)));
    damage_byte(field->content.bytes + entry.start + random_below(random, has_tag(field, "FFPT") ? 8 : (uint32_t)entry.length), random);
}

static void make_damaged(struct judge_case *made, struct random *random)
{
    struct chart cell = any_cell(random);
    made->kind = POINTERS;
    for (uint32_t times = random_between(random, 1, 3); times > 0; times--)
        damage_pointers(&cell, random);
    finish(made, &cell, random);
}

/* ---- random damage to rings alone: the answer is 0 or 19. With few nodes many a walk closes by chance. */

enum { FSPT_SIZE = 8, VRPT_SIZE = 9 };

/* A record of the class, if there is one. */
static const struct chart_record *any_of_class(const struct chart *cell, uint8_t class, struct random *random)
{
    const struct chart_record *chosen = NULL;
    uint32_t met = 0;
    for (size_t i = 3; i < cell->list.count; i++)
        if (cell->list.record[i].field[1].content.bytes[0] == class && random_one_in(random, ++met))
            chosen = &cell->list.record[i];
    return chosen;
}

/* Another usage, and a MASK that goes with it. */
static void change_usage(uint8_t *entry, struct random *random)
{
    entry[6] = (uint8_t)random_between(random, 1, 3);
    entry[7] = entry[6] == 3 ? 255 : (uint8_t)random_between(random, 1, 2);
}

static void damage_area(struct chart *cell, struct chart_field *field, struct random *random)
{
    uint32_t edges = (uint32_t)field->content.length / FSPT_SIZE;
    uint8_t *entry = field->content.bytes + FSPT_SIZE * random_below(random, edges), kept[FSPT_SIZE];
    uint8_t *other = field->content.bytes + FSPT_SIZE * random_below(random, edges);
    switch (random_below(random, 6)) {
    case 0:
        entry[5] = (uint8_t)(3 - entry[5]);
        break;
    case 1:
        memcpy(kept, entry, sizeof kept);
        memcpy(entry, other, sizeof kept);
        memcpy(other, kept, sizeof kept);
        break;
    case 2:
        change_usage(entry, random);
        break;
    case 3:
        memcpy(entry, any_of_class(cell, 130, random)->field[1].content.bytes, 5);
        break;
    default:
        damage_entries(field, random);
    }
}

/* An area's boundary, or the node that an edge ends at. */
void damage_ring(struct chart *cell, struct random *random)
{
    size_t record, at;
    const struct chart_record *node = any_of_class(cell, 120, random);
    if (random_one_in(random, 6) && node != NULL && pick_field(cell, "VRPT", random, &record, &at)) {
        uint8_t *end = cell->list.record[record].field[at].content.bytes + VRPT_SIZE * random_below(random, 2);
        memcpy(end, node->field[1].content.bytes, 5);
    }
    if (pick_field(cell, "FSPT", random, &record, &at) && cell->list.record[record].field[1].content.bytes[5] == 3)
        damage_area(cell, &cell->list.record[record].field[at], random);
}

static void make_rings_damaged(struct judge_case *made, struct random *random)
{
    struct scene_style style = {.connected = random_between(random, 1, 4), .areas = random_between(random, 1, 3),
                                .longest_ring = random_between(random, 1, 6), .most_holes = 3, .plain = random_one_in(random, 2)};
    struct chart cell = make_cell(&style, random);
    made->kind = RINGS;
    for (uint32_t times = random_between(random, 1, 3); times > 0; times--)
        damage_ring(&cell, random);
    finish(made, &cell, random);
}

static void make_contents_damaged(struct judge_case *made, struct random *random)
{
    struct chart cell = any_cell(random);
    vary(&cell, random);
    damage_contents(&cell, random);
    made->kind = CONTENTS;
    made->cell = write_file(&cell, false, random, &made->records);
    chart_free(&cell);
}

/* ---- the others */

static void make_good(struct judge_case *made, struct random *random)
{
    struct chart cell = any_cell(random);
    made->kind = GOOD;
    made->known = true;
    finish(made, &cell, random);
}

/* The cell of a case of reading. Where that has no update, its verdict is the cell's. */
static void make_reading(struct judge_case *made, uint64_t seed)
{
    struct read_case read = read_case_make(seed);
    made->kind = READING;
    made->known = read.known && !read.both;
    made->records = read.cell_records;
    made->cell = read.cell;
    if (read.verdict.file == 1)
        made->verdict = read.verdict;
    buffer_free(&read.update);
}

static void make_broken(struct judge_case *made, const struct chart_rule *rule, struct random *random)
{
    struct fault fault;
    struct chart cell = any_cell(random);
    while (!rule->apply(&cell, rule->way, random, &fault)) {
        chart_free(&cell);
        cell = any_cell(random);
    }
    made->kind = rule->name;
    made->known = true;
    made->verdict = (struct answer){.code = fault.code, .file = 1, .record = (uint32_t)fault.record};
    finish(made, &cell, random);
}

/* Which of the two is told depends on both: nobody knows here. */
static void make_twice_broken(struct judge_case *made, struct random *random)
{
    struct fault fault;
    struct scene_style style = scene_style_of(random);
    struct chart cell = make_cell(&style, random);
    for (unsigned broken = 0; broken < 2 && cell.list.count > 12; broken++) {
        const struct chart_rule *rule = &topology_faults.rule[random_below(random, (uint32_t)topology_faults.count)];
        rule->apply(&cell, rule->way, random, &fault);
    }
    made->kind = TWO;
    finish(made, &cell, random);
}

struct judge_case judge_case_make(uint64_t seed)
{
    struct random random = {seed ^ UINT64_C(0x70B0106EA11)};
    struct judge_case made = {0};
    switch (seed % 8) {
    case 0:
        make_good(&made, &random);
        break;
    case 1:
        make_damaged(&made, &random);
        break;
    case 2:
        make_rings_damaged(&made, &random);
        break;
    case 3:
        if (seed / 8 % 4 == 0)
            make_contents_damaged(&made, &random);
        else if (seed / 8 % 4 == 1)
            make_twice_broken(&made, &random);
        else
            make_reading(&made, seed / 8 * 5 + 4);
        break;
    default:
        make_broken(&made, &topology_faults.rule[(seed / 8 * 4 + seed % 4) % topology_faults.count], &random);
    }
    return made;
}

struct answer judge_verdict(const struct judge_case *made, size_t work_length)
{
    enum { WORK_A_RECORD = 16 };
    size_t needed = WORK_A_RECORD * made->records;
    bool framed = made->verdict.code != CODE_LONG && made->verdict.code != CODE_FRAME;
    return framed && work_length < needed ? (struct answer){.code = CODE_WORK, .number = (uint32_t)needed} : made->verdict;
}
