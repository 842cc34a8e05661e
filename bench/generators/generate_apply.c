/* Which seed makes which case of Apply. */
#include "generate_apply.h"

#include <stdlib.h>
#include <string.h>

static const char *const BACK = "good, found from its result";
static const char *const LARGER = "good, larger, found from its result";
static const char *const FORTH = "good, a chart that was changed";
static const char *const NOTHING = "good, an update without records";
static const char *const POINTERS = "result damaged: pointers and coordinates";
static const char *const RINGS = "result damaged: rings, shapes and pointers kept";
static const char *const TWO = "two rules of topology broken in the result";
static const char *const FIELDS = "damaged: fields and records";
static const char *const CONTENTS = "damaged: contents of fields";
static const char *const BYTES = "damaged: any bytes of a file";
static const char *const READING = "codes 1 to 8";

enum { OWN_KINDS = 11 };

size_t apply_kinds(void)
{
    return OWN_KINDS + update_fault_count() + topology_faults.count;
}

const char *apply_kind(size_t index)
{
    const char *const own[OWN_KINDS] = {BACK, LARGER, FORTH, NOTHING, POINTERS, RINGS, TWO, FIELDS, CONTENTS, BYTES, READING};
    if (index < OWN_KINDS)
        return own[index];
    index -= OWN_KINDS;
    return index < update_fault_count() ? update_faults[index].name : topology_faults.rule[index - update_fault_count()].name;
}

/* ---- files */

/* Split up to four times over, a list of a few entries may end with a field for each. */
static struct buffer write_anyhow(struct chart *chart, struct random *random, size_t *records)
{
    for (uint32_t times = random_below(random, 5); times > 0; times--)
        split_lists(chart, random);
    describe_chart(chart, random_one_in(random, 4), random);
    return write_file(chart, false, random, records);
}

void finish_pair(struct apply_case *made, struct chart_pair *pair, struct random *random)
{
    made->cell = write_anyhow(&pair->cell, random, &made->records);
    made->update = write_anyhow(&pair->update, random, &made->records);
    pair_free(pair);
}

/* ---- results */

static struct chart any_result(struct random *random)
{
    struct scene_style style = scene_style_of(random);
    return make_cell(&style, random);
}

static struct chart_pair any_pair(struct random *random)
{
    struct chart result = any_result(random);
    return pair_back(&result, NULL, random);
}

static void make_back(struct apply_case *made, struct chart *result, struct random *random)
{
    struct chart_pair pair = pair_back(result, NULL, random);
    made->known = true;
    made->held = held_of_chart(&pair.result);
    finish_pair(made, &pair, random);
}

static void make_good(struct apply_case *made, struct random *random)
{
    struct chart result = any_result(random);
    made->kind = BACK;
    make_back(made, &result, random);
}

static void make_larger(struct apply_case *made, struct random *random)
{
    struct scene_style style = larger_style_of(random);
    struct chart result = make_cell(&style, random);
    made->kind = LARGER;
    make_back(made, &result, random);
}

/* A chart changed forth, any number of records or none. */
static void make_forth(struct apply_case *made, struct random *random)
{
    struct chart_pair pair = {.result = any_result(random)};
    struct step_style style = {.actions = random_one_in(random, 6) ? 0 : random_between(random, 1, 20)};
    struct numbering numbering = any_numbering(random);
    number_before(&pair.result, &numbering, random);
    pair.cell = copy_chart(&pair.result);
    pair.update = next_update(&pair.result, &style, random);
    made->kind = style.actions == 0 ? NOTHING : FORTH;
    made->known = true;
    made->held = held_of_chart(&pair.result);
    finish_pair(made, &pair, random);
}

/* ---- results that topology refuses */

static void leave_to_judge(struct apply_case *made, const struct chart_pair *pair)
{
    made->left_to_judge = true;
    made->held = held_of_chart(&pair->result);
}

void apply_case_judged(struct apply_case *made, const struct answer *judged)
{
    made->left_to_judge = false;
    made->known = true;
    made->verdict = (struct answer){.code = judged->code, .file = judged->code == CODE_DONE ? 0 : 3, .record = judged->record};
    if (judged->code != CODE_DONE)
        buffer_free(&made->held);
}

static void make_damaged(struct apply_case *made, struct random *random)
{
    bool rings = random_one_in(random, 3);
    struct scene_style style = scene_style_of(random);
    if (rings)
        style = (struct scene_style){.connected = random_between(random, 1, 4), .areas = random_between(random, 1, 3),
                                     .longest_ring = random_between(random, 1, 6), .most_holes = 3, .plain = random_one_in(random, 2)};
    struct chart result = make_cell(&style, random);
    made->kind = rings ? RINGS : POINTERS;
    for (uint32_t times = random_between(random, 1, 3); times > 0; times--)
        (rings ? damage_ring : damage_pointers)(&result, random);
    struct chart_pair pair = pair_back(&result, NULL, random);
    leave_to_judge(made, &pair);
    finish_pair(made, &pair, random);
}

/* Records that a fault has taken away are in the cell, and the update deletes them. */
static struct record_list missing(const struct chart *before, const struct chart *after)
{
    struct record_list gone = {0};
    for (size_t i = FIRST_CELL_ITEM; i < before->list.count; i++)
        if (find_item(after, FIRST_CELL_ITEM, name_of_record(&before->list.record[i])) == NULL)
            *add_record(&gone) = copy_record(&before->list.record[i]);
    return gone;
}

/* One result after another until one has something to break the rule in. */
static struct chart broken_result(const struct chart_rule *rule, struct random *random, struct record_list *gone, struct fault *fault)
{
    for (;;) {
        struct chart before = any_result(random), result = copy_chart(&before);
        bool broken = rule->apply(&result, rule->way, random, fault);
        if (broken)
            *gone = missing(&before, &result);
        chart_free(&before);
        if (broken)
            return result;
        chart_free(&result);
    }
}

static void make_topology(struct apply_case *made, const struct chart_rule *rule, struct random *random)
{
    struct fault fault;
    struct record_list gone = {0};
    struct chart result = broken_result(rule, random, &gone, &fault), rest;
    join_lists(&result);
    struct chart_pair pair = pair_back(&result, &gone, random);
    made->kind = rule->name;
    made->known = true;
    made->verdict = (struct answer){.code = fault.code, .file = 3, .record = (uint32_t)fault.record};
    finish_pair(made, &pair, random);
    rest = (struct chart){.list = gone};
    chart_free(&rest);
}

static void make_twice_broken(struct apply_case *made, struct random *random)
{
    struct fault fault;
    struct chart result = any_result(random);
    for (unsigned broken = 0; broken < 2 && result.list.count > 12; broken++) {
        const struct chart_rule *rule = &topology_faults.rule[random_below(random, (uint32_t)topology_faults.count)];
        rule->apply(&result, rule->way, random, &fault);
    }
    join_lists(&result);
    struct chart_pair pair = pair_back(&result, NULL, random);
    made->kind = TWO;
    leave_to_judge(made, &pair);
    finish_pair(made, &pair, random);
}

/* ---- updates that are refused */

/* At times the result is wrong as well: that comes later. */
static void make_broken(struct apply_case *made, const struct pair_rule *rule, struct random *random)
{
    struct fault fault;
    struct chart_pair pair = any_pair(random);
    while (!rule->apply(&pair, rule->way, random, &fault)) {
        pair_free(&pair);
        pair = any_pair(random);
    }
    made->kind = rule->name;
    made->known = true;
    made->verdict = (struct answer){.code = fault.code, .file = 2, .record = (uint32_t)fault.record};
    finish_pair(made, &pair, random);
}

/* ---- files that are damaged: nobody knows what is to be said of them */

static void make_chart_damaged(struct apply_case *made, void (*damage)(struct chart *chart, struct random *random), struct random *random)
{
    struct chart_pair pair = any_pair(random);
    struct chart *damaged = random_one_in(random, 4) ? &pair.cell : &pair.update;
    vary(&pair.cell, random);
    vary(&pair.update, random);
    for (uint32_t times = random_between(random, 1, 2); times > 0; times--)
        damage(damaged, random);
    made->cell = write_file(&pair.cell, false, random, &made->records);
    made->update = write_file(&pair.update, false, random, &made->records);
    pair_free(&pair);
}

static struct buffer write_damaged(struct chart *chart, struct random *random, size_t *records)
{
    struct style style = {.least_digits = 1, .plain = random_one_in(random, 2)};
    struct draft draft = {0};
    vary(chart, random);
    write_chart(chart, &style, &draft, random);
    *records += draft.count;
    draft_damage(&draft, random);
    free(draft.records);
    return draft.file;
}

static void make_bytes_damaged(struct apply_case *made, struct random *random)
{
    struct chart_pair pair = any_pair(random);
    bool cell = random_one_in(random, 3);
    made->cell = (cell ? write_damaged : write_anyhow)(&pair.cell, random, &made->records);
    made->update = (cell ? write_anyhow : write_damaged)(&pair.update, random, &made->records);
    pair_free(&pair);
}

/* A case of reading that has an update. Where both files are good nobody knows whether they fit. */
static void make_reading(struct apply_case *made, uint64_t seed)
{
    struct read_case read = read_case_make(seed);
    while (!read.both) {
        read_case_free(&read);
        read = read_case_make(seed += 8);
    }
    made->kind = READING;
    made->known = read.known && read.verdict.code != CODE_DONE;
    made->verdict = read.verdict;
    made->records = read.records;
    made->cell = read.cell;
    made->update = read.update;
}

static void make_rarer(struct apply_case *made, uint64_t seed, struct random *random)
{
    switch (seed % 8) {
    case 0:
        made->kind = FIELDS;
        make_chart_damaged(made, damage_fields, random);
        break;
    case 1:
        made->kind = BYTES;
        make_bytes_damaged(made, random);
        break;
    case 2:
        make_twice_broken(made, random);
        break;
    case 3:
    case 4:
        make_reading(made, seed);
        break;
    default:
        made->kind = CONTENTS;
        make_chart_damaged(made, damage_contents, random);
    }
}

/* ---- cases */

struct apply_case apply_case_make(uint64_t seed)
{
    struct random random = {seed ^ UINT64_C(0xA9917EDC4A7)};
    struct apply_case made = {0};
    switch (seed % 8) {
    case 0:
        make_good(&made, &random);
        break;
    case 1:
        (seed / 8 % 4 == 0 ? make_larger : make_forth)(&made, &random);
        break;
    case 2:
        make_damaged(&made, &random);
        break;
    case 3:
        make_rarer(&made, seed / 8, &random);
        break;
    case 4:
        make_topology(&made, &topology_faults.rule[seed / 8 % topology_faults.count], &random);
        break;
    default:
        make_broken(&made, &update_faults[(seed / 8 * 3 + seed % 8 - 5) % update_fault_count()], &random);
    }
    return made;
}

void apply_case_free(struct apply_case *made)
{
    buffer_free(&made->cell);
    buffer_free(&made->update);
    buffer_free(&made->held);
}

/* ---- a series */

struct series series_make(uint64_t seed)
{
    struct random random = {seed ^ UINT64_C(0x5E41E50F10)};
    struct series series = {0};
    struct chart model = any_result(&random), base;
    struct numbering numbering = {.edition = any_number(1, 9999, &random), .number = any_number(1, 990, &random), .date = "20240101"};
    number_before(&model, &numbering, &random);
    base = copy_chart(&model);
    series.base = write_anyhow(&base, &random, &series.base_records);
    chart_free(&base);
    struct buffer held = held_of_chart(&model);
    for (size_t i = 0; i < SERIES; i++) {
        struct apply_case *step = &series.step[i];
        struct step_style style = {.actions = random_between(&random, 1, 12)};
        step->kind = "series of ten updates";
        step->known = true;
        step->records = model.list.count;
        struct chart update = next_update(&model, &style, &random);
        buffer_put(&step->cell, held.bytes, held.length);
        step->update = write_anyhow(&update, &random, &step->records);
        chart_free(&update);
        buffer_free(&held);
        held = held_of_chart(&model);
        buffer_put(&step->held, held.bytes, held.length);
    }
    buffer_free(&held);
    chart_free(&model);
    return series;
}

void series_free(struct series *series)
{
    for (size_t i = 0; i < SERIES; i++)
        apply_case_free(&series->step[i]);
    buffer_free(&series->base);
}

/* ---- what the answer must be */

static bool same_answer(const struct answer *left, const struct answer *right)
{
    return left->code == right->code && left->file == right->file && left->record == right->record && left->number == right->number;
}

bool apply_agrees(const struct apply_case *made, const struct answer *answer, size_t work_length, size_t out_length)
{
    struct judge_case judged = {.records = made->records, .verdict = made->verdict};
    struct answer expected = judge_verdict(&judged, work_length);
    if (!made->known)
        return true;
    if (expected.code == CODE_DONE) {
        expected.number = made->held.length > 0 ? (uint32_t)made->held.length : answer->number;
        expected.code = out_length < expected.number ? CODE_ROOM : CODE_DONE;
    }
    return same_answer(answer, &expected);
}

/* ---- large ones */

size_t large_applies(void)
{
    return heavy_applies() + limit_applies();
}

const char *large_apply_name(size_t index)
{
    return index < heavy_applies() ? heavy_apply_name(index) : limit_apply_name(index - heavy_applies());
}

struct apply_case large_apply_make(size_t index)
{
    return index < heavy_applies() ? heavy_apply_make(index) : limit_apply_make(index - heavy_applies());
}
