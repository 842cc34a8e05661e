/* Which seed makes which case of reading. */
#include "generate_read.h"

#include <stdlib.h>
#include <string.h>

static const char *const GOOD = "good";
static const char *const FIELDS = "damaged: fields and records";
static const char *const CONTENTS = "damaged: contents of fields";
static const char *const BYTES = "damaged: any bytes of the file";
static const char *const TWO = "two rules of one file broken";
static const char *const BOTH = "cell and update broken";
static const char *const FRAMING = "framing broken";
static const char *const NO_UPDATE = "an update of length 0";

static const char *const others[] = {GOOD, FIELDS, CONTENTS, BYTES, TWO, BOTH, FRAMING, NO_UPDATE};

enum { OTHER_KINDS = sizeof others / sizeof others[0] };

/* ---- all rules in one row */

static const struct rule_set *const sets[] = {&describe_faults, &layout_faults, &value_faults, &name_faults};

/* All rules whose breaking codes 4 to 8 answer. */
static size_t chart_rules(void)
{
    size_t count = 0;
    for (size_t i = 0; i < sizeof sets / sizeof sets[0]; i++)
        count += sets[i]->count;
    return count;
}

static const struct chart_rule *chart_rule(size_t index)
{
    size_t set = 0;
    for (; index >= sets[set]->count; set++)
        index -= sets[set]->count;
    return &sets[set]->rule[index];
}

size_t read_kinds(void)
{
    return OTHER_KINDS + chart_rules();
}

const char *read_kind(size_t index)
{
    return index < OTHER_KINDS ? others[index] : chart_rule(index - OTHER_KINDS)->name;
}

/* ---- charts */

void vary(struct chart *chart, struct random *random)
{
    bool plain = random_one_in(random, 4);
    if (!plain)
        split_lists(chart, random);
    describe_chart(chart, plain, random);
}

static struct chart any_cell(struct random *random)
{
    struct scene_style style = scene_style_of(random);
    struct chart cell = make_cell(&style, random);
    vary(&cell, random);
    return cell;
}

static struct chart any_update(struct random *random)
{
    struct chart cell = any_cell(random), update = make_update(&cell, random);
    vary(&update, random);
    chart_free(&cell);
    return update;
}

static struct chart any_chart(bool update, struct random *random)
{
    return update ? any_update(random) : any_cell(random);
}

/* ---- files */

/* A file, its records as it was written, and what is wrong with it alone (code 0: nothing, as far as that is known). */
struct offered {
    struct buffer file;
    size_t records;
    struct answer verdict;
};

static struct offered take_draft(struct draft *draft)
{
    struct offered offered = {.file = draft->file, .records = draft->count};
    free(draft->records);
    return offered;
}

static void write_any(const struct chart *chart, bool plain, struct draft *draft, struct random *random)
{
    struct style style = {.least_digits = 1, .plain = plain || random_one_in(random, 2)};
    write_chart(chart, &style, draft, random);
}

struct buffer write_file(const struct chart *chart, bool plain, struct random *random, size_t *records)
{
    struct draft draft = {0};
    write_any(chart, plain, &draft, random);
    *records += draft.count;
    free(draft.records);
    return draft.file;
}

static struct offered offer(struct chart *chart, struct random *random)
{
    struct draft draft = {0};
    write_any(chart, false, &draft, random);
    chart_free(chart);
    return take_draft(&draft);
}

static struct offered offer_good(bool update, struct random *random)
{
    struct chart chart = any_chart(update, random);
    return offer(&chart, random);
}

/* One chart after another until one has something to break the rule in. */
static struct offered offer_broken(const struct chart_rule *rule, bool update, struct random *random)
{
    struct fault fault = {0};
    struct draft draft = {0};
    struct chart chart = any_chart(update, random);
    while (!rule->apply(&chart, rule->way, random, &fault)) {
        chart_free(&chart);
        chart = any_chart(update, random);
    }
    write_any(&chart, false, &draft, random);
    size_t offset = fault_offset(&fault, &chart, &draft);
    struct offered offered = take_draft(&draft);
    offered.verdict = (struct answer){
        .code = fault.code, .file = update ? 2 : 1, .record = (uint32_t)fault.record, .offset = (uint32_t)offset};
    chart_free(&chart);
    return offered;
}

/* The framing generator breaks one of its rules in the file of a good chart. What stands before the bad record stays where it is. */
static struct offered offer_misframed(bool update, struct random *random)
{
    size_t rule = random_below(random, (uint32_t)break_rules());
    struct style style = break_style(rule, random);
    struct draft draft = {0};
    struct chart chart = any_chart(update, random);
    write_chart(&chart, &style, &draft, random);
    size_t end = draft.file.length, bad = break_apply(rule, &draft, random);
    size_t offset = bad < draft.count ? draft.records[bad].start : end;
    struct offered offered = take_draft(&draft);
    offered.verdict = (struct answer){.code = CODE_FRAME, .file = update ? 2 : 1, .record = (uint32_t)bad, .offset = (uint32_t)offset};
    chart_free(&chart);
    return offered;
}

static const struct chart_rule *any_rule(const struct rule_set *set, bool update, struct random *random)
{
    for (;;) {
        const struct chart_rule *rule = set != NULL ? &set->rule[random_below(random, (uint32_t)set->count)]
                                                    : chart_rule(random_below(random, (uint32_t)chart_rules()));
        if (rule->scope & (update ? IN_UPDATE : IN_CELL))
            return rule;
    }
}

/* Which of the two is told nobody knows here. The first is one of "Values" or names, which leaves fields as they are made, so that the second
   finds its way. */
static struct offered offer_twice_broken(bool update, struct random *random)
{
    struct chart chart = any_chart(update, random);
    struct fault fault;
    for (unsigned broken = 0; broken < 2;) {
        const struct rule_set *set = broken == 1 ? NULL : random_one_in(random, 3) ? &name_faults : &value_faults;
        const struct chart_rule *rule = any_rule(set, update, random);
        broken += rule->apply(&chart, rule->way, random, &fault);
    }
    return offer(&chart, random);
}

static struct offered offer_damaged(void (*damage)(struct chart *chart, struct random *random), bool update, struct random *random)
{
    struct chart chart = any_chart(update, random);
    for (uint32_t times = random_between(random, 1, 3); times > 0; times--)
        damage(&chart, random);
    return offer(&chart, random);
}

static struct offered offer_bytes_damaged(bool update, struct random *random)
{
    struct chart chart = any_chart(update, random);
    struct draft draft = {0};
    write_any(&chart, false, &draft, random);
    draft_damage(&draft, random);
    chart_free(&chart);
    return take_draft(&draft);
}

/* ---- cases */

/* Bad framing is told before all else, the cell's first; then what else the cell has, then the update. */
static void take_both(struct read_case *made, struct offered cell, struct offered update)
{
    made->both = true;
    made->cell = cell.file;
    made->update = update.file;
    made->cell_records = cell.records;
    made->records = cell.records + update.records;
    bool update_first = cell.verdict.code == CODE_DONE || (cell.verdict.code != CODE_FRAME && update.verdict.code == CODE_FRAME);
    made->verdict = update_first ? update.verdict : cell.verdict;
}

static void take_cell(struct read_case *made, struct offered cell)
{
    made->cell = cell.file;
    made->cell_records = made->records = cell.records;
    made->verdict = cell.verdict;
}

/* A file beside a good one, or a cell alone. */
static void take_one(struct read_case *made, struct offered offered, bool update, struct random *random)
{
    if (update)
        take_both(made, offer_good(false, random), offered);
    else if (random_one_in(random, 2))
        take_both(made, offered, offer_good(true, random));
    else
        take_cell(made, offered);
}

static struct offered offer_any_broken(bool update, struct random *random)
{
    return random_one_in(random, 3) ? offer_misframed(update, random) : offer_broken(any_rule(NULL, update, random), update, random);
}

/* Every fourth of these seeds is spread over the rarer kinds. */
static void make_rarer(struct read_case *made, uint64_t turn, bool update, struct random *random)
{
    made->known = turn % 4 > 1;
    switch (turn % 4) {
    case 0:
        made->kind = TWO;
        take_one(made, offer_twice_broken(update, random), update, random);
        break;
    case 1:
        made->kind = BYTES;
        take_one(made, offer_bytes_damaged(update, random), update, random);
        break;
    case 2:
        made->kind = BOTH;
        take_both(made, offer_any_broken(false, random), offer_any_broken(true, random));
        break;
    default:
        made->kind = turn % 32 == 3 ? NO_UPDATE : FRAMING;
        if (turn % 32 == 3)
            take_both(made, offer_good(false, random), (struct offered){.verdict = {.code = CODE_FRAME, .file = 2}});
        else
            take_one(made, offer_misframed(update, random), update, random);
    }
}

static void make_broken(struct read_case *made, const struct chart_rule *rule, bool update, struct random *random)
{
    update = rule->scope == IN_UPDATE || (rule->scope == IN_BOTH && update);
    made->kind = rule->name;
    made->known = true;
    take_one(made, offer_broken(rule, update, random), update, random);
}

/* Of eight seeds four break a rule, rule after rule. */
struct read_case read_case_make(uint64_t seed)
{
    struct random random = {seed ^ UINT64_C(0x0CE11AB1E5EA)};
    struct read_case made = {0};
    bool update = random_one_in(&random, 2);
    switch (seed % 8) {
    case 0:
        made.kind = GOOD;
        made.known = true;
        take_one(&made, offer_good(update, &random), update, &random);
        break;
    case 1:
        made.kind = FIELDS;
        take_one(&made, offer_damaged(damage_fields, update, &random), update, &random);
        break;
    case 2:
        made.kind = CONTENTS;
        take_one(&made, offer_damaged(damage_contents, update, &random), update, &random);
        break;
    case 3:
        make_rarer(&made, seed / 8, update, &random);
        break;
    default:
        make_broken(&made, chart_rule((seed / 8 * 4 + seed % 4) % chart_rules()), update, &random);
    }
    return made;
}

void read_case_free(struct read_case *made)
{
    buffer_free(&made->cell);
    buffer_free(&made->update);
}
