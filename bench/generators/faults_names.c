/* Names met before (7) and counts that differ (8). */
#include "generate_chart.h"

#include <string.h>

static size_t first_item(const struct chart *chart)
{
    return chart->update ? 2 : 3;
}

/* Where the features begin. */
static size_t features_from(const struct chart *chart)
{
    size_t at = first_item(chart);
    while (at < chart->list.count && has_tag(&chart->list.record[at].field[1], "VRID"))
        at++;
    return at;
}

/* Puts a copy of record `from` at `at`, with the fields that an identifier asks for alone or with all. */
static void copy_to(struct chart *chart, size_t from, size_t at, struct random *random)
{
    struct chart_record copy = copy_record(&chart->list.record[from]);
    size_t least = has_tag(&copy.field[1], "VRID") ? 2 : 3;
    if (random_one_in(random, 2))
        while (copy.count > least)
            remove_field(&copy, copy.count - 1);
    *insert_record(&chart->list, at) = copy;
}

/* Any vector or feature once more, right after itself or anywhere after it among its kind. */
static bool repeat_name(struct chart *chart, size_t way, struct random *random, struct fault *fault)
{
    size_t first = first_item(chart), features = features_from(chart), count = chart->list.count;
    if (count == first)
        return false;
    size_t from = random_between(random, (uint32_t)first, (uint32_t)count - 1);
    size_t end = from < features ? features : count;
    size_t at = way == 0 ? from + 1 : way == 1 ? end : random_between(random, (uint32_t)from + 1, (uint32_t)end);
    copy_to(chart, from, at, random);
    if (!chart->update && random_one_in(random, 2))
        count_records(chart);
    *fault = (struct fault){.code = CODE_TWICE, .record = at, .spot = AT_RECORD};
    return true;
}

/* Two names repeated, or one more than once: the first repeat counts. */
static bool repeat_names(struct chart *chart, size_t way, struct random *random, struct fault *fault)
{
    struct fault one, other;
    if (!repeat_name(chart, 2, random, &one) || !repeat_name(chart, 2, random, &other))
        return false;
    (void)way;
    /* the second copy may have moved the first */
    size_t moved = one.record + (other.record <= one.record);
    *fault = other;
    fault->record = moved < other.record ? moved : other.record;
    return true;
}

static bool break_count(struct chart *chart, size_t way, struct random *random, struct fault *fault)
{
    static const unsigned judged[] = {0, 2, 3, 4, 5, 6};
    uint8_t *counts = chart->list.record[1].field[2].content.bytes + 3;
    uint8_t *count = counts + (size_t)4 * judged[way];
    uint64_t right = get_number(count, 4), wrong;
    switch (random_below(random, 4)) {
    case 0:
        wrong = right + 1;
        break;
    case 1:
        wrong = right == 0 ? 1 : right - 1;
        break;
    case 2:
        wrong = right ^ UINT64_C(1) << random_below(random, 32);
        break;
    default:
        wrong = UINT32_MAX - right;
    }
    set_number(count, 4, wrong);
    *fault = (struct fault){.code = CODE_COUNTS, .record = 1, .spot = AT_RECORD};
    return true;
}

/* Two counts exchanged: their sum is right. */
static bool break_counts_swapped(struct chart *chart, size_t way, struct random *random, struct fault *fault)
{
    static const unsigned judged[] = {0, 2, 3, 4, 5, 6};
    uint8_t *counts = chart->list.record[1].field[2].content.bytes + 3;
    (void)way;
    uint8_t *left = counts + (size_t)4 * judged[random_below(random, 6)], *right = counts + (size_t)4 * judged[random_below(random, 6)];
    uint64_t kept = get_number(left, 4), other = get_number(right, 4);
    if (kept == other)
        return false;
    set_number(left, 4, other);
    set_number(right, 4, kept);
    *fault = (struct fault){.code = CODE_COUNTS, .record = 1, .spot = AT_RECORD};
    return true;
}

/* One record fewer than DSSI counts. */
static bool break_record_removed(struct chart *chart, size_t way, struct random *random, struct fault *fault)
{
    size_t first = first_item(chart);
    (void)way;
    if (chart->list.count == first)
        return false;
    remove_record(&chart->list, random_between(random, (uint32_t)first, (uint32_t)chart->list.count - 1));
    *fault = (struct fault){.code = CODE_COUNTS, .record = 1, .spot = AT_RECORD};
    return true;
}

static const struct chart_rule rules[] = {
    {"twice: right after", repeat_name, 0, IN_BOTH},
    {"twice: last of its kind", repeat_name, 1, IN_BOTH},
    {"twice: anywhere", repeat_name, 2, IN_BOTH},
    {"twice: several repeats", repeat_names, 0, IN_BOTH},
    {"counts: NOMR", break_count, 0, IN_CELL},
    {"counts: NOGR", break_count, 1, IN_CELL},
    {"counts: NOLR", break_count, 2, IN_CELL},
    {"counts: NOIN", break_count, 3, IN_CELL},
    {"counts: NOCN", break_count, 4, IN_CELL},
    {"counts: NOED", break_count, 5, IN_CELL},
    {"counts: two exchanged", break_counts_swapped, 0, IN_CELL},
    {"counts: a record missing", break_record_removed, 0, IN_CELL},
};

const struct rule_set name_faults = {rules, sizeof rules / sizeof rules[0]};
