/* Which seed makes which case of framing. */
#include "generate.h"

#include <stdlib.h>

enum { LEADER = 24, TAG = 4, LONGEST_RECORD = 99999 };

/* ---- good files */

/* From one tiny record to hundreds, from one field to hundreds, and now and then the longest fields that a record can have. */
static struct style choose_style(struct random *random)
{
    struct style style = {.least_fields = 1, .most_fields = 8, .longest_field = 40, .least_digits = 1};
    style.records = random_between(random, 1, 12);
    style.plain = random_one_in(random, 4);
    switch (random_below(random, 16)) {
    case 0:
    case 1:
        style.records = 1;
        break;
    case 2:
        style.records = 300;
        style.most_fields = 3;
        style.longest_field = 3;
        break;
    case 3:
        style.most_fields = 300;
        break;
    case 4:
        style.most_fields = 1;
        break;
    case 5:
        style.records = 3;
        style.longest_field = 60000;
        break;
    case 6:
        style.least_digits = 9;
        break;
    default:
        break;
    }
    return style;
}

/* One record of exactly 99,999 bytes between two small ones: the most that five digits can say. */
static void draft_longest(struct draft *draft, struct random *random)
{
    struct style style = {.records = 1, .least_digits = 1, .plain = true};
    uint32_t small = 5, whole = LONGEST_RECORD - LEADER - 1 - (TAG + 5 + 1);
    draft_record(draft, &style, &small, 1, random);
    draft_record(draft, &style, &whole, 1, random);
    draft_record(draft, &style, &small, 1, random);
}

/* ---- the case of a seed */

static const char *const GOOD = "good";
static const char *const DAMAGED = "damaged at random";

size_t frame_kinds(void)
{
    return 2 + break_rules();
}

const char *frame_kind(size_t index)
{
    if (index < 2)
        return index == 0 ? GOOD : DAMAGED;
    return break_name(index - 2);
}

static void make_good(struct frame_case *made, struct draft *draft, struct random *random)
{
    struct style style = choose_style(random);
    if (random_one_in(random, 64))
        draft_longest(draft, random);
    else
        draft_write(draft, &style, random);
    made->kind = GOOD;
    made->known = true;
    made->verdict = (struct framing){true, draft->count};
}

static void make_broken(struct frame_case *made, struct draft *draft, size_t rule, struct random *random)
{
    struct style style = break_style(rule, random);
    draft_write(draft, &style, random);
    made->kind = break_name(rule);
    made->known = true;
    made->verdict = (struct framing){false, break_apply(rule, draft, random)};
}

/* Of four seeds one is good, one damaged and two broken, rule after rule. */
struct frame_case frame_case_make(uint64_t seed)
{
    struct random random = {seed ^ UINT64_C(0x5173577AFE57F11E)};
    struct frame_case made = {0};
    struct draft draft = {0};
    if (seed % 4 >= 2) {
        make_broken(&made, &draft, (seed / 4 * 2 + seed % 2) % break_rules(), &random);
    } else {
        make_good(&made, &draft, &random);
        if (seed % 4 == 1) {
            draft_damage(&draft, &random);
            made.kind = DAMAGED;
            made.known = false;
        }
    }
    made.file = draft.file;
    free(draft.records);
    return made;
}
