#include "cases_judge.h"

#include "../generators/generate_judge.h"
#include "areas.h"
#include "runner.h"

#include <inttypes.h>
#include <stdio.h>
#include <stdlib.h>
#include <string.h>

/* ---- one call */

struct subject {
    const struct judge_case *made;
    uint64_t seed;
    const uint8_t *cell;
    size_t work_length, answer_length;
};

static bool same_answer(const struct answer *left, const struct answer *right)
{
    return left->code == right->code && left->file == right->file && left->record == right->record && left->number == right->number;
}

static void print_answer(const char *who, const struct answer *answer)
{
    printf("    %s: code %u, file %u, record %u, number %u\n", who, (unsigned)answer->code, (unsigned)answer->file, (unsigned)answer->record,
           (unsigned)answer->number);
}

static void report(const struct subject *subject, const char *wrong, const struct answer *reader, uint32_t code, const uint8_t *area)
{
    const struct judge_case *made = subject->made;
    printf("DIFFERS: %s; kind '%s', seed %" PRIu64 ", cell of %zu bytes, work of %zu bytes, answer of %zu bytes\n", wrong, made->kind,
           subject->seed, made->cell.length, subject->work_length, subject->answer_length);
    print_answer("the C reader", reader);
    if (made->known)
        print_answer("the generator", &made->verdict);
    printf("    the candidate returned %u and wrote\n", (unsigned)code);
    print_bytes(area, subject->answer_length);
}

/* Runs the candidate once and compares the code, the answer area, the work area and the cell with what they must be. */
static void run_call(struct tally *tally, const struct loader *candidate, const struct subject *subject)
{
    const struct judge_case *made = subject->made;
    uint8_t *work = lent_area(subject->work_length), *area = lent_area(subject->answer_length), *expected = lent_area(subject->answer_length);
    struct answer reader = reader_judge(subject->cell, made->cell.length, subject->work_length);
    struct answer known = judge_verdict(made, subject->work_length);
    put_answer(expected, subject->answer_length, ANSWER, &reader);
    uint32_t code = candidate->judge(subject->cell, made->cell.length, work, subject->work_length, area, subject->answer_length);
    const char *wrong = NULL;
    if (made->known && !same_answer(&reader, &known))
        wrong = "the C reader and the generator";
    else if (code != reader.code)
        wrong = "the code";
    else if (memcmp(area, expected, subject->answer_length) != 0)
        wrong = "the answer area";
    else if (!all_are(work, subject->work_length, 0))
        wrong = "the work area is not zero";
    else if (!guards_kept(work, subject->work_length) || !guards_kept(area, subject->answer_length))
        wrong = "bytes beside an area were changed";
    else if (memcmp(subject->cell, made->cell.bytes, made->cell.length) != 0)
        wrong = "the cell was changed";
    if (wrong != NULL)
        report(subject, wrong, &reader, code, area);
    tally_add(tally, made->kind, reader.code, wrong == NULL);
    lent_free(work);
    lent_free(area);
    lent_free(expected);
}

/* ---- one case: with the work it needs, and with some other length; now and then with an answer area of another length */

static size_t other_work(const struct judge_case *made, struct random *random)
{
    size_t needed = WORK_A_RECORD * made->records;
    switch (random_below(random, 8)) {
    case 0:
        return 0;
    case 1:
        return needed > 0 ? needed - 1 : 0;
    case 2:
        return random_below(random, (uint32_t)needed + 1);
    case 3:
        return needed + 1;
    default:
        return needed + random_below(random, 300);
    }
}

static void run_case(struct tally *tally, const struct loader *candidate, const struct judge_case *made, uint64_t seed)
{
    static const size_t other_answers[] = {0, 15, 17, 20, 4, 24};
    struct random random = {seed};
    uint8_t *cell = exact_copy(&made->cell);
    struct subject subject = {made, seed, cell, WORK_A_RECORD * made->records, ANSWER};
    run_call(tally, candidate, &subject);
    subject.work_length = other_work(made, &random);
    if (random_one_in(&random, 4))
        subject.answer_length = other_answers[random_below(&random, sizeof other_answers / sizeof other_answers[0])];
    run_call(tally, candidate, &subject);
    free(cell);
}

/* ---- the two sizes in a leader, as every pair of bytes of the high half 3, in every fourth record of a good cell: a reader that looks them up by their low halves
   meets every pair of halves. A 0 or a byte behind the digits is bad framing; of other pairs nobody knows here. */

static const char *const SIZES = "sizes in a leader: every pair of 0 to ?";

static bool is_size(uint8_t byte)
{
    return byte >= '1' && byte <= '9';
}

static size_t record_length(const uint8_t *leader)
{
    size_t length = 0;
    for (unsigned i = 0; i < 5; i++)
        length = length * 10 + (leader[i] - (size_t)'0');
    return length;
}

static void run_pairs(struct tally *tally, const struct loader *candidate, struct judge_case *made, uint8_t *sizes)
{
    const uint8_t before[] = {sizes[0], sizes[1]};
    for (unsigned pair = 0; pair < 256; pair++) {
        sizes[0] = (uint8_t)('0' + pair / 16);
        sizes[1] = (uint8_t)('0' + pair % 16);
        made->known = !is_size(sizes[0]) || !is_size(sizes[1]);
        run_case(tally, candidate, made, pair);
    }
    memcpy(sizes, before, sizeof before);
}

static void run_sizes(struct tally *tally, const void *candidate)
{
    enum { SIZES_IN_LEADER = 20, EVERY = 4 };
    struct judge_case made = judge_case_make(0);
    made.kind = SIZES;
    made.verdict = (struct answer){.code = CODE_FRAME, .file = 1};
    for (size_t at = 0; at < made.cell.length; at += record_length(made.cell.bytes + at), made.verdict.record++)
        if (made.verdict.record % EVERY == 0)
            run_pairs(tally, candidate, &made, made.cell.bytes + at + SIZES_IN_LEADER);
    buffer_free(&made.cell);
}

/* ---- all cases */

static void run_seed(struct tally *tally, const void *candidate, uint64_t seed)
{
    struct judge_case made = judge_case_make(seed);
    run_case(tally, candidate, &made, seed);
    buffer_free(&made.cell);
}

static void run_large(struct tally *tally, const void *candidate, size_t index)
{
    struct judge_case made = heavy_cell_make(index);
    run_case(tally, candidate, &made, index);
    buffer_free(&made.cell);
}

int run_judge_cases(const struct loader *candidate, int words, char **word)
{
    static const struct test test = {
        .seeds = 6000,
        .kinds = {{judge_kinds, judge_kind}, {heavy_cells, heavy_cell_name}},
        .run_before = run_sizes,
        .run_seed = run_seed,
        .large_cases = heavy_cells,
        .run_large = run_large,
    };
    return run_test(&test, candidate, words, word);
}
