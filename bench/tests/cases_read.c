#include "cases_read.h"

#include "../generators/generate_read.h"
#include "areas.h"
#include "runner.h"

#include <inttypes.h>
#include <stdio.h>
#include <stdlib.h>
#include <string.h>

/* ---- one call */

struct subject {
    const struct read_case *made;
    uint64_t seed;
    const uint8_t *cell, *update;
    size_t work_length, answer_length;
};

/* What document 01 says of this much work, where the generator knows what it says of enough. */
static struct answer known_answer(const struct read_case *made, size_t work_length)
{
    size_t needed = WORK_A_RECORD * made->records;
    bool framed = made->verdict.code != CODE_LONG && made->verdict.code != CODE_FRAME;
    return framed && work_length < needed ? (struct answer){.code = CODE_WORK, .number = (uint32_t)needed} : made->verdict;
}

static bool same_answer(const struct answer *left, const struct answer *right)
{
    return left->code == right->code && left->file == right->file && left->record == right->record && left->number == right->number &&
           left->offset == right->offset;
}

static void print_answer(const char *who, const struct answer *answer)
{
    printf("    %s: code %u, file %u, record %u, number %u, offset %u\n", who, (unsigned)answer->code, (unsigned)answer->file,
           (unsigned)answer->record, (unsigned)answer->number, (unsigned)answer->offset);
}

static void report(const struct subject *subject, const char *wrong, const struct answer *reader, uint32_t code, const uint8_t *area)
{
    const struct read_case *made = subject->made;
    printf("DIFFERS: %s; kind '%s', seed %" PRIu64 ", cell of %zu bytes, %s of %zu bytes, work of %zu bytes, answer of %zu bytes\n", wrong,
           made->kind, subject->seed, made->cell.length, made->both ? "update" : "no update", made->update.length, subject->work_length,
           subject->answer_length);
    print_answer("the C reader", reader);
    if (made->known)
        print_answer("the generator", &made->verdict);
    printf("    the candidate returned %u and wrote\n", (unsigned)code);
    print_bytes(area, subject->answer_length);
}

/* Runs the candidate once and compares the code, the answer area, the work area and the files with what they must be. */
static void run_call(struct tally *tally, const struct read_calls *candidate, const struct subject *subject)
{
    const struct read_case *made = subject->made;
    uint8_t *work = lent_area(subject->work_length), *area = lent_area(subject->answer_length), *expected = lent_area(subject->answer_length);
    struct answer reader = made->both ? reader_read_both(subject->cell, made->cell.length, subject->update, made->update.length, subject->work_length)
                                      : reader_read(subject->cell, made->cell.length, subject->work_length);
    struct answer known = known_answer(made, subject->work_length);
    put_answer(expected, subject->answer_length, READ_ANSWER, &reader);
    uint32_t code = made->both ? candidate->both(subject->cell, made->cell.length, subject->update, made->update.length, work,
                                                 subject->work_length, area, subject->answer_length)
                               : candidate->cell(subject->cell, made->cell.length, work, subject->work_length, area, subject->answer_length);
    const char *wrong = NULL;
    if (made->known && !same_answer(&reader, &known))
        wrong = "the C reader and the generator";
    else if (code != reader.code)
        wrong = "the code";
    else if (memcmp(area, expected, subject->answer_length) != 0)
        wrong = "the answer area";
    else if (!all_are(work, subject->work_length, 0))
        wrong = "the work area is not zero";
    else if (!guards_kept(work, subject->work_length) || !guards_kept(area, subject->answer_length))
        wrong = "bytes beside an area were changed";
    else if (memcmp(subject->cell, made->cell.bytes, made->cell.length) != 0 ||
             (made->update.length > 0 && memcmp(subject->update, made->update.bytes, made->update.length) != 0))
        wrong = "a file was changed";
    if (wrong != NULL)
        report(subject, wrong, &reader, code, area);
    tally_add(tally, made->kind, reader.code, wrong == NULL);
    lent_free(work);
    lent_free(area);
    lent_free(expected);
}

/* ---- one case: with the work it needs, and with some other length; now and then with an answer area of another length */

static size_t other_work(const struct read_case *made, struct random *random)
{
    size_t needed = WORK_A_RECORD * made->records;
    switch (random_below(random, 6)) {
    case 0:
        return 0;
    case 1:
        return needed > 0 ? needed - 1 : 0;
    case 2:
        return needed + 1;
    case 3:
        return needed > 15 ? needed - 15 : 0;
    case 4:
        return random_below(random, (uint32_t)needed + 1);
    default:
        return needed + random_below(random, 200);
    }
}

static void run_case(struct tally *tally, const struct read_calls *candidate, const struct read_case *made, uint64_t seed)
{
    static const size_t other_answers[] = {0, 16, 19, 21, 4, 24};
    struct random random = {seed};
    uint8_t *cell = exact_copy(&made->cell), *update = exact_copy(&made->update);
    struct subject subject = {made, seed, cell, update, WORK_A_RECORD * made->records, READ_ANSWER};
    run_call(tally, candidate, &subject);
    subject.work_length = other_work(made, &random);
    if (random_one_in(&random, 4))
        subject.answer_length = other_answers[random_below(&random, sizeof other_answers / sizeof other_answers[0])];
    run_call(tally, candidate, &subject);
    free(cell);
    free(update);
}

/* ---- all cases */

static void run_seed(struct tally *tally, const void *candidate, uint64_t seed)
{
    struct read_case made = read_case_make(seed);
    run_case(tally, candidate, &made, seed);
    read_case_free(&made);
}

static void run_large(struct tally *tally, const void *candidate, size_t index)
{
    struct read_case made = large_cell_make(index);
    run_case(tally, candidate, &made, index);
    read_case_free(&made);
}

int run_read_cases(const struct read_calls *candidate, int words, char **word)
{
    static const struct test test = {
        .seeds = 6000,
        .kinds = {{read_kinds, read_kind}, {large_cells, large_cell_name}},
        .run_seed = run_seed,
        .large_cases = large_cells,
        .run_large = run_large,
    };
    return run_test(&test, candidate, words, word);
}
