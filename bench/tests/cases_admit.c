#include "cases_admit.h"

#include "../generators/generate_admit.h"
#include "areas.h"
#include "check_held.h"
#include "runner.h"

#include <inttypes.h>
#include <stdio.h>
#include <stdlib.h>
#include <string.h>

static const char *const FORM = "held forms: order, form and content";
static const char *const JUDGED = "held forms judged";
static const char *const ADMITTED = "held forms admitted";

/* ---- one call */

/* The reader gets a copy of exactly the cell's bytes, so that a read beside them is seen by the tools that watch for one; the candidate's copy has
   guards beside it, so that a write is. */
struct subject {
    const struct admit_case *made;
    uint64_t seed;
    const uint8_t *exact, *guarded;
    size_t out_length, work_length, answer_length;
};

struct areas {
    uint8_t *out, *work, *answer;
    uint8_t *expected_out, *expected_answer;
    struct answer reader;
    uint32_t code;
};

static void print_answer(const char *who, const struct answer *answer)
{
    printf("    %s: code %u, file %u, record %u, number %u\n", who, (unsigned)answer->code, (unsigned)answer->file, (unsigned)answer->record,
           (unsigned)answer->number);
}

/* Where the two outputs part. */
static void print_outputs(const struct subject *subject, const struct areas *areas)
{
    enum { SHOWN = 64 };
    size_t at = 0;
    while (at < subject->out_length && areas->out[at] == areas->expected_out[at])
        at++;
    if (at == subject->out_length)
        return;
    size_t from = at < SHOWN / 2 ? 0 : at - SHOWN / 2, shown = subject->out_length - from < SHOWN ? subject->out_length - from : SHOWN;
    printf("    the outputs differ from byte %zu on; from byte %zu on the reader's and the candidate's are\n", at, from);
    print_bytes(areas->expected_out + from, shown);
    print_bytes(areas->out + from, shown);
}

static void report(const struct subject *subject, const char *wrong, const struct areas *areas)
{
    const struct admit_case *made = subject->made;
    printf("DIFFERS: %s; kind '%s', seed %" PRIu64 ", cell of %zu bytes, output of %zu bytes, work of %zu bytes, answer of %zu bytes\n", wrong,
           made->kind, subject->seed, made->cell.length, subject->out_length, subject->work_length, subject->answer_length);
    print_answer("the C reader", &areas->reader);
    if (made->known)
        printf("    the generator: code %u, a held form of %zu bytes\n", (unsigned)made->verdict.code, made->held.length);
    printf("    the candidate returned %u and wrote\n", (unsigned)areas->code);
    print_bytes(areas->answer, subject->answer_length);
    print_outputs(subject, areas);
}

/* What the reader itself is held to: the generator's verdict and held form, and an output whose other bytes stay. */
static const char *reader_wrong(const struct subject *subject, const struct areas *areas)
{
    const struct admit_case *made = subject->made;
    size_t written = areas->reader.code == CODE_DONE ? areas->reader.number : 0;
    if (!admit_agrees(made, &areas->reader, subject->work_length, subject->out_length))
        return "the C reader and the generator";
    if (written > 0 && made->held.length > 0 && memcmp(areas->expected_out, made->held.bytes, written) != 0)
        return "the C reader's held form and the generator's";
    if (!all_are(areas->expected_out + written, subject->out_length - written, PATTERN) || !guards_kept(areas->expected_out, subject->out_length))
        return "the C reader changed other bytes";
    return NULL;
}

static const char *candidate_wrong(const struct subject *subject, const struct areas *areas)
{
    const struct buffer *cell = &subject->made->cell;
    if (areas->code != areas->reader.code)
        return "the code";
    if (memcmp(areas->answer, areas->expected_answer, subject->answer_length) != 0)
        return "the answer area";
    if (memcmp(areas->out, areas->expected_out, subject->out_length) != 0)
        return "the output";
    if (!all_are(areas->work, subject->work_length, 0))
        return "the work area is not zero";
    if (!guards_kept(areas->out, subject->out_length) || !guards_kept(areas->work, subject->work_length) ||
        !guards_kept(areas->answer, subject->answer_length) || !guards_kept(subject->guarded, cell->length))
        return "bytes beside an area were changed";
    return cell->length > 0 && memcmp(subject->guarded, cell->bytes, cell->length) != 0 ? "the cell was changed" : NULL;
}

static void areas_free(struct areas *areas)
{
    lent_free(areas->out);
    lent_free(areas->work);
    lent_free(areas->answer);
    lent_free(areas->expected_out);
    lent_free(areas->expected_answer);
}

static void run_call(struct tally *tally, const char *kind, const struct loader *candidate, const struct subject *subject)
{
    size_t length = subject->made->cell.length;
    struct areas areas = {lent_area(subject->out_length), lent_area(subject->work_length), lent_area(subject->answer_length),
                          lent_area(subject->out_length), lent_area(subject->answer_length), {0}, 0};
    areas.reader = reader_admit(subject->exact, length, subject->work_length, areas.expected_out, subject->out_length);
    put_answer(areas.expected_answer, subject->answer_length, ANSWER, &areas.reader);
    areas.code = candidate->admit(subject->guarded, length, areas.out, subject->out_length, areas.work, subject->work_length, areas.answer,
                                  subject->answer_length);
    const char *wrong = reader_wrong(subject, &areas);
    wrong = wrong != NULL ? wrong : candidate_wrong(subject, &areas);
    if (wrong != NULL)
        report(subject, wrong, &areas);
    tally_add(tally, kind, areas.reader.code, wrong == NULL);
    areas_free(&areas);
}

/* ---- a held form: looked at, judged, and admitted once more */

static bool judged_good(const struct loader *candidate, const struct buffer *held, size_t records)
{
    uint8_t answer[ANSWER], *work = lent_area(WORK_A_RECORD * records), *exact = exact_copy(held);
    bool good = reader_judge(exact, held->length, WORK_A_RECORD * records).code == CODE_DONE &&
                candidate->judge(exact, held->length, work, WORK_A_RECORD * records, answer, sizeof answer) == CODE_DONE;
    lent_free(work);
    free(exact);
    return good;
}

static void run_again(struct tally *tally, const struct loader *candidate, const struct buffer *held, size_t records, uint64_t seed)
{
    struct admit_case again = {.kind = ADMITTED, .cell = *held, .records = records, .known = true, .held = *held};
    uint8_t *exact = exact_copy(held), *guarded = guarded_copy(held);
    struct subject subject = {&again, seed, exact, guarded, held->length, WORK_A_RECORD * records, ANSWER};
    run_call(tally, ADMITTED, candidate, &subject);
    free(exact);
    lent_free(guarded);
}

static void run_held(struct tally *tally, const struct loader *candidate, const struct subject *subject)
{
    const struct admit_case *made = subject->made;
    struct buffer held = {0};
    uint8_t *out = buffer_more(&held, subject->out_length);
    reader_admit(subject->exact, made->cell.length, subject->work_length, out, held.length);
    const char *fault = held_fault(subject->exact, made->cell.length, held.bytes, held.length);
    if (fault != NULL)
        printf("DIFFERS: the C reader's held form, %s; kind '%s', seed %" PRIu64 "\n", fault, made->kind, subject->seed);
    tally_add(tally, FORM, CODE_DONE, fault == NULL);
    bool good = judged_good(candidate, &held, made->records);
    if (!good)
        printf("DIFFERS: a held form that isn't judged 0; kind '%s', seed %" PRIu64 "\n", made->kind, subject->seed);
    tally_add(tally, JUDGED, CODE_DONE, good);
    run_again(tally, candidate, &held, made->records, subject->seed);
    buffer_free(&held);
}

/* ---- one case: with four lengths of output and the work it needs, and once with some other lengths of everything */

static size_t other_work(const struct admit_case *made, struct random *random)
{
    size_t needed = WORK_A_RECORD * made->records;
    switch (random_below(random, 8)) {
    case 0:
        return 0;
    case 1:
        return needed > 0 ? needed - 1 : 0;
    case 2:
        return random_below(random, (uint32_t)needed + 1);
    case 3:
        return needed + 1;
    default:
        return needed + random_below(random, 300);
    }
}

static void run_calls(struct tally *tally, const struct loader *candidate, struct subject *subject)
{
    enum { OUTPUTS = 4 };
    static const size_t other_answers[] = {0, 15, 17, 20, 4, 24};
    const struct admit_case *made = subject->made;
    struct random random = {subject->seed};
    struct answer answer = reader_admit(subject->exact, made->cell.length, subject->work_length, NULL, 0);
    /* a refused cell has no held form: its own length will do, so that whoever writes before judging has room to */
    size_t needed = answer.code == CODE_ROOM ? answer.number : made->cell.length;
    const size_t outputs[OUTPUTS] = {0, needed > 0 ? needed - 1 : 0, needed + random_between(&random, 1, 3000), needed};
    for (size_t i = 0; i < OUTPUTS; i++) {
        subject->out_length = outputs[i];
        run_call(tally, made->kind, candidate, subject);
    }
    if (answer.code == CODE_ROOM)
        run_held(tally, candidate, subject);
    subject->out_length = outputs[random_below(&random, OUTPUTS)];
    subject->work_length = other_work(made, &random);
    if (random_one_in(&random, 4))
        subject->answer_length = other_answers[random_below(&random, sizeof other_answers / sizeof other_answers[0])];
    run_call(tally, made->kind, candidate, subject);
}

static void run_case(struct tally *tally, const struct loader *candidate, const struct admit_case *made, uint64_t seed)
{
    uint8_t *exact = exact_copy(&made->cell), *guarded = guarded_copy(&made->cell);
    struct subject subject = {made, seed, exact, guarded, 0, WORK_A_RECORD * made->records, ANSWER};
    run_calls(tally, candidate, &subject);
    free(exact);
    lent_free(guarded);
}

/* ---- all cases */

static void run_seed(struct tally *tally, const void *candidate, uint64_t seed)
{
    struct admit_case made = admit_case_make(seed);
    run_case(tally, candidate, &made, seed);
    admit_case_free(&made);
}

static void run_large(struct tally *tally, const void *candidate, size_t index)
{
    struct admit_case made = large_admit_make(index);
    run_case(tally, candidate, &made, index);
    admit_case_free(&made);
}

int run_admit_cases(const struct loader *candidate, int words, char **word)
{
    static const struct test test = {
        .seeds = 6000,
        .kinds = {{admit_kinds, admit_kind}, {large_admits, large_admit_name}},
        .run_seed = run_seed,
        .large_cases = large_admits,
        .run_large = run_large,
    };
    return run_test(&test, candidate, words, word);
}
