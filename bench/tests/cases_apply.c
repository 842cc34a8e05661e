#include "cases_apply.h"

#include "areas.h"
#include "check_held.h"
#include "cover_apply.h"
#include "runner.h"

#include <inttypes.h>
#include <stdio.h>
#include <stdlib.h>
#include <string.h>

enum { SEEDS_A_SERIES = 64, LARGE = 1000000 };

static const char *const FORM = "results: order and form";
static const char *const JUDGED = "results judged and admitted";
static const char *const AGAIN = "the same update again";
static const char *const LATER = "series: an update out of turn";

/* ---- one call */

/* The reader gets copies of exactly the files' bytes, so that a read beside them is seen by the tools that watch for one; the candidate's copies have
   guards beside them, so that a write is. */
struct subject {
    const struct loader *candidate;
    const struct apply_case *made;
    uint64_t seed;
    uint8_t *exact_cell, *exact_update, *guarded_cell, *guarded_update;
    size_t out_length, work_length, answer_length;
};

struct areas {
    uint8_t *out, *work, *answer;
    uint8_t *expected_out, *expected_answer;
    struct answer reader;
    uint32_t code;
};

static struct subject subject_open(const struct loader *candidate, const struct apply_case *made, uint64_t seed)
{
    return (struct subject){.candidate = candidate, .made = made, .seed = seed, .exact_cell = exact_copy(&made->cell),
                            .exact_update = exact_copy(&made->update), .guarded_cell = guarded_copy(&made->cell),
                            .guarded_update = guarded_copy(&made->update), .work_length = WORK_A_RECORD * made->records, .answer_length = ANSWER};
}

static void subject_close(struct subject *subject)
{
    free(subject->exact_cell);
    free(subject->exact_update);
    lent_free(subject->guarded_cell);
    lent_free(subject->guarded_update);
}

/* Where the two outputs part. */
static void print_outputs(const struct subject *subject, const struct areas *areas)
{
    enum { SHOWN = 64 };
    size_t at = 0;
    while (at < subject->out_length && areas->out[at] == areas->expected_out[at])
        at++;
    if (at == subject->out_length)
        return;
    size_t from = at < SHOWN / 2 ? 0 : at - SHOWN / 2, shown = subject->out_length - from < SHOWN ? subject->out_length - from : SHOWN;
    printf("    the outputs differ from byte %zu on; from byte %zu on the reader's and the candidate's are\n", at, from);
    print_bytes(areas->expected_out + from, shown);
    print_bytes(areas->out + from, shown);
}

static void report(const struct subject *subject, const char *wrong, const struct areas *areas)
{
    const struct apply_case *made = subject->made;
    const struct answer *reader = &areas->reader;
    printf("DIFFERS: %s; kind '%s', seed %" PRIu64 ", cell of %zu bytes, update of %zu bytes, output of %zu bytes, work of %zu bytes, answer of %zu "
           "bytes\n",
           wrong, made->kind, subject->seed, made->cell.length, made->update.length, subject->out_length, subject->work_length,
           subject->answer_length);
    printf("    the C reader: code %u, file %u, record %u, number %u\n", (unsigned)reader->code, (unsigned)reader->file, (unsigned)reader->record,
           (unsigned)reader->number);
    if (made->known)
        printf("    the generator: code %u, file %u, record %u, a held form of %zu bytes\n", (unsigned)made->verdict.code,
               (unsigned)made->verdict.file, (unsigned)made->verdict.record, made->held.length);
    printf("    the candidate returned %u and wrote\n", (unsigned)areas->code);
    print_bytes(areas->answer, subject->answer_length);
    print_outputs(subject, areas);
}

/* What the reader itself is held to: the generator's verdict and held form, and an output whose other bytes stay. */
static const char *reader_wrong(const struct subject *subject, const struct areas *areas)
{
    const struct apply_case *made = subject->made;
    size_t written = areas->reader.code == CODE_DONE ? areas->reader.number : 0;
    if (!apply_agrees(made, &areas->reader, subject->work_length, subject->out_length))
        return "the C reader and the generator";
    if (written > 0 && made->held.length > 0 && memcmp(areas->expected_out, made->held.bytes, written) != 0)
        return "the C reader's held form and the generator's";
    if (!all_are(areas->expected_out + written, subject->out_length - written, PATTERN) || !guards_kept(areas->expected_out, subject->out_length))
        return "the C reader changed other bytes";
    return NULL;
}

static bool kept(const uint8_t *guarded, const struct buffer *file)
{
    return guards_kept(guarded, file->length) && (file->length == 0 || memcmp(guarded, file->bytes, file->length) == 0);
}

static const char *candidate_wrong(const struct subject *subject, const struct areas *areas)
{
    if (areas->code != areas->reader.code)
        return "the code";
    if (memcmp(areas->answer, areas->expected_answer, subject->answer_length) != 0)
        return "the answer area";
    if (memcmp(areas->out, areas->expected_out, subject->out_length) != 0)
        return "the output";
    if (!all_are(areas->work, subject->work_length, 0))
        return "the work area is not zero";
    if (!guards_kept(areas->out, subject->out_length) || !guards_kept(areas->work, subject->work_length) ||
        !guards_kept(areas->answer, subject->answer_length))
        return "bytes beside an area were changed";
    if (!kept(subject->guarded_cell, &subject->made->cell) || !kept(subject->guarded_update, &subject->made->update))
        return "a file, or bytes beside it, were changed";
    return NULL;
}

static void areas_free(struct areas *areas)
{
    lent_free(areas->out);
    lent_free(areas->work);
    lent_free(areas->answer);
    lent_free(areas->expected_out);
    lent_free(areas->expected_answer);
}

static bool run_call(struct tally *tally, const char *kind, const struct subject *subject)
{
    size_t cell_length = subject->made->cell.length, update_length = subject->made->update.length;
    struct areas areas = {lent_area(subject->out_length), lent_area(subject->work_length), lent_area(subject->answer_length),
                          lent_area(subject->out_length), lent_area(subject->answer_length), {0}, 0};
    areas.reader = reader_apply(subject->exact_cell, cell_length, subject->exact_update, update_length, subject->work_length, areas.expected_out,
                                subject->out_length);
    put_answer(areas.expected_answer, subject->answer_length, ANSWER, &areas.reader);
    areas.code = subject->candidate->apply(subject->guarded_cell, cell_length, subject->guarded_update, update_length, areas.out,
                                           subject->out_length, areas.work, subject->work_length, areas.answer, subject->answer_length);
    const char *wrong = reader_wrong(subject, &areas);
    wrong = wrong != NULL ? wrong : candidate_wrong(subject, &areas);
    if (wrong != NULL)
        report(subject, wrong, &areas);
    tally_add(tally, kind, areas.reader.code, wrong == NULL);
    areas_free(&areas);
    return wrong == NULL;
}

/* ---- a result: looked at, judged, admitted, and offered its own update once more */

/* Judge and Admit of both sides; the re-issue of a re-issue is itself. */
static bool reads_back(const struct loader *loader, const struct buffer *held, size_t records)
{
    size_t work_length = WORK_A_RECORD * records;
    uint8_t answer[ANSWER], *work = grow(NULL, work_length, 1), *exact = exact_copy(held), *again = grow(NULL, held->length, 1);
    bool good = loader->judge(exact, held->length, work, work_length, answer, sizeof answer) == CODE_DONE &&
                loader->admit(exact, held->length, again, held->length, work, work_length, answer, sizeof answer) == CODE_DONE &&
                memcmp(again, held->bytes, held->length) == 0;
    free(work);
    free(exact);
    free(again);
    return good;
}

static void run_again(struct tally *tally, const struct subject *subject, const struct buffer *held, size_t records)
{
    struct apply_case again = {.kind = AGAIN, .cell = *held, .update = subject->made->update, .known = true};
    again.records = records + reader_frame(again.update.bytes, again.update.length).records;
    again.verdict = (struct answer){.code = CODE_NUMBER, .file = 2, .record = 1};
    struct subject more = subject_open(subject->candidate, &again, subject->seed);
    more.out_length = held->length;
    run_call(tally, AGAIN, &more);
    subject_close(&more);
}

static void note(struct tally *tally, const char *row, const struct subject *subject, const char *fault)
{
    if (fault != NULL)
        printf("DIFFERS: a result, %s; kind '%s', seed %" PRIu64 "\n", fault, subject->made->kind, subject->seed);
    tally_add(tally, row, CODE_DONE, fault == NULL);
}

static void run_result(struct tally *tally, const struct subject *subject)
{
    const struct apply_case *made = subject->made;
    struct buffer held = {0};
    uint8_t *out = buffer_more(&held, subject->out_length);
    reader_apply(subject->exact_cell, made->cell.length, subject->exact_update, made->update.length, subject->work_length, out, held.length);
    size_t records = reader_frame(held.bytes, held.length).records;
    note(tally, FORM, subject, held_fault(held.bytes, held.length, held.bytes, held.length));
    bool good = reads_back(&loader_reader, &held, records) && reads_back(subject->candidate, &held, records);
    note(tally, JUDGED, subject, good ? NULL : "which isn't judged 0, or isn't its own held form");
    run_again(tally, subject, &held, records);
    buffer_free(&held);
}

/* ---- one case: with several lengths of output and of work, and once with another answer area */

static void run_outputs(struct tally *tally, struct subject *subject, size_t needed, struct random *random)
{
    const size_t outputs[] = {needed > 0 ? needed - 1 : 0, 0, needed + random_between(random, 1, 3000), needed};
    bool large = subject->made->cell.length + subject->made->update.length > LARGE;
    for (size_t i = 0; i < sizeof outputs / sizeof outputs[0]; i++) {
        subject->out_length = outputs[i];
        /* large ones take their time: one byte too few, and just enough */
        if (!large || i == 0 || outputs[i] == needed)
            run_call(tally, subject->made->kind, subject);
    }
}

static void run_works(struct tally *tally, struct subject *subject, struct random *random)
{
    const size_t needed = subject->work_length, works[] = {0, needed > 0 ? needed - 1 : 0, random_below(random, (uint32_t)needed + 1), needed + 1,
                                                           needed + random_between(random, 2, 300)};
    bool large = subject->made->cell.length + subject->made->update.length > LARGE;
    for (size_t i = 0; i < sizeof works / sizeof works[0]; i++) {
        subject->work_length = works[i];
        if (!large || works[i] < needed)
            run_call(tally, subject->made->kind, subject);
    }
    subject->work_length = needed;
}

static void run_case(struct tally *tally, const struct loader *candidate, const struct apply_case *made, uint64_t seed)
{
    static const size_t other_answers[] = {0, 15, 17, 20, 4, 24};
    struct random random = {seed};
    struct subject subject = subject_open(candidate, made, seed);
    struct answer answer = reader_apply(subject.exact_cell, made->cell.length, subject.exact_update, made->update.length, SIZE_MAX, NULL, 0);
    /* a refused pair has no held form: the files' own length will do, so that whoever writes before judging has room to */
    size_t needed = answer.code == CODE_ROOM ? answer.number : made->cell.length + made->update.length;
    run_outputs(tally, &subject, needed, &random);
    if (answer.code == CODE_ROOM)
        run_result(tally, &subject);
    run_works(tally, &subject, &random);
    if (random_one_in(&random, 4)) {
        subject.answer_length = other_answers[random_below(&random, sizeof other_answers / sizeof other_answers[0])];
        run_call(tally, made->kind, &subject);
    }
    subject_close(&subject);
}

/* ---- a series: the candidate's own output is the next update's cell, as in a unit */

/* Any other update of the series is refused by its number, and changes nothing. */
static void run_out_of_turn(struct tally *tally, const struct loader *candidate, const struct series *series, size_t step, uint64_t seed)
{
    struct random random = {seed * SERIES + step};
    size_t other = random_below(&random, SERIES);
    if (other == step)
        return;
    const struct apply_case *offered = &series->step[other], *held = &series->step[step];
    struct apply_case made = {.kind = LATER, .cell = held->cell, .update = offered->update, .known = true,
                              .verdict = {.code = CODE_NUMBER, .file = 2, .record = 1}};
    made.records = reader_frame(made.cell.bytes, made.cell.length).records + reader_frame(made.update.bytes, made.update.length).records;
    struct subject subject = subject_open(candidate, &made, seed);
    subject.out_length = made.cell.length;
    run_call(tally, LATER, &subject);
    subject_close(&subject);
}

/* The base as the candidate admits it; false where that isn't the first step's cell. */
static bool admit_base(const struct loader *candidate, const struct series *series, struct buffer *unit)
{
    size_t work_length = WORK_A_RECORD * series->base_records, length = series->step[0].cell.length;
    uint8_t answer[ANSWER], *work = grow(NULL, work_length, 1), *out = buffer_more(unit, length);
    uint32_t code = candidate->admit(series->base.bytes, series->base.length, out, length, work, work_length, answer, sizeof answer);
    free(work);
    return code == CODE_DONE && memcmp(unit->bytes, series->step[0].cell.bytes, length) == 0;
}

/* One update on the unit, whose place the result takes. */
static bool advance_unit(const struct loader *candidate, const struct apply_case *step, struct buffer *unit)
{
    struct buffer next = {0};
    size_t work_length = WORK_A_RECORD * step->records;
    uint8_t answer[ANSWER], *work = grow(NULL, work_length, 1), *out = buffer_more(&next, step->held.length);
    uint32_t code = candidate->apply(unit->bytes, unit->length, step->update.bytes, step->update.length, out, next.length, work, work_length, answer,
                                     sizeof answer);
    free(work);
    buffer_free(unit);
    *unit = next;
    return code == CODE_DONE && memcmp(next.bytes, step->held.bytes, next.length) == 0;
}

static void run_series(struct tally *tally, const struct loader *candidate, uint64_t seed)
{
    struct series series = series_make(seed);
    struct buffer unit = {0};
    bool good = admit_base(candidate, &series, &unit);
    for (size_t i = 0; i < SERIES && good; i++) {
        struct subject subject = subject_open(candidate, &series.step[i], seed);
        subject.out_length = series.step[i].held.length;
        good = run_call(tally, series.step[i].kind, &subject) && advance_unit(candidate, &series.step[i], &unit);
        subject_close(&subject);
        run_out_of_turn(tally, candidate, &series, i, seed);
    }
    if (!good)
        printf("DIFFERS: series %" PRIu64 "\n", seed);
    tally_add(tally, "series: the tenth result", CODE_DONE, good);
    buffer_free(&unit);
    series_free(&series);
}

/* ---- all cases */

struct apply_case judged_apply_case(uint64_t seed)
{
    struct apply_case made = apply_case_make(seed);
    if (made.left_to_judge) {
        struct answer judged = reader_judge(made.held.bytes, made.held.length, SIZE_MAX);
        apply_case_judged(&made, &judged);
    }
    return made;
}

static void run_made(struct tally *tally, const struct loader *candidate, struct apply_case made, uint64_t seed)
{
    run_case(tally, candidate, &made, seed);
    apply_case_free(&made);
}

static void run_sheet(struct tally *tally, const void *candidate)
{
    keep_memory();
    for (size_t i = 0; i < sheet_rows(); i++)
        run_made(tally, candidate, sheet_row_make(i), i);
}

static struct cover cover;

static void run_seed(struct tally *tally, const void *candidate, uint64_t seed)
{
    struct apply_case made = judged_apply_case(seed);
    if (made.held.length > 0)
        cover_add(&cover, &made);
    run_made(tally, candidate, made, seed);
    if (seed % SEEDS_A_SERIES == 0)
        run_series(tally, candidate, seed);
}

/* A run of all seeds has every kind of edit among its good pairs. */
static void run_all_seeds(struct tally *tally)
{
    cover_demand(&cover, tally);
}

static void run_large(struct tally *tally, const void *candidate, size_t index)
{
    run_made(tally, candidate, large_apply_make(index), index);
}

int run_apply_cases(const struct loader *candidate, int words, char **word)
{
    static const struct test test = {
        .seeds = 6000,
        .kinds = {{apply_kinds, apply_kind}, {large_applies, large_apply_name}},
        .run_before = run_sheet,
        .run_seed = run_seed,
        .run_all_seeds = run_all_seeds,
        .large_cases = large_applies,
        .run_large = run_large,
    };
    return run_test(&test, candidate, words, word);
}
