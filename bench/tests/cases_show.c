#include "cases_show.h"

#include "areas.h"
#include "ask_show.h"
#include "runner.h"

#include <inttypes.h>
#include <stdio.h>
#include <stdlib.h>
#include <string.h>

/* ---- one call */

struct subject {
    const struct show_case *made;
    uint64_t seed;
    enum asked asked;
    struct name name;
    const uint8_t *cell, *update;
    size_t work_length, answer_length, out_length;
};

/* What the generator knows: the verdict on the files, and whether and where a record has the name. */
static bool known_agrees(const struct subject *subject, const struct shown *shown)
{
    const struct show_case *made = subject->made;
    const struct name *name = &subject->name;
    const struct answer *answer = &shown->answer;
    size_t needed = WORK_A_RECORD * made->records;
    bool framed = made->verdict.code != CODE_LONG && made->verdict.code != CODE_FRAME;
    if (!made->known)
        return true;
    if (framed && subject->work_length < needed)
        return answer->code == CODE_WORK && answer->file == 0 && answer->record == 0 && answer->number == needed;
    if (made->verdict.code != CODE_DONE)
        return answer->code == made->verdict.code && answer->file == made->verdict.file && answer->record == made->verdict.record && answer->number == 0;
    if (answer->file != 0 || answer->record != 0 || answer->number != name->length)
        return false;
    if (name->length == 0)
        return answer->code == CODE_ABSENT && shown->part == subject->cell;
    return answer->code == CODE_DONE && shown->part == (name->update ? subject->update : subject->cell) + name->start;
}

static void report(const struct subject *subject, const char *wrong, const struct shown *reader, size_t length, const uint8_t *answer)
{
    const struct show_case *made = subject->made;
    const struct name *name = &subject->name;
    printf("DIFFERS: %s; kind '%s', seed %" PRIu64 ", cell of %zu bytes, update of %zu bytes, work of %zu bytes, answer of %zu bytes, output of %zu\n",
           wrong, made->kind, subject->seed, made->cell.length, made->update.length, subject->work_length, subject->answer_length, subject->out_length);
    printf("    asked for %s: class %" PRIu32 ", id %" PRIu32 "; the generator has it in the %s at %zu, %zu bytes; verdict %u%s\n",
           asked_kind(subject->asked), name->class, name->id, name->update ? "update" : "cell", name->start, name->length,
           (unsigned)made->verdict.code, made->known ? "" : " (not known)");
    printf("    the C reader: code %u, file %u, record %u, number %u\n", (unsigned)reader->answer.code, (unsigned)reader->answer.file,
           (unsigned)reader->answer.record, (unsigned)reader->answer.number);
    printf("    the candidate returned %zu and wrote\n", length);
    print_bytes(answer, subject->answer_length);
}

static const char *what_is_wrong(const struct subject *subject, const struct shown *reader, size_t length, const uint8_t *work, const uint8_t *answer,
                                 const uint8_t *out)
{
    const struct show_case *made = subject->made;
    uint8_t *told = lent_area(subject->answer_length), *part = lent_area(subject->out_length);
    put_answer(told, subject->answer_length, ANSWER, &reader->answer);
    put_part(part, subject->out_length, reader);
    const char *wrong = NULL;
    if (!known_agrees(subject, reader))
        wrong = "the C reader and the generator";
    else if (length != part_length(reader))
        wrong = "the part's length";
    else if (memcmp(answer, told, subject->answer_length) != 0)
        wrong = "the answer area";
    else if (memcmp(out, part, subject->out_length) != 0)
        wrong = "the part";
    else if (!all_are(work, subject->work_length, 0))
        wrong = "the work area is not zero";
    else if (!guards_kept(work, subject->work_length) || !guards_kept(answer, subject->answer_length) || !guards_kept(out, subject->out_length))
        wrong = "bytes beside an area were changed";
    else if ((made->cell.length > 0 && memcmp(subject->cell, made->cell.bytes, made->cell.length) != 0) ||
             (made->update.length > 0 && memcmp(subject->update, made->update.bytes, made->update.length) != 0))
        wrong = "a file was changed";
    lent_free(told);
    lent_free(part);
    return wrong;
}

static void run_call(struct tally *tally, const struct show_calls *candidate, const struct subject *subject)
{
    const struct show_case *made = subject->made;
    const struct name *name = &subject->name;
    uint8_t *work = lent_area(subject->work_length), *answer = lent_area(subject->answer_length), *out = lent_area(subject->out_length);
    struct shown reader = reader_show(subject->cell, made->cell.length, subject->update, made->update.length, subject->work_length, name->class, name->id);
    size_t length = candidate->show(subject->cell, made->cell.length, subject->update, made->update.length, work, subject->work_length, answer,
                                    subject->answer_length, out, subject->out_length, name->class, name->id);
    const char *wrong = what_is_wrong(subject, &reader, length, work, answer, out);
    if (wrong != NULL)
        report(subject, wrong, &reader, length, answer);
    tally_add(tally, asked_kind(subject->asked), reader.answer.code, wrong == NULL);
    lent_free(work);
    lent_free(answer);
    lent_free(out);
}

/* ---- one case: a name of every kind. At times with other work than the files need, an answer area of another length, an output that has no room. */

static size_t other_work(size_t needed, struct random *random)
{
    switch (random_below(random, 5)) {
    case 0:
        return 0;
    case 1:
        return needed > 0 ? needed - 1 : 0;
    case 2:
        return needed + 1;
    case 3:
        return random_below(random, (uint32_t)needed + 1);
    default:
        return needed + random_below(random, 200);
    }
}

static size_t any_out(size_t length, struct random *random)
{
    switch (random_below(random, 4)) {
    case 0:
        return length > 0 ? length - 1 : 0;
    case 1:
        return 0;
    case 2:
        return length + random_below(random, 40);
    default:
        return length;
    }
}

static void run_case(struct tally *tally, const struct show_calls *candidate, const struct show_case *made, uint64_t seed)
{
    static const size_t other_answers[] = {0, 15, 17, 4, 20, 32};
    struct random random = {seed};
    uint8_t *cell = exact_copy(&made->cell), *update = exact_copy(&made->update);
    for (enum asked asked = 0; asked < ASKED; asked++) {
        struct subject subject = {made, seed, asked, ask_name(made, asked, &random), cell, update, WORK_A_RECORD * made->records, ANSWER, 0};
        subject.out_length = any_out(subject.name.length, &random);
        if (random_one_in(&random, 4))
            subject.work_length = other_work(subject.work_length, &random);
        if (random_one_in(&random, 6))
            subject.answer_length = other_answers[random_below(&random, sizeof other_answers / sizeof other_answers[0])];
        run_call(tally, candidate, &subject);
    }
    free(cell);
    free(update);
}

/* ---- all cases */

static void run_seed(struct tally *tally, const void *candidate, uint64_t seed)
{
    struct show_case made = show_case_make(seed);
    run_case(tally, candidate, &made, seed);
    show_case_free(&made);
}

static void run_large(struct tally *tally, const void *candidate, size_t index)
{
    struct show_case made = large_show_make(index);
    run_case(tally, candidate, &made, index);
    show_case_free(&made);
}

int run_show_cases(const struct show_calls *candidate, int words, char **word)
{
    static const struct test test = {
        .seeds = 6000,
        .kinds = {{asked_kinds, asked_kind}},
        .run_seed = run_seed,
        .large_cases = large_applies,
        .run_large = run_large,
    };
    return run_test(&test, candidate, words, word);
}
