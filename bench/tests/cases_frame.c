#include "cases_frame.h"

#include "../generators/generate.h"
#include "areas.h"
#include "runner.h"

#include <inttypes.h>
#include <stdio.h>
#include <stdlib.h>
#include <string.h>

/* What a case is counted by: taken; refused at record 0, or altogether; refused at a later record. */
enum { TAKEN, AT_FIRST, LATER };

static const char *const columns[MOST_CODES] = {"taken", "refused at 0", "later"};

/* ---- one case: pass or a report that lets one run it again */

struct subject {
    const char *kind;
    uint64_t seed;
    const uint8_t *bytes;
    size_t length;
};

/* Counts the case; `wrong` says what disagreed, or is null. */
static void settle(struct tally *tally, const struct subject *subject, uint32_t column, const char *wrong, uint64_t candidate, uint64_t expected)
{
    tally_add(tally, subject->kind, column, wrong == NULL);
    if (wrong == NULL)
        return;
    printf("DIFFERS: %s; kind '%s', seed %" PRIu64 ", %zu bytes: %" PRIu64 ", expected %" PRIu64 "\n", wrong, subject->kind, subject->seed,
           subject->length, candidate, expected);
    print_bytes(subject->bytes, subject->length);
}

static void run_frame(struct tally *tally, const struct frame_calls *candidate, const struct frame_case *made, uint64_t seed)
{
    uint8_t *file = exact_copy(&made->file);
    size_t length = made->file.length;
    struct subject subject = {made->kind, seed, file, length};
    uint64_t reader = frame_reader.frame(file, length), fields = frame_reader.fields(file, length), known = framing_number(made->verdict);
    uint64_t frame = candidate->frame(file, length), walked = candidate->fields(file, length);
    uint32_t column = reader % 2 == 0 ? TAKEN : reader == 1 ? AT_FIRST : LATER;
    if (made->known && reader != known)
        settle(tally, &subject, column, "the C reader's frame and the generator", reader, known);
    else if (frame != reader)
        settle(tally, &subject, column, "frame", frame, reader);
    else
        settle(tally, &subject, column, walked != fields ? "fields" : NULL, walked, fields);
    free(file);
}

/* The number of primitives and the area lent for them; with a length other than 128 it must stay as it was. */
static void run_formats(struct tally *tally, const struct frame_calls *candidate, const struct formats_case *made, uint64_t seed)
{
    enum { OUT = FORMATS_OUT };
    static const size_t lent[] = {OUT, OUT, OUT, OUT, 0, 4, OUT - 1, OUT + 1};
    size_t length = made->text.length, out_length = lent[seed / 4 % (sizeof lent / sizeof lent[0])];
    uint8_t *text = exact_copy(&made->text), out[OUT + 1], expected[OUT + 1], right[OUT];
    struct subject subject = {made->kind, seed, text, length};
    memset(out, PATTERN, sizeof out);
    memset(expected, PATTERN, sizeof expected);
    put_formats(right, &made->written);
    uint32_t reader = frame_reader.formats(text, length, expected, out_length), count = candidate->formats(text, length, out, out_length);
    uint32_t known = made->accepted ? made->written.count : 0, column = reader > 0 ? TAKEN : AT_FIRST;
    bool written = made->known && made->accepted && out_length == OUT;
    if (made->known && (reader != known || (written && memcmp(expected, right, OUT) != 0)))
        settle(tally, &subject, column, "the C reader's formats and the generator", reader, known);
    else if (count != reader)
        settle(tally, &subject, column, "formats", count, reader);
    else
        settle(tally, &subject, column, memcmp(out, expected, sizeof out) != 0 ? "the written-out formats" : NULL, count, reader);
    free(text);
}

static void run_cut(struct tally *tally, const struct frame_calls *candidate, const struct cut_case *made, uint64_t seed)
{
    uint8_t *field = exact_copy(&made->field);
    size_t length = made->field.length;
    struct subject subject = {made->kind, seed, field, length};
    uint64_t known = made->accepted ? cut_number(made->cut) : 0, reader = frame_reader.cut(field, length), cut = candidate->cut(field, length);
    uint32_t column = reader > 0 ? TAKEN : AT_FIRST;
    if (reader != known)
        settle(tally, &subject, column, "the C reader's cut and the generator", reader, known);
    else
        settle(tally, &subject, column, cut != reader ? "cut" : NULL, cut, reader);
    free(field);
}

/* ---- all cases */

static void run_seed(struct tally *tally, const void *candidate, uint64_t seed)
{
    struct frame_case frame = frame_case_make(seed);
    run_frame(tally, candidate, &frame, seed);
    buffer_free(&frame.file);
    struct formats_case formats = formats_case_make(seed);
    run_formats(tally, candidate, &formats, seed);
    buffer_free(&formats.text);
    struct cut_case cut = cut_case_make(seed);
    run_cut(tally, candidate, &cut, seed);
    buffer_free(&cut.field);
}

/* A large file as it is, and with its very last byte wrong. */
static void run_large(struct tally *tally, const void *candidate, size_t index)
{
    struct frame_case large = large_make(index);
    run_frame(tally, candidate, &large, index);
    large.file.bytes[large.file.length - 1] = 0;
    large.verdict = (struct framing){false, large.verdict.records - 1};
    run_frame(tally, candidate, &large, index);
    buffer_free(&large.file);
}

int run_frame_cases(const struct frame_calls *candidate, int words, char **word)
{
    static const struct test test = {
        .seeds = 4000,
        .kinds = {{frame_kinds, frame_kind}, {large_files, large_name}, {formats_kinds, formats_kind}, {cut_kinds, cut_kind}},
        .columns = columns,
        .run_seed = run_seed,
        .large_cases = large_files,
        .run_large = run_large,
    };
    return run_test(&test, candidate, words, word);
}
