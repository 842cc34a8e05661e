/* The C boundary of Judge. compare_judge looks at many cells, this program at the areas: cells of every code there is, each with work and answer areas of
   all lengths that matter, at odd addresses, whatever the areas and the bytes beside them held before.
   usage: boundary_judge [CELL..]   the cells named are taken along */
#include "../../host/s57loader.h"
#include "../generators/generate_judge.h"
#include "../reader/reader_calls.h"
#include "boundary.h"

#include <stdio.h>
#include <stdlib.h>
#include <string.h>

/* The header's numbers, beside those that the C reader took from document 01. */
#define SAME(header, reader) _Static_assert((int)(header) == (int)(reader), #header)
SAME(S57_DONE, CODE_DONE);
SAME(S57_LONG, CODE_LONG);
SAME(S57_FRAME, CODE_FRAME);
SAME(S57_WORK, CODE_WORK);
SAME(S57_DESCRIBED, CODE_DESCRIBED);
SAME(S57_LAYOUT, CODE_LAYOUT);
SAME(S57_VALUE, CODE_VALUE);
SAME(S57_TWICE, CODE_TWICE);
SAME(S57_COUNTS, CODE_COUNTS);
SAME(S57_SHAPE, CODE_SHAPE);
SAME(S57_POINTER, CODE_POINTER);
SAME(S57_RING, CODE_RING);
SAME(S57_WORK_MOST, S57_WORK_FOR(S57_LONGEST));

/* ---- the cells */

enum { MOST_CELLS = 96, CELLS_A_CODE = 3, MOST_SEEDS = 20000 };

struct cells {
    struct judge_case made[MOST_CELLS];
    size_t count;
};

static void take(struct cells *cells, struct judge_case made)
{
    if (cells->count < MOST_CELLS)
        cells->made[cells->count++] = made;
    else
        buffer_free(&made.cell);
}

static size_t count_code(const struct cells *cells, uint32_t code)
{
    size_t count = 0;
    for (size_t i = 0; i < cells->count; i++)
        count += cells->made[i].known && cells->made[i].verdict.code == code;
    return count;
}

/* The first few generated cells of each code. */
static void take_generated(struct cells *cells)
{
    for (uint64_t seed = 0; seed < MOST_SEEDS; seed++) {
        struct judge_case made = judge_case_make(seed);
        if (made.known && count_code(cells, made.verdict.code) < CELLS_A_CODE)
            take(cells, made);
        else
            buffer_free(&made.cell);
    }
}

static void take_long(struct cells *cells)
{
    struct judge_case made = {.kind = "one byte too long", .known = true, .verdict = {.code = CODE_LONG, .file = 1}};
    memset(buffer_more(&made.cell, S57_LONGEST + 1), '0', S57_LONGEST + 1);
    take(cells, made);
}

static void take_empty(struct cells *cells)
{
    take(cells, (struct judge_case){.kind = "no bytes", .known = true, .verdict = {.code = CODE_FRAME, .file = 1}});
}

/* Records as short as can be: for such a cell S57_WORK_FOR has no byte to spare. */
static void take_shortest(struct cells *cells)
{
    struct draft draft = {0};
    struct style style = {.least_digits = 1, .plain = true};
    struct random random = {1};
    uint32_t length = 1;
    for (unsigned i = 0; i < 1000; i++)
        draft_record(&draft, &style, &length, 1, &random);
    take(cells, (struct judge_case){.kind = "shortest records", .cell = draft.file, .records = draft.count});
    free(draft.records);
}

static bool take_file(struct cells *cells, const char *path)
{
    struct judge_case made = {.kind = path};
    bool whole = buffer_load(&made.cell, path);
    made.records = reader_frame(made.cell.bytes, made.cell.length).records;
    take(cells, made);
    return whole;
}

/* ---- one call */

struct call {
    const struct judge_case *made;
    enum work work_kind;
    size_t round;
    uint8_t fill; /* of the areas before the call */
    struct lent cell, work, answer, expected;
    uint32_t code, expected_code;
};

static void call_open(struct call *call, size_t answer_length)
{
    const struct judge_case *made = call->made;
    size_t round = call->round, length = work_length(call->work_kind, made->records, made->cell.length);
    uint8_t fill = fill_of(round), beside = fill_of(round + call->work_kind);
    call->fill = fill;
    call->cell = lend_file(&made->cell, round, beside);
    call->work = lend(length, (round + 3) % ROUNDS, fill, beside);
    call->answer = lend(answer_length, (5 * round + 1) % ROUNDS, fill, beside);
    call->expected = lend(answer_length, 0, fill, beside);
}

static void call_close(const struct call *call)
{
    give_back(&call->cell);
    give_back(&call->work);
    give_back(&call->answer);
    give_back(&call->expected);
}

/* The C reader first, on the same work area, which is then filled again. */
static void perform(struct call *call)
{
    bool nowhere = call->round % 2 == 1;
    call->expected_code =
        loader_reader.judge(call->cell.at, call->cell.length, call->work.at, call->work.length, call->expected.at, call->expected.length);
    memset(call->work.at, call->fill, call->work.length);
    call->code = s57_judge(pointer_to(&call->cell, nowhere), call->cell.length, pointer_to(&call->work, nowhere), call->work.length,
                           pointer_to(&call->answer, nowhere), call->answer.length);
}

/* What the header's own reading of the answer must be. */
static bool answer_right(const struct call *call)
{
    if (call->answer.length != S57_ANSWER)
        return true;
    struct s57_answer answer = s57_answer_read(call->answer.at);
    struct answer known = judge_verdict(call->made, call->work.length);
    return answer.code == call->code &&
           (!call->made->known ||
            (answer.code == known.code && answer.file == known.file && answer.record == known.record && answer.number == known.number));
}

static const char *what_is_wrong(const struct call *call)
{
    if (call->code != call->expected_code)
        return "the code";
    if (memcmp(call->answer.at, call->expected.at, call->answer.length) != 0)
        return "the answer area";
    if (!answer_right(call))
        return "the answer as the header reads it";
    if (call->work_kind == UNCOUNTED && call->code == S57_WORK)
        return "S57_WORK_FOR is too little";
    if (!all_are(call->work.at, call->work.length, 0))
        return "the work area is not zero";
    if (!beside_kept(&call->work) || !beside_kept(&call->answer))
        return "bytes beside an area were changed";
    if (!file_kept(&call->cell, &call->made->cell))
        return "the cell, or bytes beside it, were changed";
    return NULL;
}

static void run_call(struct tally *tally, const char *row, const void *context, const struct moment *moment)
{
    const struct cells *cells = context;
    struct call call = {.made = &cells->made[moment->file], .work_kind = moment->work, .round = moment->round};
    call_open(&call, answer_lengths[moment->other]);
    perform(&call);
    const char *wrong = what_is_wrong(&call);
    if (wrong != NULL)
        printf("DIFFERS: %s; '%s', cell of %zu bytes, work of %zu bytes, answer of %zu bytes, round %zu: returned %u, the C reader %u\n", wrong,
               call.made->kind, call.cell.length, call.work.length, call.answer.length, call.round, (unsigned)call.code,
               (unsigned)call.expected_code);
    tally_add(tally, row, call.expected_code, wrong == NULL);
    call_close(&call);
}

/* ---- all calls */

/* A code that no cell has would go untried. Work comes with every work area that is too short. */
static void demand_codes(struct tally *tally, const struct cells *cells)
{
    static const uint32_t codes[] = {S57_DONE,  S57_LONG,   S57_FRAME, S57_DESCRIBED, S57_LAYOUT, S57_VALUE,
                                     S57_TWICE, S57_COUNTS, S57_SHAPE, S57_POINTER,   S57_RING};
    for (size_t i = 0; i < sizeof codes / sizeof codes[0]; i++)
        tally_add(tally, "cells generated for the code", codes[i], count_code(cells, codes[i]) > 0);
}

int main(int words, char **word)
{
    static struct cells cells;
    struct tally tally = {0};
    take_empty(&cells);
    take_long(&cells);
    take_shortest(&cells);
    take_generated(&cells);
    demand_codes(&tally, &cells);
    for (int i = 1; i < words; i++)
        if (!take_file(&cells, word[i])) {
            fprintf(stderr, "boundary_judge: %s can't be read\n", word[i]);
            return 2;
        }
    struct boundary boundary = {ANSWERS, answer_names, cells.count, &cells, run_call};
    run_boundary(&tally, &boundary);
    for (size_t i = 0; i < cells.count; i++)
        buffer_free(&cells.made[i].cell);
    return tally_close(&tally);
}
