/* The C boundary of Admit. compare_admit looks at many cells, this program at the areas: cells of every code there is, each with output, work and answer
   areas of all lengths that matter, at odd addresses, whatever the areas and the bytes beside them held before.
   usage: boundary_admit [CELL..]   the cells named are taken along */
#include "../../host/s57loader.h"
#include "../generators/generate_admit.h"
#include "../reader/reader_calls.h"
#include "boundary.h"

#include <stdio.h>
#include <string.h>

/* The header's numbers, beside those that the C reader took from document 01; boundary_judge has the others. */
#define SAME(header, reader) _Static_assert((int)(header) == (int)(reader), #header)
SAME(S57_DONE, CODE_DONE);
SAME(S57_SIZE, CODE_SIZE);
SAME(S57_ROOM, CODE_ROOM);

/* ---- the cells */

enum { MOST_CELLS = 96, CELLS_A_CODE = 3, MOST_SEEDS = 20000, GOOD_SEEDS = 16, LARGE = 1000000 };

struct cell {
    struct admit_case made;
    size_t needed; /* bytes of output; of a refused cell its own length */
};

struct cells {
    struct cell cell[MOST_CELLS];
    size_t count;
};

static void take(struct cells *cells, struct admit_case made)
{
    struct answer answer = reader_admit(made.cell.bytes, made.cell.length, SIZE_MAX, NULL, 0);
    if (cells->count < MOST_CELLS)
        cells->cell[cells->count++] = (struct cell){made, answer.code == CODE_ROOM ? answer.number : made.cell.length};
    else
        admit_case_free(&made);
}

static const uint32_t codes[] = {S57_DONE,  S57_LONG,   S57_FRAME, S57_DESCRIBED, S57_LAYOUT, S57_VALUE,
                                 S57_TWICE, S57_COUNTS, S57_SHAPE, S57_POINTER,   S57_RING,   S57_SIZE};

static size_t count_code(const struct cells *cells, uint32_t code)
{
    size_t count = 0;
    for (size_t i = 0; i < cells->count; i++)
        count += cells->cell[i].made.known && cells->cell[i].made.verdict.code == code;
    return count;
}

/* The first few cells of Judge for each code that refuses. */
static void take_refused(struct cells *cells)
{
    for (uint64_t seed = 0; seed < MOST_SEEDS; seed++) {
        struct judge_case judged = judge_case_make(seed);
        struct admit_case made = as_admit(&judged);
        if (made.known && made.verdict.code != CODE_DONE && count_code(cells, made.verdict.code) < CELLS_A_CODE)
            take(cells, made);
        else
            admit_case_free(&made);
    }
}

/* Good ones, of which the maker knows the held form. */
static void take_good(struct cells *cells)
{
    for (uint64_t seed = 0; seed < GOOD_SEEDS; seed++) {
        struct admit_case made = admit_case_make(seed);
        if (made.held.length > 0)
            take(cells, made);
        else
            admit_case_free(&made);
    }
}

static void take_long(struct cells *cells)
{
    struct admit_case made = {.kind = "one byte too long", .known = true, .verdict = {.code = CODE_LONG, .file = 1}};
    memset(buffer_more(&made.cell, S57_LONGEST + 1), '0', S57_LONGEST + 1);
    take(cells, made);
}

static void take_empty(struct cells *cells)
{
    take(cells, (struct admit_case){.kind = "no bytes", .known = true, .verdict = {.code = CODE_FRAME, .file = 1}});
}

/* The first of the large ones whose held form is over a limit. */
static void take_over_limit(struct cells *cells)
{
    for (size_t i = 0; i < large_admits() && count_code(cells, CODE_SIZE) == 0; i++) {
        struct admit_case made = large_admit_make(i);
        if (made.verdict.code == CODE_SIZE)
            take(cells, made);
        else
            admit_case_free(&made);
    }
}

static bool take_file(struct cells *cells, const char *path)
{
    struct admit_case made = {.kind = path};
    bool whole = buffer_load(&made.cell, path);
    made.records = reader_frame(made.cell.bytes, made.cell.length).records;
    take(cells, made);
    return whole;
}

/* ---- one call */

struct call {
    const struct cell *cell;
    enum work work_kind;
    enum output output_kind;
    size_t round;
    uint8_t fill; /* of the areas before the call */
    struct lent bytes, out, work, answer, expected_out, expected_answer;
    uint32_t code, expected_code;
};

static void call_open(struct call *call)
{
    const struct admit_case *made = &call->cell->made;
    size_t round = call->round, work = work_length(call->work_kind, made->records, made->cell.length);
    size_t out = output_length(call->output_kind, call->cell->needed);
    uint8_t fill = fill_of(round), beside = fill_of(round + call->work_kind + call->output_kind);
    call->fill = fill;
    call->bytes = lend_file(&made->cell, round, beside);
    call->out = lend(out, (7 * round + 2) % ROUNDS, fill, beside);
    call->work = lend(work, (round + 3) % ROUNDS, fill, beside);
    call->answer = lend(answer_of(round), (5 * round + 1) % ROUNDS, fill, beside);
    call->expected_out = lend(out, 0, fill, beside);
    call->expected_answer = lend(answer_of(round), 0, fill, beside);
}

static void call_close(const struct call *call)
{
    give_back(&call->bytes);
    give_back(&call->out);
    give_back(&call->work);
    give_back(&call->answer);
    give_back(&call->expected_out);
    give_back(&call->expected_answer);
}

/* The C reader first, on the same work area, which is then filled again. */
static void perform(struct call *call)
{
    bool nowhere = call->round % 2 == 1;
    call->expected_code = loader_reader.admit(call->bytes.at, call->bytes.length, call->expected_out.at, call->out.length, call->work.at,
                                              call->work.length, call->expected_answer.at, call->answer.length);
    memset(call->work.at, call->fill, call->work.length);
    call->code = s57_admit(pointer_to(&call->bytes, nowhere), call->bytes.length, pointer_to(&call->out, nowhere), call->out.length,
                           pointer_to(&call->work, nowhere), call->work.length, pointer_to(&call->answer, nowhere), call->answer.length);
}

/* What the header's own reading of the answer must be. */
static bool answer_right(const struct call *call)
{
    if (call->answer.length != S57_ANSWER)
        return true;
    struct s57_answer read = s57_answer_read(call->answer.at);
    struct answer answer = {.code = read.code, .file = read.file, .record = read.record, .number = read.number};
    return read.code == call->code && admit_agrees(&call->cell->made, &answer, call->work.length, call->out.length);
}

/* Beside the C reader's output also the maker's, where it is known. */
static bool output_right(const struct call *call)
{
    const struct buffer *held = &call->cell->made.held;
    if (memcmp(call->out.at, call->expected_out.at, call->out.length) != 0)
        return false;
    return call->code != S57_DONE || held->length == 0 || memcmp(call->out.at, held->bytes, held->length) == 0;
}

static const char *what_is_wrong(const struct call *call)
{
    if (call->code != call->expected_code)
        return "the code";
    if (memcmp(call->answer.at, call->expected_answer.at, call->answer.length) != 0)
        return "the answer area";
    if (!answer_right(call))
        return "the answer as the header reads it";
    if (!output_right(call))
        return "the output";
    if (call->work_kind == UNCOUNTED && call->code == S57_WORK)
        return "S57_WORK_FOR is too little";
    if (call->output_kind == OUTPUT_LONGEST && call->code == S57_ROOM)
        return "S57_LONGEST is too little";
    if (!all_are(call->work.at, call->work.length, 0))
        return "the work area is not zero";
    if (!beside_kept(&call->out) || !beside_kept(&call->work) || !beside_kept(&call->answer))
        return "bytes beside an area were changed";
    if (!file_kept(&call->bytes, &call->cell->made.cell))
        return "the cell, or bytes beside it, were changed";
    return NULL;
}

/* Large cells take their time: they have one round with memory everywhere and one without, both with an answer area. The longest output comes only with work
   that just suffices: filling so many bytes takes long. */
static bool takes_part(const struct cell *cell, const struct moment *moment)
{
    return (cell->made.cell.length < LARGE || answer_of(moment->round) == S57_ANSWER) && (moment->other != OUTPUT_LONGEST || moment->work == EXACT);
}

static void run_call(struct tally *tally, const char *row, const void *context, const struct moment *moment)
{
    const struct cells *cells = context;
    struct call call = {.cell = &cells->cell[moment->file], .work_kind = moment->work, .output_kind = moment->other, .round = moment->round};
    if (!takes_part(call.cell, moment))
        return;
    call_open(&call);
    perform(&call);
    const char *wrong = what_is_wrong(&call);
    if (wrong != NULL)
        printf("DIFFERS: %s; '%s', cell of %zu bytes, output of %zu bytes, work of %zu bytes, answer of %zu bytes, round %zu: returned %u, the C "
               "reader %u\n",
               wrong, call.cell->made.kind, call.bytes.length, call.out.length, call.work.length, call.answer.length, call.round,
               (unsigned)call.code, (unsigned)call.expected_code);
    tally_add(tally, row, call.expected_code, wrong == NULL);
    call_close(&call);
}

/* ---- all calls */

/* A code that no cell has would go untried. Work and Room come with every area that is too short. */
static void demand_codes(struct tally *tally, const struct cells *cells)
{
    for (size_t i = 0; i < sizeof codes / sizeof codes[0]; i++)
        tally_add(tally, "cells generated for the code", codes[i], count_code(cells, codes[i]) > 0);
}

int main(int words, char **word)
{
    static struct cells cells;
    struct tally tally = {0};
    take_empty(&cells);
    take_long(&cells);
    take_over_limit(&cells);
    take_refused(&cells);
    take_good(&cells);
    demand_codes(&tally, &cells);
    for (int i = 1; i < words; i++)
        if (!take_file(&cells, word[i])) {
            fprintf(stderr, "boundary_admit: %s can't be read\n", word[i]);
            return 2;
        }
    struct boundary boundary = {OUTPUTS, output_names, cells.count, &cells, run_call};
    run_boundary(&tally, &boundary);
    for (size_t i = 0; i < cells.count; i++)
        admit_case_free(&cells.cell[i].made);
    return tally_close(&tally);
}
