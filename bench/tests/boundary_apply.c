/* The C boundary of Apply. compare_apply looks at many pairs, this program at the areas: pairs of every code and file there is, each with output, work and
   answer areas of all lengths that matter, at odd addresses, whatever the areas and the bytes beside them held before.
   usage: boundary_apply [CELL UPDATE]..   the pairs named are taken along */
#include "../../host/s57loader.h"
#include "boundary.h"
#include "cases_apply.h"

#include <stdio.h>
#include <string.h>

/* The header's numbers, beside those that the C reader took from document 01; boundary_judge and boundary_admit have the others. */
#define SAME(header, reader) _Static_assert((int)(header) == (int)(reader), #header)
SAME(S57_OTHER, CODE_OTHER);
SAME(S57_EDITION, CODE_EDITION);
SAME(S57_NUMBER, CODE_NUMBER);
SAME(S57_LEVEL, CODE_LEVEL);
SAME(S57_TARGET, CODE_TARGET);
SAME(S57_VERSION, CODE_VERSION);
SAME(S57_IDENTITY, CODE_IDENTITY);
SAME(S57_EDIT, CODE_EDIT);

/* ---- the pairs */

enum { MOST_PAIRS = 128, PAIRS_A_CODE = 2, MOST_SEEDS = 20000, GOOD_SEEDS = 32, LARGE = 1000000 };

struct file_pair {
    struct apply_case made;
    size_t needed; /* bytes of output; of a refused pair those of the files */
};

struct file_pairs {
    struct file_pair pair[MOST_PAIRS];
    size_t count;
};

static void take(struct file_pairs *pairs, struct apply_case made)
{
    struct answer answer = reader_apply(made.cell.bytes, made.cell.length, made.update.bytes, made.update.length, SIZE_MAX, NULL, 0);
    size_t needed = answer.code == CODE_ROOM ? answer.number : made.cell.length + made.update.length;
    if (pairs->count < MOST_PAIRS)
        pairs->pair[pairs->count++] = (struct file_pair){made, needed};
    else
        apply_case_free(&made);
}

/* Every code that refuses, with each file that it may name. */
static const struct {
    uint32_t code, file;
} refusals[] = {
    {S57_LONG, S57_CELL},      {S57_LONG, S57_UPDATE},   {S57_FRAME, S57_CELL},    {S57_FRAME, S57_UPDATE},    {S57_DESCRIBED, S57_CELL},
    {S57_DESCRIBED, S57_UPDATE}, {S57_LAYOUT, S57_CELL}, {S57_LAYOUT, S57_UPDATE}, {S57_VALUE, S57_CELL},      {S57_VALUE, S57_UPDATE},
    {S57_TWICE, S57_CELL},     {S57_TWICE, S57_UPDATE},  {S57_COUNTS, S57_CELL},   {S57_OTHER, S57_UPDATE},    {S57_EDITION, S57_UPDATE},
    {S57_NUMBER, S57_UPDATE},  {S57_LEVEL, S57_UPDATE},  {S57_TARGET, S57_UPDATE}, {S57_VERSION, S57_UPDATE},  {S57_IDENTITY, S57_UPDATE},
    {S57_EDIT, S57_UPDATE},    {S57_SHAPE, S57_RESULT},  {S57_POINTER, S57_RESULT}, {S57_RING, S57_RESULT},    {S57_SIZE, S57_RESULT},
};

static size_t count_refusal(const struct file_pairs *pairs, uint32_t code, uint32_t file)
{
    size_t count = 0;
    for (size_t i = 0; i < pairs->count; i++) {
        const struct apply_case *made = &pairs->pair[i].made;
        count += made->known && made->verdict.code == code && made->verdict.file == file;
    }
    return count;
}

static bool has_all(const struct file_pairs *pairs)
{
    for (size_t i = 0; i < sizeof refusals / sizeof refusals[0]; i++)
        if (refusals[i].code != S57_SIZE && count_refusal(pairs, refusals[i].code, refusals[i].file) == 0)
            return false;
    return true;
}

/* The first few of each, until there are some of all. */
static void take_refused(struct file_pairs *pairs)
{
    for (uint64_t seed = 0; seed < MOST_SEEDS && !has_all(pairs); seed++) {
        struct apply_case made = judged_apply_case(seed);
        if (made.known && made.verdict.code != CODE_DONE && count_refusal(pairs, made.verdict.code, made.verdict.file) < PAIRS_A_CODE)
            take(pairs, made);
        else
            apply_case_free(&made);
    }
}

/* Good ones, of which the maker knows the result. */
static void take_good(struct file_pairs *pairs)
{
    for (uint64_t seed = 0; seed < GOOD_SEEDS; seed++) {
        struct apply_case made = judged_apply_case(seed);
        if (made.held.length > 0)
            take(pairs, made);
        else
            apply_case_free(&made);
    }
}

/* Both files without bytes, or one of them. */
static void take_empty(struct file_pairs *pairs)
{
    struct apply_case good = apply_case_make(0);
    take(pairs, (struct apply_case){.kind = "no bytes", .known = true, .verdict = {.code = CODE_FRAME, .file = 1}});
    take(pairs, (struct apply_case){.kind = "no bytes of a cell", .known = true, .verdict = {.code = CODE_FRAME, .file = 1}, .update = good.update});
    take(pairs, (struct apply_case){.kind = "no bytes of an update", .known = true, .verdict = {.code = CODE_FRAME, .file = 2}, .cell = good.cell});
    buffer_free(&good.held);
}

/* One byte too many, of either file. A cell that isn't framed is told before an update that is too long. */
static void take_long(struct file_pairs *pairs)
{
    for (uint32_t file = 1; file <= 2; file++) {
        struct apply_case made = apply_case_make(8);
        struct buffer *longer = file == 1 ? &made.cell : &made.update;
        buffer_free(&made.held);
        made.kind = "one byte too long";
        made.verdict = (struct answer){.code = CODE_LONG, .file = file};
        longer->length = 0;
        memset(buffer_more(longer, S57_LONGEST + 1), '0', S57_LONGEST + 1);
        take(pairs, made);
    }
}

/* The first of the large ones whose result is over a limit. */
static void take_over_limit(struct file_pairs *pairs)
{
    for (size_t i = 0; i < large_applies() && count_refusal(pairs, CODE_SIZE, 3) == 0; i++) {
        struct apply_case made = large_apply_make(i);
        if (made.verdict.code == CODE_SIZE)
            take(pairs, made);
        else
            apply_case_free(&made);
    }
}

static bool take_files(struct file_pairs *pairs, const char *cell, const char *update)
{
    struct apply_case made = {.kind = update};
    bool whole = buffer_load(&made.cell, cell) && buffer_load(&made.update, update);
    made.records = reader_frame(made.cell.bytes, made.cell.length).records + reader_frame(made.update.bytes, made.update.length).records;
    take(pairs, made);
    return whole;
}

/* ---- one call */

static size_t work_for(enum work work, const struct apply_case *made)
{
    if (work == UNCOUNTED)
        return S57_WORK_FOR(made->cell.length) + S57_WORK_FOR(made->update.length);
    return work_length(work, made->records, 0);
}

struct call {
    const struct file_pair *pair;
    enum work work_kind;
    enum output output_kind;
    size_t round;
    uint8_t fill; /* of the areas before the call */
    struct lent cell, update, out, work, answer, expected_out, expected_answer;
    uint32_t code, expected_code;
};

static void call_open(struct call *call)
{
    const struct apply_case *made = &call->pair->made;
    size_t round = call->round, work = work_for(call->work_kind, made), out = output_length(call->output_kind, call->pair->needed);
    uint8_t fill = fill_of(round), beside = fill_of(round + call->work_kind + call->output_kind);
    call->fill = fill;
    call->cell = lend_file(&made->cell, round, beside);
    call->update = lend_file(&made->update, (3 * round + 5) % ROUNDS, beside);
    call->out = lend(out, (7 * round + 2) % ROUNDS, fill, beside);
    call->work = lend(work, (round + 3) % ROUNDS, fill, beside);
    call->answer = lend(answer_of(round), (5 * round + 1) % ROUNDS, fill, beside);
    call->expected_out = lend(out, 0, fill, beside);
    call->expected_answer = lend(answer_of(round), 0, fill, beside);
}

static void call_close(const struct call *call)
{
    give_back(&call->cell);
    give_back(&call->update);
    give_back(&call->out);
    give_back(&call->work);
    give_back(&call->answer);
    give_back(&call->expected_out);
    give_back(&call->expected_answer);
}

/* The C reader first, on the same work area, which is then filled again. */
static void perform(struct call *call)
{
    bool nowhere = call->round % 2 == 1;
    call->expected_code = loader_reader.apply(call->cell.at, call->cell.length, call->update.at, call->update.length, call->expected_out.at,
                                              call->out.length, call->work.at, call->work.length, call->expected_answer.at, call->answer.length);
    memset(call->work.at, call->fill, call->work.length);
    call->code = s57_apply(pointer_to(&call->cell, nowhere), call->cell.length, pointer_to(&call->update, nowhere), call->update.length,
                           pointer_to(&call->out, nowhere), call->out.length, pointer_to(&call->work, nowhere), call->work.length,
                           pointer_to(&call->answer, nowhere), call->answer.length);
}

/* What the header's own reading of the answer must be. */
static bool answer_right(const struct call *call)
{
    if (call->answer.length != S57_ANSWER)
        return true;
    struct s57_answer read = s57_answer_read(call->answer.at);
    struct answer answer = {.code = read.code, .file = read.file, .record = read.record, .number = read.number};
    return read.code == call->code && apply_agrees(&call->pair->made, &answer, call->work.length, call->out.length);
}

/* Beside the C reader's output also the maker's, where it is known. */
static bool output_right(const struct call *call)
{
    const struct buffer *held = &call->pair->made.held;
    if (memcmp(call->out.at, call->expected_out.at, call->out.length) != 0)
        return false;
    return call->code != S57_DONE || held->length == 0 || memcmp(call->out.at, held->bytes, held->length) == 0;
}

static const char *what_is_wrong(const struct call *call)
{
    if (call->code != call->expected_code)
        return "the code";
    if (memcmp(call->answer.at, call->expected_answer.at, call->answer.length) != 0)
        return "the answer area";
    if (!answer_right(call))
        return "the answer as the header reads it";
    if (!output_right(call))
        return "the output";
    if (call->work_kind == UNCOUNTED && call->code == S57_WORK)
        return "S57_WORK_FOR of both files is too little";
    if (call->output_kind == OUTPUT_LONGEST && call->code == S57_ROOM)
        return "S57_LONGEST is too little";
    if (!all_are(call->work.at, call->work.length, 0))
        return "the work area is not zero";
    if (!beside_kept(&call->out) || !beside_kept(&call->work) || !beside_kept(&call->answer))
        return "bytes beside an area were changed";
    if (!file_kept(&call->cell, &call->pair->made.cell) || !file_kept(&call->update, &call->pair->made.update))
        return "a file, or bytes beside it, were changed";
    return NULL;
}

/* Large pairs take their time: they have one round with memory everywhere and one without, both with an answer area. The longest output comes only with work
   that just suffices: filling so many bytes takes long. */
static bool takes_part(const struct file_pair *pair, const struct moment *moment)
{
    bool large = pair->made.cell.length + pair->made.update.length >= LARGE;
    return (!large || answer_of(moment->round) == S57_ANSWER) && (moment->other != OUTPUT_LONGEST || moment->work == EXACT);
}

static void run_call(struct tally *tally, const char *row, const void *context, const struct moment *moment)
{
    const struct file_pairs *pairs = context;
    struct call call = {.pair = &pairs->pair[moment->file], .work_kind = moment->work, .output_kind = moment->other, .round = moment->round};
    if (!takes_part(call.pair, moment))
        return;
    call_open(&call);
    perform(&call);
    const char *wrong = what_is_wrong(&call);
    if (wrong != NULL)
        printf("DIFFERS: %s; '%s', cell of %zu bytes, update of %zu bytes, output of %zu bytes, work of %zu bytes, answer of %zu bytes, round %zu: "
               "returned %u, the C reader %u\n",
               wrong, call.pair->made.kind, call.cell.length, call.update.length, call.out.length, call.work.length, call.answer.length, call.round,
               (unsigned)call.code, (unsigned)call.expected_code);
    tally_add(tally, row, call.expected_code, wrong == NULL);
    call_close(&call);
}

/* ---- all calls */

/* A code that no pair has would go untried. Work and Room come with every area that is too short. */
static void demand_codes(struct tally *tally, const struct file_pairs *pairs)
{
    for (size_t i = 0; i < sizeof refusals / sizeof refusals[0]; i++)
        tally_add(tally, "pairs generated for the code", refusals[i].code, count_refusal(pairs, refusals[i].code, refusals[i].file) > 0);
    tally_add(tally, "pairs generated for the code", S57_DONE, count_refusal(pairs, S57_DONE, S57_NO_FILE) > 0);
}

int main(int words, char **word)
{
    static struct file_pairs pairs;
    struct tally tally = {0};
    take_empty(&pairs);
    take_long(&pairs);
    take_over_limit(&pairs);
    take_refused(&pairs);
    take_good(&pairs);
    demand_codes(&tally, &pairs);
    for (int i = 1; i + 1 < words; i += 2)
        if (!take_files(&pairs, word[i], word[i + 1])) {
            fprintf(stderr, "boundary_apply: %s or %s can't be read\n", word[i], word[i + 1]);
            return 2;
        }
    struct boundary boundary = {OUTPUTS, output_names, pairs.count, &pairs, run_call};
    run_boundary(&tally, &boundary);
    for (size_t i = 0; i < pairs.count; i++)
        apply_case_free(&pairs.pair[i].made);
    return tally_close(&tally);
}
