/* Apply, the proved one beside plain and tuned C: nanoseconds a byte of both files, on an ordinary cell with an update of 500 records and on heavy pairs, as a
   table in Markdown; then what Apply takes on the ordinary pair beside Admit on its cell. The output area is there before the clock starts.
   usage: speed_apply [ROUNDS] [--csv] */
#include "../../host/s57loader.h"
#include "../generators/generate_apply.h"
#include "../reader/reader_calls.h"
#include "../tuned/tuned.h"
#include "speed.h"

#include <stdio.h>
#include <stdlib.h>
#include <string.h>

enum { DEFAULT_ROUNDS = 20 };

struct task {
    const struct loader *loader;
    bool admit; /* Admit of the cell alone, in Apply's place */
    const struct apply_case *made;
    uint8_t *out, *work;
    size_t work_length;
};

static uint64_t perform(void *context)
{
    const struct task *task = context;
    const struct buffer *cell = &task->made->cell, *update = &task->made->update;
    uint8_t answer[S57_ANSWER];
    uint32_t code;
    if (task->admit)
        code = task->loader->admit(cell->bytes, cell->length, task->out, S57_LONGEST, task->work, task->work_length, answer, sizeof answer);
    else
        code = task->loader->apply(cell->bytes, cell->length, update->bytes, update->length, task->out, S57_LONGEST, task->work, task->work_length,
                                   answer, sizeof answer);
    return (uint64_t)s57_answer_read(answer).number << 8 | code;
}

/* Of Apply a byte of both files, of Admit a byte of the cell. */
static struct times measure_case(const struct apply_case *made, bool admit, uint8_t *out, unsigned rounds)
{
    static const struct loader calls = {s57_judge, s57_admit, s57_apply}, fast = {tuned_judge, tuned_admit, tuned_apply};
    size_t work_length = S57_WORK_A_RECORD * made->records;
    uint8_t *work = grow(NULL, work_length, 1);
    struct task proved = {&calls, admit, made, out, work, work_length}, plain = {&loader_reader, admit, made, out, work, work_length},
                tuned = {&fast, admit, made, out, work, work_length};
    const struct sides sides = {&proved, &plain, &tuned};
    struct times best = measure(perform, sides, made->cell.length + (admit ? 0 : made->update.length), rounds);
    free(work);
    return best;
}

static void print_beside_admit(uint8_t *out, unsigned rounds)
{
    struct apply_case made = heavy_apply_make(0);
    struct times apply = measure_case(&made, false, out, rounds), admit = measure_case(&made, true, out, rounds);
    double bytes = (double)(made.cell.length + made.update.length) / (double)made.cell.length;
    printf("\nApply / Admit of the cell, on the first pair: proved %.2f, plain C %.2f, tuned C %.2f\n", apply.proved / admit.proved * bytes,
           apply.plain / admit.plain * bytes, apply.tuned / admit.tuned * bytes);
    apply_case_free(&made);
}

static void print_row(const struct apply_case *made, const struct times *best, double ordinary)
{
    printf("| %s | %zu | %zu | %zu | %u ", made->kind, made->cell.length, made->update.length, made->records, (unsigned)made->verdict.code);
    print_times(best, ordinary);
    printf("\n");
}

/* The last rows are refused. */
int main(int words, char **word)
{
    struct wish wish = wish_of(words, word, DEFAULT_ROUNDS);
    uint8_t *out = grow(NULL, S57_LONGEST, 1);
    double ordinary = 0;
    memset(out, 0, S57_LONGEST);
    if (!wish.csv)
        printf("Apply\n\n| cell and update | bytes of the cell | of the update | records | code %s\n|---|---:|---:|---:|---:%s\n", times_head, times_rule);
    for (size_t i = 0; i < heavy_applies(); i++) {
        struct apply_case made = heavy_apply_make(i);
        struct times best = measure_case(&made, false, out, wish.rounds);
        ordinary = i == 0 ? best.proved : ordinary;
        if (wish.csv)
            print_csv("Apply", made.kind, &best);
        else
            print_row(&made, &best, ordinary);
        apply_case_free(&made);
    }
    if (!wish.csv)
        print_beside_admit(out, wish.rounds);
    free(out);
    return 0;
}
