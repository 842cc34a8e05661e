/* Admit, the proved one beside plain and tuned C, and Admit over Judge: nanoseconds a byte on an ordinary cell and on heavy ones, as a table in Markdown. The
   output area is there before the clock starts.
   usage: speed_admit [ROUNDS] [--csv] */
#include "../../host/s57loader.h"
#include "../generators/generate_admit.h"
#include "../reader/reader_calls.h"
#include "../tuned/tuned.h"
#include "speed.h"

#include <stdio.h>
#include <stdlib.h>
#include <string.h>

enum { DEFAULT_ROUNDS = 20 };

struct task {
    const struct loader *loader;
    bool judge; /* Judge in Admit's place */
    const struct judge_case *made;
    uint8_t *out, *work;
    size_t work_length;
};

static uint64_t perform(void *context)
{
    const struct task *task = context;
    const struct buffer *cell = &task->made->cell;
    uint8_t answer[S57_ANSWER];
    if (task->judge)
        return task->loader->judge(cell->bytes, cell->length, task->work, task->work_length, answer, sizeof answer);
    uint32_t code = task->loader->admit(cell->bytes, cell->length, task->out, S57_LONGEST, task->work, task->work_length, answer, sizeof answer);
    return (uint64_t)s57_answer_read(answer).number << 8 | code;
}

struct both {
    struct times admit, judge;
};

static struct both measure_case(const struct judge_case *made, uint8_t *out, unsigned rounds)
{
    static const struct loader calls = {s57_judge, s57_admit, s57_apply}, fast = {tuned_judge, tuned_admit, tuned_apply};
    size_t work_length = S57_WORK_A_RECORD * made->records, length = made->cell.length;
    uint8_t *work = grow(NULL, work_length, 1);
    struct task proved = {&calls, false, made, out, work, work_length}, plain = {&loader_reader, false, made, out, work, work_length},
                tuned = {&fast, false, made, out, work, work_length};
    const struct sides sides = {&proved, &plain, &tuned};
    struct both best;
    best.admit = measure(perform, sides, length, rounds);
    proved.judge = plain.judge = tuned.judge = true;
    best.judge = measure(perform, sides, length, rounds);
    free(work);
    return best;
}

static void print_row(const struct judge_case *made, const struct both *best, double ordinary, uint8_t *out)
{
    struct answer answer = reader_admit(made->cell.bytes, made->cell.length, SIZE_MAX, out, S57_LONGEST);
    printf("| %s | %zu | %zu | %u ", made->kind, made->cell.length, made->records, (unsigned)answer.code);
    print_times(&best->admit, ordinary);
    printf(" %.2f | %.2f | %.2f |\n", best->admit.proved / best->judge.proved, best->admit.plain / best->judge.plain,
           best->admit.tuned / best->judge.tuned);
}

/* Judge's rows: the last five are refused, and so is the second one, whose records are over the held form's limit. */
int main(int words, char **word)
{
    struct wish wish = wish_of(words, word, DEFAULT_ROUNDS);
    uint8_t *out = grow(NULL, S57_LONGEST, 1);
    double ordinary = 0;
    memset(out, 0, S57_LONGEST);
    if (!wish.csv)
        printf("Admit\n\n| cell | bytes | records | code %s proved, Admit / Judge | plain C, Admit / Judge | tuned C, Admit / Judge |\n"
               "|---|---:|---:|---:%s---:|---:|---:|\n",
               times_head, times_rule);
    for (size_t i = 0; i < heavy_cells(); i++) {
        struct judge_case made = heavy_cell_make(i);
        struct both best = measure_case(&made, out, wish.rounds);
        ordinary = i == 0 ? best.admit.proved : ordinary;
        if (wish.csv)
            print_csv("Admit", made.kind, &best.admit);
        else
            print_row(&made, &best, ordinary, out);
        buffer_free(&made.cell);
    }
    free(out);
    return 0;
}
