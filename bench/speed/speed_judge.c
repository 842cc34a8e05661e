/* Judge, the proved one beside plain and tuned C: nanoseconds a byte on an ordinary cell and on heavy ones, as a table in Markdown.
   usage: speed_judge [ROUNDS] [--csv] */
#include "../../host/s57loader.h"
#include "../generators/generate_judge.h"
#include "../reader/reader_calls.h"
#include "../tuned/tuned.h"
#include "speed.h"

#include <stdio.h>
#include <stdlib.h>

enum { DEFAULT_ROUNDS = 20 };

struct task {
    const struct loader *loader;
    const struct judge_case *made;
    uint8_t *work;
    size_t work_length;
};

static uint64_t perform(void *context)
{
    const struct task *task = context;
    uint8_t answer[S57_ANSWER];
    return task->loader->judge(task->made->cell.bytes, task->made->cell.length, task->work, task->work_length, answer, sizeof answer);
}

static struct times measure_case(const struct judge_case *made, unsigned rounds)
{
    static const struct loader proved = {s57_judge, s57_admit, s57_apply}, tuned = {tuned_judge, tuned_admit, tuned_apply};
    size_t work_length = S57_WORK_A_RECORD * made->records;
    uint8_t *work = grow(NULL, work_length, 1);
    struct task first = {&proved, made, work, work_length}, second = {&loader_reader, made, work, work_length},
                third = {&tuned, made, work, work_length};
    struct times best = measure(perform, (struct sides){&first, &second, &third}, made->cell.length, rounds);
    free(work);
    return best;
}

int main(int words, char **word)
{
    struct wish wish = wish_of(words, word, DEFAULT_ROUNDS);
    double ordinary = 0;
    if (!wish.csv)
        printf("Judge\n\n| cell | bytes | records %s\n|---|---:|---:%s\n", times_head, times_rule);
    for (size_t i = 0; i < heavy_cells(); i++) {
        struct judge_case made = heavy_cell_make(i);
        struct times best = measure_case(&made, wish.rounds);
        ordinary = i == 0 ? best.proved : ordinary;
        if (wish.csv) {
            print_csv("Judge", made.kind, &best);
        } else {
            printf("| %s | %zu | %zu ", made.kind, made.cell.length, made.records);
            print_times(&best, ordinary);
            printf("\n");
        }
        buffer_free(&made.cell);
    }
    return 0;
}
