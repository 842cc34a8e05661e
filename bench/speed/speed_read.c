/* Reading, proved over C: nanoseconds a byte on an ordinary cell and on hostile ones, as a table in Markdown.
   usage: speed_read [ROUNDS] */
#include "../generators/generate_read.h"
#include "../probe.h"
#include "../reader/reader_calls.h"
#include "speed.h"

#include <stdio.h>
#include <stdlib.h>

enum { DEFAULT_ROUNDS = 20 };

struct task {
    const struct read_calls *candidate;
    const struct read_case *made;
    uint8_t *work;
    size_t work_length;
};

static uint64_t perform(void *context)
{
    const struct task *task = context;
    const struct read_case *made = task->made;
    uint8_t answer[READ_ANSWER];
    if (made->both)
        return task->candidate->both(made->cell.bytes, made->cell.length, made->update.bytes, made->update.length, task->work, task->work_length,
                                     answer, sizeof answer);
    return task->candidate->cell(made->cell.bytes, made->cell.length, task->work, task->work_length, answer, sizeof answer);
}

static struct times measure_case(const struct read_case *made, unsigned rounds)
{
    static const struct read_calls proved = {probe_read_cell, probe_read_both};
    size_t work_length = WORK_A_RECORD * made->records;
    uint8_t *work = grow(NULL, work_length, 1);
    struct task left = {&proved, made, work, work_length}, right = {&read_reader, made, work, work_length};
    struct times best = measure(perform, (struct sides){&left, &right, NULL}, made->cell.length + made->update.length, rounds);
    free(work);
    return best;
}

int main(int words, char **word)
{
    unsigned rounds = words > 1 ? (unsigned)strtoul(word[1], NULL, 10) : DEFAULT_ROUNDS;
    double ordinary = 0;
    printf("Reading (codes 1 to 8)\n\n");
    printf("| file | bytes | records | proved, ns a byte | C, ns a byte | proved / C | proved / proved ordinary |\n");
    printf("|---|---:|---:|---:|---:|---:|---:|\n");
    for (size_t i = 0; i < large_cells(); i++) {
        struct read_case made = large_cell_make(i);
        struct times best = measure_case(&made, rounds);
        ordinary = i == 0 ? best.proved : ordinary;
        printf("| %s | %zu | %zu ", made.kind, made.cell.length + made.update.length, made.records);
        printf("| %.4f | %.4f | %.2f | %.2f |\n", best.proved, best.plain, best.proved / best.plain, best.proved / ordinary);
        read_case_free(&made);
    }
    return 0;
}
