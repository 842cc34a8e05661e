/* Framing, proved over C: nanoseconds a byte on an ordinary file and on hostile ones, as a table in Markdown.
   usage: speed_frame [ROUNDS] */
#include "../generators/generate.h"
#include "../probe.h"
#include "../reader/reader_calls.h"
#include "speed.h"

#include <stdio.h>
#include <stdlib.h>

enum { DEFAULT_ROUNDS = 40 };

typedef uint64_t framed(const uint8_t *file, size_t length);

struct framing_task {
    framed *call;
    const struct buffer *file;
};

static uint64_t perform(void *context)
{
    const struct framing_task *task = context;
    return task->call(task->file->bytes, task->file->length);
}

static void print_table(const char *title, framed *proved, framed *plain, const struct frame_case *large, unsigned rounds)
{
    double ordinary = 0;
    printf("%s\n\n", title);
    printf("| file | bytes | records | proved, ns a byte | C, ns a byte | proved / C | proved / proved ordinary |\n");
    printf("|---|---:|---:|---:|---:|---:|---:|\n");
    for (size_t i = 0; i < large_files(); i++) {
        struct framing_task left = {proved, &large[i].file}, right = {plain, &large[i].file};
        struct times best = measure(perform, (struct sides){&left, &right, NULL}, large[i].file.length, rounds);
        ordinary = i == 0 ? best.proved : ordinary;
        printf("| %s | %zu | %zu ", large[i].kind, large[i].file.length, large[i].verdict.records);
        printf("| %.4f | %.4f | %.2f | %.2f |\n", best.proved, best.plain, best.proved / best.plain, best.proved / ordinary);
    }
    printf("\n");
}

int main(int words, char **word)
{
    unsigned rounds = words > 1 ? (unsigned)strtoul(word[1], NULL, 10) : DEFAULT_ROUNDS;
    size_t files = large_files();
    struct frame_case *large = grow(NULL, files, sizeof large[0]);
    for (size_t i = 0; i < files; i++)
        large[i] = large_make(i);
    print_table("Framing (`frame`)", probe_frame, frame_reader.frame, large, rounds);
    print_table("Framing, then a walk over all fields", probe_fields, frame_reader.fields, large, rounds);
    for (size_t i = 0; i < files; i++)
        buffer_free(&large[i].file);
    free(large);
    return 0;
}
