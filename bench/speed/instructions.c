/* For bench/instructions.sh: the rows of the speed programs as files, and calls on them, to be run under a tool that counts.
   usage: instructions rows CALL                      prints the names of a call's rows (judge, admit, apply)
          instructions write CALL ROW FOLDER          writes FOLDER/cell and FOLDER/update, and prints the number of their records
          instructions call CALL SIDE FOLDER TIMES    so many calls of one side (proved, plain, tuned) on them; prints the last one's code */
#include "../../host/s57loader.h"
#include "../generators/generate_apply.h"
#include "../reader/reader_calls.h"
#include "../tuned/tuned.h"

#include <stdio.h>
#include <stdlib.h>
#include <string.h>

static const struct loader proved = {s57_judge, s57_admit, s57_apply}, tuned = {tuned_judge, tuned_admit, tuned_apply};

/* ---- rows */

static size_t rows_of(const char *call)
{
    return strcmp(call, "apply") == 0 ? heavy_applies() : heavy_cells();
}

static const char *row_name(const char *call, size_t row)
{
    return strcmp(call, "apply") == 0 ? heavy_apply_name(row) : heavy_cell_name(row);
}

static bool save(const struct buffer *file, const char *folder, const char *name)
{
    char path[4096];
    snprintf(path, sizeof path, "%s/%s", folder, name);
    return buffer_save(file, path);
}

static bool write_row(const char *call, size_t row, const char *folder)
{
    struct apply_case made;
    if (strcmp(call, "apply") == 0) {
        made = heavy_apply_make(row);
    } else {
        struct judge_case judged = heavy_cell_make(row);
        made = (struct apply_case){.cell = judged.cell, .records = judged.records};
    }
    bool written = save(&made.cell, folder, "cell") && save(&made.update, folder, "update");
    printf("%zu\n", made.records);
    apply_case_free(&made);
    return written;
}

/* ---- calls */

static bool load(struct buffer *file, const char *folder, const char *name)
{
    char path[4096];
    snprintf(path, sizeof path, "%s/%s", folder, name);
    return buffer_load(file, path);
}

static uint32_t perform(const struct loader *loader, const char *call, const struct buffer *cell, const struct buffer *update, uint8_t *out, uint8_t *work,
                        size_t work_length)
{
    uint8_t answer[S57_ANSWER];
    if (call[0] == 'j')
        return loader->judge(cell->bytes, cell->length, work, work_length, answer, sizeof answer);
    if (call[1] == 'd')
        return loader->admit(cell->bytes, cell->length, out, S57_LONGEST, work, work_length, answer, sizeof answer);
    return loader->apply(cell->bytes, cell->length, update->bytes, update->length, out, S57_LONGEST, work, work_length, answer, sizeof answer);
}

static bool call_times(const char *call, const char *side, const char *folder, unsigned long times)
{
    const struct loader *loader = strcmp(side, "proved") == 0 ? &proved : strcmp(side, "plain") == 0 ? &loader_reader : &tuned;
    struct buffer cell = {0}, update = {0};
    if (!load(&cell, folder, "cell") || !load(&update, folder, "update"))
        return false;
    size_t work_length = S57_WORK_A_RECORD * (reader_frame(cell.bytes, cell.length).records + reader_frame(update.bytes, update.length).records);
    uint8_t *out = grow(NULL, S57_LONGEST, 1), *work = grow(NULL, work_length + 1, 1);
    uint32_t code = 0;
    for (; times > 0; times--)
        code = perform(loader, call, &cell, &update, out, work, work_length);
    printf("%u\n", (unsigned)code);
    free(out);
    free(work);
    buffer_free(&cell);
    buffer_free(&update);
    return true;
}

int main(int words, char **word)
{
    if (words == 3 && strcmp(word[1], "rows") == 0) {
        for (size_t row = 0; row < rows_of(word[2]); row++)
            printf("%s\n", row_name(word[2], row));
        return 0;
    }
    if (words == 5 && strcmp(word[1], "write") == 0)
        return write_row(word[2], strtoul(word[3], NULL, 10), word[4]) ? 0 : 1;
    if (words == 6 && strcmp(word[1], "call") == 0)
        return call_times(word[2], word[3], word[4], strtoul(word[5], NULL, 10)) ? 0 : 1;
    fprintf(stderr, "usage: instructions rows CALL | write CALL ROW FOLDER | call CALL SIDE FOLDER TIMES\n");
    return 2;
}
