/* Writes the re-issue of a cell, or of what a series of updates makes of it, by the C reader alone.
   usage: write_held CELL [UPDATE..] OUT */
#include "../shared/buffer.h"
#include "../reader/reader.h"

#include <stdio.h>

/* The held form takes the place of the cell; false after saying why not. The update may be null. */
static bool take(struct buffer *cell, const struct buffer *update, const char *path)
{
    struct buffer held = {0};
    struct answer answer = {0};
    for (int call = 0; call < 2; call++) {
        answer = update == NULL ? reader_admit(cell->bytes, cell->length, SIZE_MAX, held.bytes, held.length)
                                : reader_apply(cell->bytes, cell->length, update->bytes, update->length, SIZE_MAX, held.bytes, held.length);
        if (answer.code == CODE_ROOM)
            buffer_more(&held, answer.number);
    }
    buffer_free(cell);
    *cell = held;
    if (answer.code != CODE_DONE)
        fprintf(stderr, "write_held: %s refused with %u, file %u, record %u\n", path, (unsigned)answer.code, (unsigned)answer.file,
                (unsigned)answer.record);
    return answer.code == CODE_DONE;
}

static bool load(struct buffer *file, const char *path)
{
    bool loaded = buffer_load(file, path);
    if (!loaded)
        fprintf(stderr, "write_held: %s can't be read\n", path);
    return loaded;
}

int main(int words, char **word)
{
    struct buffer cell = {0}, update = {0};
    if (words < 3) {
        fprintf(stderr, "usage: write_held CELL [UPDATE..] OUT\n");
        return 2;
    }
    int status = !load(&cell, word[1]) ? 2 : !take(&cell, NULL, word[1]);
    for (int i = 2; i + 1 < words && status == 0; i++) {
        update.length = 0;
        status = !load(&update, word[i]) ? 2 : !take(&cell, &update, word[i]);
    }
    if (status == 0 && !buffer_save(&cell, word[words - 1])) {
        fprintf(stderr, "write_held: %s can't be written\n", word[words - 1]);
        status = 2;
    }
    buffer_free(&cell);
    buffer_free(&update);
    return status;
}
