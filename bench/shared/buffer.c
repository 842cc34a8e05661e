#include "buffer.h"

#include <stdio.h>
#include <stdlib.h>
#include <string.h>

void *grow(void *old, size_t count, size_t size)
{
    void *memory = realloc(old, count * size);
    if (memory == NULL) {
        fprintf(stderr, "out of memory\n");
        exit(2);
    }
    return memory;
}

uint8_t *buffer_more(struct buffer *buffer, size_t count)
{
    size_t at = buffer->length;
    if (count > buffer->room - at) {
        buffer->room = 2 * buffer->room + count + 64;
        buffer->bytes = grow(buffer->bytes, buffer->room, 1);
    }
    buffer->length += count;
    return buffer->bytes + at;
}

void buffer_put(struct buffer *buffer, const void *bytes, size_t count)
{
    uint8_t *to = buffer_more(buffer, count);
    if (count > 0)
        memcpy(to, bytes, count);
}

uint8_t *buffer_open(struct buffer *buffer, size_t at, size_t count)
{
    size_t after = buffer->length - at;
    buffer_more(buffer, count);
    memmove(buffer->bytes + at + count, buffer->bytes + at, after);
    memset(buffer->bytes + at, 0, count);
    return buffer->bytes + at;
}

void buffer_remove(struct buffer *buffer, size_t at, size_t count)
{
    memmove(buffer->bytes + at, buffer->bytes + at + count, buffer->length - at - count);
    buffer->length -= count;
}

bool buffer_load(struct buffer *buffer, const char *path)
{
    enum { STEP = 65536 };
    FILE *file = fopen(path, "rb");
    if (file == NULL)
        return false;
    for (size_t got = STEP; got == STEP;) {
        got = fread(buffer_more(buffer, STEP), 1, STEP, file);
        buffer->length -= STEP - got;
    }
    bool whole = !ferror(file);
    fclose(file);
    return whole;
}

bool buffer_save(const struct buffer *buffer, const char *path)
{
    FILE *file = fopen(path, "wb");
    if (file == NULL)
        return false;
    bool whole = fwrite(buffer->bytes, 1, buffer->length, file) == buffer->length;
    return fclose(file) == 0 && whole;
}

void buffer_free(struct buffer *buffer)
{
    free(buffer->bytes);
    *buffer = (struct buffer){0};
}
