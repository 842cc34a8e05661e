/* A run of bytes that grows. Out of memory ends the program: nothing here could go on without it. */
#ifndef BENCH_BUFFER_H
#define BENCH_BUFFER_H

#include <stdbool.h>
#include <stddef.h>
#include <stdint.h>

struct buffer {
    uint8_t *bytes;
    size_t length, room;
};

/* Memory of `count` entries of `size` bytes, moved from `old` (may be null). */
void *grow(void *old, size_t count, size_t size);

/* Appends `count` bytes whose content the caller fills, and returns where they stand until the next call. */
uint8_t *buffer_more(struct buffer *buffer, size_t count);

void buffer_put(struct buffer *buffer, const void *bytes, size_t count);

/* Opens a gap of `count` zero bytes at `at` and returns where it stands. */
uint8_t *buffer_open(struct buffer *buffer, size_t at, size_t count);

void buffer_remove(struct buffer *buffer, size_t at, size_t count);

/* Appends the bytes of a file; false where it can't be read to its end. */
bool buffer_load(struct buffer *buffer, const char *path);

/* Writes them as a file; false where that can't be done. */
bool buffer_save(const struct buffer *buffer, const char *path);

void buffer_free(struct buffer *buffer);

#endif
