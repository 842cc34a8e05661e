/* Areas lent to a candidate: filled with a pattern before the call, with more of the pattern before and after them, and looked at after it. */
#ifndef BENCH_AREAS_H
#define BENCH_AREAS_H

#include "../shared/buffer.h"

#include <stdbool.h>

enum { PATTERN = 0xA5, GUARD = 32 };

/* A copy in memory of exactly that many bytes, so that a read past the end is seen by the tools that watch for one; never null. */
uint8_t *exact_copy(const struct buffer *from);

/* A copy between two guards, so that a write beside it is seen. */
uint8_t *guarded_copy(const struct buffer *from);

/* An area of that many bytes between two guards of GUARD bytes, all of it the pattern. */
uint8_t *lent_area(size_t length);
void lent_free(uint8_t *area);

/* Whether the two guards are as they were. */
bool guards_kept(const uint8_t *area, size_t length);

bool all_are(const uint8_t *area, size_t length, uint8_t byte);

void print_bytes(const uint8_t *bytes, size_t length);

/* For a program that lends many areas, at its start: glibc then keeps the memory that is given back, where it would ask the system for it anew at each call. */
void keep_memory(void);

#endif
