/* A held form looked at for itself, and beside the cell that it was written from. */
#ifndef BENCH_CHECK_HELD_H
#define BENCH_CHECK_HELD_H

#include <stddef.h>
#include <stdint.h>

/* What document 01's "Held form" doesn't allow in it, or null. The cell must be one that Admit accepts. */
const char *held_fault(const uint8_t *cell, size_t cell_length, const uint8_t *held, size_t held_length);

#endif
