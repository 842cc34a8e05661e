/* One input through the plain C reader and through other sides: whatever a host sees of them must be the same. */
#ifndef BENCH_FUZZ_CHECK_H
#define BENCH_FUZZ_CHECK_H

#include "../reader/reader_calls.h"
#include "input.h"

/* What is held against the plain reader; a call that it doesn't have is null. */
struct side {
    const char *name;
    struct loader loader;
    struct show_calls show;
};

extern const struct side tuned_side;

struct checked {
    struct answer answer; /* the plain reader's */
    const char *wrong;    /* where a side differs: in what; else null */
    const char *side;     /* and which */
};

/* After an answer of 0 the re-issue goes on: it must be judged 0 and be its own re-issue, and with its update once more it must be 11. */
struct checked check_input(const struct input *input, const struct side *sides, size_t count);

#endif
