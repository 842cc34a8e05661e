/* Times of up to three ways to do one thing: the proved code, the plain C reader, the tuned one. */
#ifndef BENCH_SPEED_H
#define BENCH_SPEED_H

#include <stdbool.h>
#include <stddef.h>
#include <stdint.h>

/* Does the thing and returns a number that all ways must agree on. */
typedef uint64_t timed(void *context);

/* The contexts of the three; the tuned one may be null. */
struct sides {
    void *proved, *plain, *tuned;
};

struct times {
    double proved, plain, tuned; /* nanoseconds a byte */
};

/* The best of several rounds, the sides taking turns so that what else the machine does strikes all. Ends the program where they disagree. */
struct times measure(timed *perform, struct sides sides, size_t bytes, unsigned rounds);

/* A program's words: [ROUNDS] [--csv]. */
struct wish {
    unsigned rounds;
    bool csv; /* one line a row, for speed/plot.py, in place of a table */
};

struct wish wish_of(int words, char **word, unsigned rounds);

/* The columns of the times, in the table's head and rule, and in a row. `ordinary` is the proved time of the first row. */
extern const char times_head[], times_rule[];
void print_times(const struct times *times, double ordinary);

/* "CALL","ROW",proved,plain,tuned */
void print_csv(const char *call, const char *row, const struct times *times);

#endif
