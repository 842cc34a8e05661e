/* One run over the cases of a test, the same for every test: so many seeds, then the large cases. A test brings its cases and what is done with one. */
#ifndef BENCH_RUNNER_H
#define BENCH_RUNNER_H

#include "tally.h"

/* The kinds of a test's cases, by their texts. */
struct kinds {
    size_t (*count)(void);
    const char *(*name)(size_t index);
};

enum { MOST_KIND_LISTS = 4 };

/* Every function counts into the tally. The candidate is what the test's cases go through. */
struct test {
    uint64_t seeds;                      /* how many, where the caller says nothing */
    struct kinds kinds[MOST_KIND_LISTS]; /* in the order of the rows; a kind that no case turns out to have is seen as a row of zeros */
    const char *const *columns;          /* of the rows; null where they are document 01's codes */
    void (*run_before)(struct tally *tally, const void *candidate); /* cases before the seeds; may be null */
    void (*run_seed)(struct tally *tally, const void *candidate, uint64_t seed);
    void (*run_all_seeds)(struct tally *tally); /* what must be true of all of them, where none was left out; may be null */
    size_t (*large_cases)(void);
    void (*run_large)(struct tally *tally, const void *candidate, size_t index);
};

/* A program's main: its words are [SEEDS [FIRST_SEED [LARGE]]], where LARGE is how many of the large cases are taken. Prints the counts of each kind and, as the last line, `N passed, M failed`. Returns the exit
   status. */
int run_test(const struct test *test, const void *candidate, int words, char **word);

#endif
