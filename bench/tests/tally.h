/* Counts of a run: how often each kind of case was answered with each code, and what passed. */
#ifndef BENCH_TALLY_H
#define BENCH_TALLY_H

#include <stdbool.h>
#include <stddef.h>
#include <stdint.h>

enum { MOST_KINDS = 256, MOST_CODES = 23 };

struct tally {
    const char *kind[MOST_KINDS];
    uint64_t codes[MOST_KINDS][MOST_CODES];
    size_t kinds;
    uint64_t passed, failed;
    const char *const *columns; /* their names, where a case is counted by something else than its code; else null */
};

/* Puts a kind into the list: one that no case turns out to have is seen as a row of zeros. Kinds are told apart by their text. */
void tally_list(struct tally *tally, const char *kind);

void tally_add(struct tally *tally, const char *kind, uint32_t code, bool passed);

/* Prints a row a kind, a sum row and, as the last line, `N passed, M failed`. Returns the exit status. */
int tally_close(const struct tally *tally);

#endif
