/* The cases of reading, run through a candidate and the C reader. */
#ifndef BENCH_CASES_READ_H
#define BENCH_CASES_READ_H

#include "../reader/reader_calls.h"

/* A program's main (runner.h): a seed is one case, called with several work areas and compared with the reader and with what the generator knows. */
int run_read_cases(const struct read_calls *candidate, int words, char **word);

#endif
