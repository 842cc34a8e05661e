/* The cases of Show, run through a candidate and the C reader. */
#ifndef BENCH_CASES_SHOW_H
#define BENCH_CASES_SHOW_H

#include "../reader/reader_calls.h"

/* A program's main (runner.h): a seed is one case, asked for a name of every kind, with several lengths of the areas. */
int run_show_cases(const struct show_calls *candidate, int words, char **word);

#endif
