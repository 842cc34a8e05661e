/* The cases of Admit, run through a candidate and the C reader. */
#ifndef BENCH_CASES_ADMIT_H
#define BENCH_CASES_ADMIT_H

#include "../reader/reader_calls.h"

/* A program's main (runner.h): a seed is one cell, called with several output, work and answer areas and compared with the reader and with what the
   generator knows; every held form is judged and admitted again. */
int run_admit_cases(const struct loader *candidate, int words, char **word);

#endif
