/* The cases of Judge, run through a candidate and the C reader. */
#ifndef BENCH_CASES_JUDGE_H
#define BENCH_CASES_JUDGE_H

#include "../reader/reader_calls.h"

/* A program's main (runner.h): a seed is one cell, called with several work and answer areas and compared with the reader and with what the generator
   knows. Leaders with every pair of sizes come before. */
int run_judge_cases(const struct loader *candidate, int words, char **word);

#endif
