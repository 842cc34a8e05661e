/* The cases of Apply, run through a candidate and the C reader. */
#ifndef BENCH_CASES_APPLY_H
#define BENCH_CASES_APPLY_H

#include "../generators/generate_apply.h"
#include "../reader/reader_calls.h"

/* The case of a seed; where the generator leaves its verdict to Judge, the C reader has judged. */
struct apply_case judged_apply_case(uint64_t seed);

/* A program's main (runner.h): a seed is one pair; the rows of the bench sheet come before, series of ten updates among them, the large pairs behind. Each is
   called with output, work and answer areas of several lengths and compared with the reader and with what the generator knows. */
int run_apply_cases(const struct loader *candidate, int words, char **word);

#endif
