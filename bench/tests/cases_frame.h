/* The framing cases, run through a candidate and the C reader. */
#ifndef BENCH_CASES_FRAME_H
#define BENCH_CASES_FRAME_H

#include "../reader/reader_calls.h"

/* A program's main (runner.h): a seed is one file, one format list and one descriptive field, each compared with the reader and with what the generator
   knows. */
int run_frame_cases(const struct frame_calls *candidate, int words, char **word);

#endif
