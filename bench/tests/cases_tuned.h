/* The cases of Judge, Admit and Apply, run through the tuned reader and the plain one. */
#ifndef BENCH_CASES_TUNED_H
#define BENCH_CASES_TUNED_H

/* A program's main: its words are [SEEDS [FIRST_SEED [LARGE]]] (runner.h); where the caller says nothing each call has so many seeds and large cases. Each
   call's cases are counted by themselves; the last line says how many of the three calls passed. */
int run_tuned_cases(const char *seeds, const char *large, int words, char **word);

#endif
