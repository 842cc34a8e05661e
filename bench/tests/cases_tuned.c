#include "cases_tuned.h"

#include "../tuned/tuned.h"
#include "cases_admit.h"
#include "cases_apply.h"
#include "cases_judge.h"

#include <stdio.h>

enum { WORD = 32, WORDS = 4 };

int run_tuned_cases(const char *seeds, const char *large, int words, char **word)
{
    static const struct loader tuned = {tuned_judge, tuned_admit, tuned_apply};
    static int (*const run[])(const struct loader *candidate, int words, char **word) = {run_judge_cases, run_admit_cases, run_apply_cases};
    const int calls = sizeof run / sizeof run[0];
    char own_seeds[WORD], own_first[] = "0", own_large[WORD], *own[WORDS] = {word[0], own_seeds, own_first, own_large};
    int failed = 0;
    snprintf(own_seeds, sizeof own_seeds, "%s", seeds);
    snprintf(own_large, sizeof own_large, "%s", large);
    for (int i = 0; i < calls; i++)
        failed += run[i](&tuned, words > 1 ? words : WORDS, words > 1 ? word : own) != 0;
    printf("%d passed, %d failed\n", calls - failed, failed);
    return failed > 0;
}
