#include "runner.h"

#include <stdlib.h>

static void list_kinds(struct tally *tally, const struct kinds *kinds)
{
    for (size_t list = 0; list < MOST_KIND_LISTS && kinds[list].count != NULL; list++)
        for (size_t i = 0; i < kinds[list].count(); i++)
            tally_list(tally, kinds[list].name(i));
}

int run_test(const struct test *test, const void *candidate, int words, char **word)
{
    uint64_t seeds = words > 1 ? strtoull(word[1], NULL, 10) : test->seeds;
    uint64_t first = words > 2 ? strtoull(word[2], NULL, 10) : 0;
    size_t large = words > 3 ? strtoul(word[3], NULL, 10) : SIZE_MAX;
    struct tally tally = {.columns = test->columns};
    list_kinds(&tally, test->kinds);
    if (test->run_before != NULL)
        test->run_before(&tally, candidate);
    for (uint64_t seed = first; seed - first < seeds; seed++)
        test->run_seed(&tally, candidate, seed);
    if (test->run_all_seeds != NULL && seeds >= test->seeds)
        test->run_all_seeds(&tally);
    for (size_t i = 0; i < test->large_cases() && i < large; i++)
        test->run_large(&tally, candidate, i);
    return tally_close(&tally);
}
