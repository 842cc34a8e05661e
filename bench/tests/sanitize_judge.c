/* The cases of Judge through the C reader alone, to be built with the address and undefined behaviour sanitizers.
   usage: sanitize_judge [SEEDS [FIRST_SEED]] */
#include "cases_judge.h"

int main(int words, char **word)
{
    return run_judge_cases(&loader_reader, words, word);
}
