/* The cases of Apply through the C reader alone, to be built with the address and undefined behaviour sanitizers.
   usage: sanitize_apply [SEEDS [FIRST_SEED]] */
#include "cases_apply.h"

int main(int words, char **word)
{
    return run_apply_cases(&loader_reader, words, word);
}
