/* The cases of Admit through the C reader alone, to be built with the address and undefined behaviour sanitizers.
   usage: sanitize_admit [SEEDS [FIRST_SEED]] */
#include "cases_admit.h"

int main(int words, char **word)
{
    return run_admit_cases(&loader_reader, words, word);
}
