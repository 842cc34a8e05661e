/* The same cases under the address and undefined behaviour sanitizers.
   usage: sanitize_tuned [SEEDS [FIRST_SEED [LARGE]]] */
#include "cases_tuned.h"

int main(int words, char **word)
{
    return run_tuned_cases("500", "0", words, word);
}
