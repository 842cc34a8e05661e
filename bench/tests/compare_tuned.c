/* The host test of the tuned reader: what is timed beside the proved loader gives the plain reader's answers and bytes.
   usage: compare_tuned [SEEDS [FIRST_SEED [LARGE]]] */
#include "cases_tuned.h"

int main(int words, char **word)
{
    return run_tuned_cases("100", "0", words, word);
}
