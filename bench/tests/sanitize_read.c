/* The cases of reading through the C reader alone, to be built with the address and undefined behaviour sanitizers.
   usage: sanitize_read [SEEDS [FIRST_SEED]] */
#include "cases_read.h"

int main(int words, char **word)
{
    return run_read_cases(&read_reader, words, word);
}
