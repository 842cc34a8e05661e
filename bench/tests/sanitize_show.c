/* The cases of Show through the C reader alone, to be built with the address and undefined behaviour sanitizers.
   usage: sanitize_show [SEEDS [FIRST_SEED]] */
#include "cases_show.h"

int main(int words, char **word)
{
    return run_show_cases(&show_reader, words, word);
}
