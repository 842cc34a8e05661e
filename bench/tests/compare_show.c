/* The host test of Show: thousands of generated cells and updates, and names of every kind, through the proved archive and through the C reader.
   usage: compare_show [SEEDS [FIRST_SEED]] */
#include "../probe.h"
#include "cases_show.h"

int main(int words, char **word)
{
    static const struct show_calls proved = {probe_show};
    return run_show_cases(&proved, words, word);
}
