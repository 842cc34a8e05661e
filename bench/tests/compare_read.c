/* The host test of reading: thousands of generated cells and updates through the proved archive and through the C reader.
   usage: compare_read [SEEDS [FIRST_SEED]] */
#include "../probe.h"
#include "cases_read.h"

int main(int words, char **word)
{
    static const struct read_calls proved = {probe_read_cell, probe_read_both};
    return run_read_cases(&proved, words, word);
}
