/* The host test of Apply: thousands of generated pairs of a cell and an update through the proved loader and through the C reader.
   usage: compare_apply [SEEDS [FIRST_SEED]] */
#include "../../host/s57loader.h"
#include "cases_apply.h"

int main(int words, char **word)
{
    static const struct loader proved = {s57_judge, s57_admit, s57_apply};
    return run_apply_cases(&proved, words, word);
}
