/* The host test of Admit: thousands of generated cells through the proved loader and through the C reader.
   usage: compare_admit [SEEDS [FIRST_SEED]] */
#include "../../host/s57loader.h"
#include "cases_admit.h"

int main(int words, char **word)
{
    static const struct loader proved = {s57_judge, s57_admit, s57_apply};
    return run_admit_cases(&proved, words, word);
}
