/* The host test of Judge: thousands of generated cells through the proved loader and through the C reader.
   usage: compare_judge [SEEDS [FIRST_SEED]] */
#include "../../host/s57loader.h"
#include "cases_judge.h"

int main(int words, char **word)
{
    static const struct loader proved = {s57_judge, s57_admit, s57_apply};
    return run_judge_cases(&proved, words, word);
}
