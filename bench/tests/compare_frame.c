/* The host test of framing: thousands of generated files through the proved archive and through the C reader.
   usage: compare_frame [SEEDS [FIRST_SEED]] */
#include "../probe.h"
#include "cases_frame.h"

int main(int words, char **word)
{
    static const struct frame_calls proved = {probe_frame, probe_fields, probe_formats, probe_cut};
    return run_frame_cases(&proved, words, word);
}
