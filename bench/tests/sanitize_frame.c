/* The same cases through the C reader alone, to be built with the address and undefined behaviour sanitizers.
   usage: sanitize_frame [SEEDS [FIRST_SEED]] */
#include "cases_frame.h"

int main(int words, char **word)
{
    return run_frame_cases(&frame_reader, words, word);
}
