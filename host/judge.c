/* An example host: judges a chart cell and says in a sentence what is wrong with it.
   usage: judge CELL
   The exit status is 0 where the cell is good, 1 where it is refused, 2 where it could not be read. */
#include "common.h"

#include <stdio.h>

/* The name that it goes by: s57-judge where it is installed (build.sh). */
#ifndef OWN_NAME
#define OWN_NAME "judge"
#endif

/* All memory there is, lent to the loader. One byte more than a cell may have: a longer file is told from the longest cell without reading the rest. */
static uint8_t cell[S57_LONGEST + 1], work[S57_WORK_MOST], area[S57_ANSWER];

int main(int words, char **word)
{
    size_t length;
    if (words != 2) {
        fprintf(stderr, "usage: " OWN_NAME " CELL\n");
        return HOST_FAILED;
    }
    if (!read_file(word[1], cell, sizeof cell, &length)) {
        fprintf(stderr, OWN_NAME ": %s can't be read\n", word[1]);
        return HOST_FAILED;
    }
    uint32_t code = s57_judge(cell, length, work, sizeof work, area, sizeof area);
    say(word[1], "The chart is good.", s57_answer_read(area));
    return code == S57_DONE ? HOST_DONE : HOST_REFUSED;
}
