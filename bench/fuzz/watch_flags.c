#include "watch.h"

#include <string.h>

static bool *flag;
static uint8_t *met_blocks;
static size_t blocks;

/* The compiler's code calls this at the start, with all flags in one row. */
void __sanitizer_cov_bool_flag_init(bool *first, bool *last);

void __sanitizer_cov_bool_flag_init(bool *first, bool *last)
{
    flag = first;
    blocks = (size_t)(last - first);
}

/* The flags are there without a list. */
bool watch_open(const char *path, uint8_t *met)
{
    (void)path;
    met_blocks = met;
    return blocks > 0 && blocks <= MOST_BLOCKS;
}

size_t watched_blocks(void)
{
    return blocks;
}

void watch_again(void)
{
    memset(flag, 0, blocks);
}

void watch_look(void)
{
    for (size_t i = 0; i < blocks; i++)
        met_blocks[i] |= flag[i];
}
