/* Cells for the listing: those of Judge, larger good ones, and such as touch a limit of the listing. */
#ifndef BENCH_GENERATE_LISTING_H
#define BENCH_GENERATE_LISTING_H

#include "generate_judge.h"

struct listing_case {
    const char *kind;
    struct buffer cell;
    bool known;            /* whether `verdict` is what a right listing is made from */
    struct answer verdict;
    const char *text;      /* the whole listing, where the maker knows it; else null */
};

size_t listing_kinds(void);
const char *listing_kind(size_t index); /* Judge's, and last that of a larger good cell */

/* Half of the seeds make the cells of Judge in their turn, the others good ones: a refused cell has no lines. */
struct listing_case listing_case_make(uint64_t seed);

size_t limit_cells(void);
const char *limit_cell_name(size_t index);
struct listing_case limit_cell_make(size_t index);

#endif
