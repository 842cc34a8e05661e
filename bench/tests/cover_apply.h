/* What the updates of good pairs do, so that a kind of edit that no pair has is seen. */
#ifndef BENCH_COVER_APPLY_H
#define BENCH_COVER_APPLY_H

#include "../generators/generate_apply.h"
#include "tally.h"

enum { COVER_LISTS = 5, COVER_TEXTS = 3, COVER_INSTRUCTIONS = 3, COVER_PLACES = 4, COVER_PARTED = 2, COVER_VALUES = 4 };

struct cover {
    uint64_t edits[COVER_LISTS][COVER_INSTRUCTIONS][COVER_PLACES]; /* by list, instruction, and where in the list */
    uint64_t parted[COVER_LISTS][COVER_PARTED];                    /* by list: it, or what is brought, stands in several fields */
    uint64_t values[COVER_TEXTS][COVER_VALUES];                    /* by list of attributes, and what is done to one */
};

/* Adds what the update of a good pair does to the records of its cell. */
void cover_add(struct cover *cover, const struct apply_case *made);

/* A row in the tally: each kind of edit has come up. Those that haven't are printed. */
void cover_demand(const struct cover *cover, struct tally *tally);

#endif
