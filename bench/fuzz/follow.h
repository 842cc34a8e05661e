/* What of a chart follows from the rest, put right: a change elsewhere mostly makes it wrong, and then the change itself isn't looked at. */
#ifndef BENCH_FUZZ_FOLLOW_H
#define BENCH_FUZZ_FOLLOW_H

#include "../generators/generate_pair.h"

/* The counts in DSSI, where all is there that is counted. */
void put_counts(struct chart *chart);

/* An update's header, the names and versions of what it modifies and deletes, and the counts in its controls: mostly, by chance. */
void follow_cell(struct chart *cell, struct chart *update, struct random *random);

#endif
