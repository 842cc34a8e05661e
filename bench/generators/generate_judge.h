/* Cases for Judge: codes 0 to 8 and 17 to 19. */
#ifndef BENCH_GENERATE_JUDGE_H
#define BENCH_GENERATE_JUDGE_H

#include "generate_read.h"

struct judge_case {
    const char *kind;
    struct buffer cell;
    size_t records;        /* as they were before damage to the framing */
    bool known;            /* whether `verdict` is what a right Judge must say, given work enough */
    struct answer verdict; /* but for the offset, which Judge doesn't tell */
};

size_t judge_kinds(void);
const char *judge_kind(size_t index);
struct judge_case judge_case_make(uint64_t seed);

/* What document 01 says with this much work, where the case knows what it says with enough. */
struct answer judge_verdict(const struct judge_case *made, size_t work_length);

/* Cells of up to 5 MB; cell 0 is the ordinary one. */
size_t heavy_cells(void);
const char *heavy_cell_name(size_t index);
struct judge_case heavy_cell_make(size_t index);

/* The rules whose breaking codes 17 to 19 answer; the record of such a fault is a place in held order. */
extern const struct rule_set topology_faults;

/* Random damage to what topology looks at: pointers, coordinates and PRIM, or rings alone. */
void damage_pointers(struct chart *cell, struct random *random);
void damage_ring(struct chart *cell, struct random *random);

#endif
