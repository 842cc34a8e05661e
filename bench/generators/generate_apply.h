/* Cases for Apply: all codes but 22. */
#ifndef BENCH_GENERATE_APPLY_H
#define BENCH_GENERATE_APPLY_H

#include "generate_pair.h"

struct apply_case {
    const char *kind;
    struct buffer cell, update;
    size_t records;        /* of both files, as they were before damage to their framing */
    bool known;            /* whether `verdict` is what a right Apply must say, given work and output enough */
    struct answer verdict; /* but for the number */
    struct buffer held;    /* where the verdict is 0 and the maker knows it: the held form of the result; else empty */
    bool left_to_judge;    /* of a result that was damaged: `held` is its held form, and what Judge says of that, Apply must say of the result */
};

size_t apply_kinds(void);
const char *apply_kind(size_t index);

/* Of eight seeds three break a rule of "Updates" and one a rule of topology in the result, rule after rule. */
struct apply_case apply_case_make(uint64_t seed);
void apply_case_free(struct apply_case *made);

/* What Judge says of the held form of such a case, which knows its verdict then. */
void apply_case_judged(struct apply_case *made, const struct answer *judged);

/* Whether the answer is document 01's for this much work and output, as far as the case knows. */
bool apply_agrees(const struct apply_case *made, const struct answer *answer, size_t work_length, size_t out_length);

/* A pair as a case: written in any of the many legal ways, lists in several fields among them. Takes the pair over. */
void finish_pair(struct apply_case *made, struct chart_pair *pair, struct random *random);

/* ---- large files: pairs that put much of one kind of work into their bytes, and results at a limit of the held form, on both sides. The first is an ordinary
   cell with an update of 500 records. */

size_t large_applies(void);
const char *large_apply_name(size_t index);
struct apply_case large_apply_make(size_t index);

/* How many of them are such as work is put into; they come first. */
size_t heavy_applies(void);

/* One of them by itself. */
struct apply_case heavy_apply_make(size_t index);
struct apply_case limit_apply_make(size_t index);
const char *heavy_apply_name(size_t index);
const char *limit_apply_name(size_t index);
size_t limit_applies(void);

/* ---- the rows of document 01's bench sheet, each as one pair or more */

size_t sheet_rows(void);
struct apply_case sheet_row_make(size_t index);

/* ---- a base and ten updates, one after the other */

enum { SERIES = 10 };

struct series {
    struct apply_case step[SERIES]; /* a step's cell is what the step before must have written; of the first one it is the base's held form */
    struct buffer base;
    size_t base_records;
};

struct series series_make(uint64_t seed);
void series_free(struct series *series);

#endif
