/* Cases for reading a cell, alone or with an update: codes 0 to 8. */
#ifndef BENCH_GENERATE_READ_H
#define BENCH_GENERATE_READ_H

#include "generate_chart.h"

struct read_case {
    const char *kind;
    struct buffer cell, update;
    bool both;             /* whether the update is offered too */
    size_t records;        /* of the files offered, as they were before damage to their framing */
    size_t cell_records;   /* of the cell alone */
    bool known;            /* whether `verdict` is what a right reader must say, given work enough */
    struct answer verdict;
};

size_t read_kinds(void);
const char *read_kind(size_t index);

/* The case of this seed; its kind follows from the seed, so that a run of seeds has every kind in number. */
struct read_case read_case_make(uint64_t seed);
void read_case_free(struct read_case *made);

/* ---- large files */

size_t large_cells(void);
const char *large_cell_name(size_t index);
struct read_case large_cell_make(size_t index);

/* ---- what they have in common */

/* Legal ways that don't change what is said: lists in several fields, another record 0. */
void vary(struct chart *chart, struct random *random);

/* The header of a cell, without vectors and features. */
struct chart bare_cell(struct random *random);

/* What a cell of some 5 MB and 28,000 records usually looks like; its topology is right. */
struct chart make_ordinary(struct random *random);

/* A record with its identifier fields alone, behind the others. */
struct chart_record *put_vector(struct chart *chart, uint8_t class, uint32_t id);
struct chart_record *put_feature(struct chart *chart, uint32_t id, uint8_t primitive, uint16_t object, uint64_t foid);

/* Describes the chart, unless that was done, and counts it; then writes it. Where a length is given, 0000 gets the bytes that are missing, since no
   reader looks at them. */
void write_large(struct chart *chart, size_t padded, struct draft *draft, struct random *random);

/* Writes a chart in one legal way or, where `plain`, as files usually are; `records` gets the count. */
struct buffer write_file(const struct chart *chart, bool plain, struct random *random, size_t *records);

/* ---- random damage, framing kept: one change to a record's fields, or to the bytes of a field */
void damage_fields(struct chart *chart, struct random *random);
void damage_contents(struct chart *chart, struct random *random);

#endif
