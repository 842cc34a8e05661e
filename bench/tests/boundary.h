/* What the boundary programs share: areas at any address, the lengths of areas that matter, and the run over all of them. */
#ifndef BENCH_BOUNDARY_H
#define BENCH_BOUNDARY_H

#include "areas.h"
#include "tally.h"

/* ---- areas: bytes of one kind in them, of another beside them, and of any alignment */

struct lent {
    uint8_t *at;
    size_t length, shift;
    uint8_t beside;
};

struct lent lend(size_t length, size_t shift, uint8_t fill, uint8_t beside);
struct lent lend_file(const struct buffer *file, size_t shift, uint8_t beside);
void give_back(const struct lent *lent);
bool beside_kept(const struct lent *lent);

/* Whether it has the file's bytes still, and what stands beside it. */
bool file_kept(const struct lent *lent, const struct buffer *file);

/* Where nothing may be read or written, an address that isn't null and has no memory shows that nothing is. */
uint8_t *pointer_to(const struct lent *lent, bool nowhere);

/* A byte to fill areas with: each number another of a few. */
uint8_t fill_of(size_t number);

/* ---- lengths */

enum work { NO_WORK, SHORT, EXACT, ONE_MORE, MANY_MORE, UNCOUNTED, WORKS };

size_t work_length(enum work work, size_t records, size_t cell_length);

enum output { OUTPUT_NONE, OUTPUT_SHORT, OUTPUT_EXACT, OUTPUT_ONE_MORE, OUTPUT_MANY_MORE, OUTPUT_LONGEST, OUTPUTS };

extern const char *const output_names[OUTPUTS];

size_t output_length(enum output output, size_t needed);

enum { ANSWERS = 4, ROUNDS = 8 };

extern const size_t answer_lengths[ANSWERS];
extern const char *const answer_names[ANSWERS];

/* Each length of the answer area comes in a round with areas that have memory, and in one with areas that may have none. */
size_t answer_of(size_t round);

/* ---- all calls: every kind of work area with every kind of one other area, eight rounds each. In a round file after file, so that no call follows one on the
   same file: what a call left behind would be seen. */

struct moment {
    enum work work;
    size_t other; /* the kind of the other area */
    size_t round, file;
};

struct boundary {
    size_t others;
    const char *const *other_names;
    size_t files;
    const void *context;
    /* One call, counted in that row; it may leave a moment out. */
    void (*run_call)(struct tally *tally, const char *row, const void *context, const struct moment *moment);
};

void run_boundary(struct tally *tally, const struct boundary *boundary);

#endif
