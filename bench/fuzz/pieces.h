/* A file of an input as a structure, whatever its records are: what is changed, and what parts are taken out of. */
#ifndef BENCH_FUZZ_PIECES_H
#define BENCH_FUZZ_PIECES_H

#include "../generators/generate_pair.h"
#include "input.h"

enum { UNIT_END = 0x1F, TAG = 4, NAME = 5, FIRST_ITEM = 2 };

/* False where the file isn't framed. */
bool take_apart(const struct buffer *file, bool update, struct chart *chart);

/* Writes the file anew, with leaders and directories that fit. Records without fields can't be written. */
void put_together(struct chart *chart, struct buffer *file, struct random *random);

/* Mostly a vector or feature; null where there is none. */
struct chart_record *any_record(struct chart *chart, struct random *random);

/* The field that names a vector or feature, or null. */
struct chart_field *identifier_of(const struct chart_record *record);

/* The item of that name, as it stands in the first bytes of an identifier, or null. */
struct chart_record *item_named(const struct chart *chart, const uint8_t *name);

/* ---- entries of lists: behind so many bytes a text ends them, or they have that size */

struct list_kind {
    const char *tag;
    size_t size;
    bool text;
};

const struct list_kind *list_kind_of(const struct chart_field *field); /* null where the field is no list */

/* Where the entry at `at` ends, at most where the content does. */
size_t entry_end(const struct list_kind *kind, const struct buffer *content, size_t at);
size_t entries_of(const struct chart_field *field);

#endif
