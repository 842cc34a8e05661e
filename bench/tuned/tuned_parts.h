/* What the parts of the tuned reader share. */
#ifndef BENCH_TUNED_PARTS_H
#define BENCH_TUNED_PARTS_H

#include "../shared/answers.h"

#include <string.h>

/* What the walks are made of, and what they seldom come to: left to itself the compiler keeps their numbers in memory. */
#if defined(__GNUC__)
#define ALWAYS static inline __attribute__((always_inline))
#define SELDOM __attribute__((noinline, cold))
#else
#define ALWAYS static inline
#define SELDOM
#endif

enum { UNIT_END = 0x1F, FIELD_END = 0x1E, REMOVED = 0x7F, LEADER = 24, TAG_SIZE = 4 };

/* No file has more: a framed record has 32 bytes at least, a vector 49, a feature 74, an FFPT 10. */
enum {
    LONGEST_FILE = 5242880,
    MOST_RECORDS = LONGEST_FILE / 32 + 2,
    MOST_ITEMS = LONGEST_FILE / 49 + 1,
    MOST_FEATURES = LONGEST_FILE / 74 + 1,
    MOST_RELATIONS = LONGEST_FILE / 10 + 1,
};

/* ---- numbers */

static inline uint32_t two(const uint8_t *at)
{
    uint16_t number;
    memcpy(&number, at, sizeof number);
    return number;
}

static inline uint32_t four(const uint8_t *at)
{
    uint32_t number;
    memcpy(&number, at, sizeof number);
    return number;
}

static inline uint64_t eight(const uint8_t *at)
{
    uint64_t number;
    memcpy(&number, at, sizeof number);
    return number;
}

/* ---- tags, as `four` reads them, and what document 01 says of each */

#define TAG(a, b, c, d) ((uint32_t)(a) | (uint32_t)(b) << 8 | (uint32_t)(c) << 16 | (uint32_t)(d) << 24)

#define TAG_0000 TAG('0', '0', '0', '0')
#define TAG_0001 TAG('0', '0', '0', '1')
#define TAG_DSID TAG('D', 'S', 'I', 'D')
#define TAG_DSSI TAG('D', 'S', 'S', 'I')
#define TAG_DSPM TAG('D', 'S', 'P', 'M')
#define TAG_VRID TAG('V', 'R', 'I', 'D')
#define TAG_ATTV TAG('A', 'T', 'T', 'V')
#define TAG_VRPC TAG('V', 'R', 'P', 'C')
#define TAG_VRPT TAG('V', 'R', 'P', 'T')
#define TAG_SGCC TAG('S', 'G', 'C', 'C')
#define TAG_SG2D TAG('S', 'G', '2', 'D')
#define TAG_SG3D TAG('S', 'G', '3', 'D')
#define TAG_FRID TAG('F', 'R', 'I', 'D')
#define TAG_FOID TAG('F', 'O', 'I', 'D')
#define TAG_ATTF TAG('A', 'T', 'T', 'F')
#define TAG_NATF TAG('N', 'A', 'T', 'F')
#define TAG_FFPC TAG('F', 'F', 'P', 'C')
#define TAG_FFPT TAG('F', 'F', 'P', 'T')
#define TAG_FSPC TAG('F', 'S', 'P', 'C')
#define TAG_FSPT TAG('F', 'S', 'P', 'T')

/* In the order in which they stand in a record. */
enum kind {
    KIND_0001, KIND_DSID, KIND_DSSI, KIND_DSPM, KIND_VRID, KIND_ATTV, KIND_VRPC, KIND_VRPT, KIND_SGCC, KIND_SG2D, KIND_SG3D,
    KIND_FRID, KIND_FOID, KIND_ATTF, KIND_NATF, KIND_FFPC, KIND_FFPT, KIND_FSPC, KIND_FSPT, KINDS
};

struct description {
    uint32_t tag;
    const char *labels, *formats;
    const char *controls, *name; /* in record 0 of the held form; null where that doesn't declare the tag */
};

extern const struct description descriptions[KINDS];

/* The row of a tag, or KINDS. */
enum kind kind_of(uint32_t tag);

/* Whether a format list, written out, is the row's. */
bool formats_are(enum kind kind, const uint8_t *text, size_t length);

/* ---- charts: vectors and features by class, in held order once they are sorted */

enum class { ISOLATED, CONNECTED, EDGE, FEATURE, CLASSES };

/* DSSI's counts. */
enum head { NOMR, NOCR, NOGR, NOLR, NOIN, NOCN, NOED, NOFA, HEADS };

/* A vector's record is marked where its shape is bad. */
static const uint32_t UNSHAPED = UINT32_C(1) << 31;

/* Where to look for an id that isn't where a guess says: of those with the same high bits, the first. */
struct guide {
    uint32_t *first;
    unsigned shift;
    bool made;
};

struct names {
    uint32_t *ids, *records; /* the records are places; see below */
    size_t count;
    bool rising; /* the ids rise: nothing to sort, and no name met twice */
    struct guide guide;
};

struct ends {
    uint32_t begin, end;
};

struct feature {
    uint64_t object;        /* FOID */
    const uint8_t *spatial; /* its FSPT, joined */
    uint32_t spatial_length;
    uint32_t relation, relations; /* its LNAMs: the first of them, and how many */
    uint8_t primitive;
    bool collection;
};

struct chart {
    struct names names[CLASSES];
    struct ends *ends; /* of each edge */
    uint32_t counted[HEADS];
};

/* Where a record stands, in a file or among those that an update has changed. */
struct place {
    const uint8_t *start;
    uint32_t length, body; /* in bytes; `body` is where the fields begin, from the start on */
    uint32_t held;         /* its length in the held form; DIRECT where it stands there as here, but for the leader's spaces and its number; EDITING
                              where it is an update's and has a control, or a value that removes */
    uint32_t feature;      /* which of the features it is, if it is one */
};

static const uint32_t DIRECT = UINT32_C(1) << 31, EDITING = UINT32_C(1) << 30, LENGTH_HELD = (UINT32_C(1) << 30) - 1;

/* The memory of a call: places of the cell, then of the update, then of what it changed. */
extern struct place places[2 * MOST_RECORDS + MOST_ITEMS];
extern struct feature features[3 * MOST_FEATURES];
extern uint64_t relations[4 * MOST_RELATIONS];
extern size_t feature_count, relation_count;

/* Lists that stand in several fields are joined here: all of both files, when they are read and when an update is worked in. */
extern uint8_t joined[4 * LONGEST_FILE];
extern size_t joined_length;

/* ---- one file */

struct file {
    const uint8_t *bytes;
    size_t length;
    bool update;
    uint32_t first; /* the place of its record 0 */
    size_t records; /* well framed ones, up to the first that isn't */
    enum code code; /* the first of 1, 2, 4, 5, 6 that it gets, and the record */
    size_t fault;

    uint32_t declared; /* a bit a kind */
    bool high_attributes, high_national;
    uint32_t north; /* 90 times COMF */
    uint32_t said[HEADS];
    const uint8_t *dsid, *dssi;
    size_t dsid_length;
    struct chart chart;
};

/* ---- framing, one record at a time and any record */

struct framed {
    const uint8_t *start, *rows, *body, *end;
    size_t count; /* of fields */
    unsigned lengths, positions;
};

struct field {
    uint32_t tag, length; /* the closing 1E counted */
    const uint8_t *start;
};

bool frame_record(const uint8_t *at, const uint8_t *end, bool first, struct framed *framed);
struct field framed_field(const struct framed *framed, size_t index);

/* Frames the records from `at` on, the first of which is number `record`: true where all are good, and `count` is their number then, else the first bad. */
bool frame_rest(const struct file *file, const uint8_t *at, size_t record, size_t *count);

/* ---- reading */

/* Records 0 to 2 of a cell, 0 and 1 of an update, all framed: the code of the first that is bad, or CODE_DONE. */
bool described(struct file *file, const struct framed *framed);
enum code identification_fault(struct file *file, const struct framed *framed);
enum code parameters_fault(struct file *file, const struct framed *framed);

/* Walks the vectors and features from `at` on, record `record`, and stops at the first that isn't good: framed, laid out and of good values. Returns where,
   and sets `record` to its number. The lengths in the held form are found where they are wanted. */
const uint8_t *walk_items(struct file *file, const uint8_t *at, size_t *record, bool held_lengths);

/* Whether a framed vector or feature that isn't good breaks a rule of layout; else it breaks one of values. */
bool layout_broken(const struct file *file, const struct framed *framed);

/* Codes 1, 2, 4 to 6 of a file. The limit of its coordinates is set before, if it is an update. */
void read_file(struct file *file, bool held_lengths);

/* ---- names */

/* Sorts a chart's names. Returns the place of the first record whose name was met before, or SIZE_MAX. */
size_t sort_chart(struct chart *chart);

/* Where an id stands that isn't where a guess says, or SIZE_MAX. */
size_t search_name(struct names *names, uint32_t id);

static inline size_t find_name(struct names *names, uint32_t id)
{
    size_t guess = (size_t)(id - names->ids[0]);
    if (guess < names->count && names->ids[guess] == id)
        return guess;
    return search_name(names, id);
}

/* ---- topology (17 to 19): the code of the first item in held order that is bad, and its place */
enum code topology_fault(struct chart *chart, size_t *place);

/* ---- updates */

/* Codes 9 to 12. */
enum code follow_fault(const struct file *cell, const struct file *update);

/* Codes 13 to 16 of the update's records, one after the other: the first that isn't 0, and the record. Where all are, the result is there: its names in held
   order, its counts. */
enum code work_in(struct file *cell, struct file *update, struct chart *result, size_t *record);

/* What a modify makes of a held record, its place, and the shape that it has then. */
struct edited {
    uint32_t place; /* with UNSHAPED */
    struct ends ends;
};

/* False where a rule of edits is broken (16). `known` is what the held one has been. */
bool revise_record(const struct place *held, const struct place *said, enum class class, uint32_t north, struct edited *known);
void edits_open(const struct file *update);

/* ---- the held form */

/* Codes 20 and 21, or the held form is written. `update` is null for a cell alone. */
struct answer write_held(const struct file *cell, const struct file *update, const struct chart *chart, uint8_t *out, size_t out_length);

/* The length in the held form of a record with these fields, joined: how many, the longest, the last one's position, all together. */
uint32_t held_length(uint32_t fields, uint32_t longest, uint32_t last, uint32_t area);

struct outline {
    uint32_t fields, longest, area;
    uint32_t tag[16], length[16];
};

static inline void outline_add(struct outline *outline, uint32_t tag, uint32_t length)
{
    outline->tag[outline->fields] = tag;
    outline->length[outline->fields++] = length;
    outline->longest = length > outline->longest ? length : outline->longest;
    outline->area += length;
}

uint32_t outline_length(const struct outline *outline);

/* Writes leader and directory; returns where the fields go. */
uint8_t *put_outline(const struct outline *outline, uint8_t *to);

#endif
