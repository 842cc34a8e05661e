/* Files to try a framing reader on, made from a seed: good ones in every legal way, each rule of "Framing" broken in several ways, good
   ones damaged at random, and hostile ones of about 5 MB. Where the maker knows the right verdict it says so, so that two readers that err
   alike are found out too. */
#ifndef BENCH_GENERATE_H
#define BENCH_GENERATE_H

#include "../shared/answers.h"
#include "../shared/buffer.h"
#include "../shared/random.h"

/* ---- drafts: a good file and where its records lie */

struct record_plan {
    size_t start;  /* in the file */
    size_t length; /* of the whole record */
    size_t base;   /* from the record's start */
    unsigned length_digits, position_digits;
    size_t entries;
};

struct draft {
    struct buffer file;
    struct record_plan *records;
    size_t count, room;
};

/* What a draft may look like. */
struct style {
    uint32_t records;
    uint32_t least_fields, most_fields;
    uint32_t longest_field;
    unsigned least_digits; /* of both sizes, even where fewer would do */
    bool plain;            /* tags of four letters and blanks in the free bytes of leaders; else any bytes may stand there */
};

void draft_write(struct draft *draft, const struct style *style, struct random *random);
void draft_free(struct draft *draft);

/* Appends one good record whose `fields` fields have the lengths given (closing 1E counted). */
void draft_record(struct draft *draft, const struct style *style, const uint32_t *lengths, size_t fields, struct random *random);

/* Changes, removes or inserts bytes, one to three times, as a bad disc or a careless editor would. */
void draft_damage(struct draft *draft, struct random *random);

void put_digits(uint8_t *at, unsigned count, size_t number);

/* ---- "Framing": cases */

struct frame_case {
    const char *kind; /* what is broken, or that nothing is */
    struct buffer file;
    bool known; /* whether `verdict` is what a right reader must say; of random damage nobody knows it beforehand */
    struct framing verdict;
};

size_t frame_kinds(void);
const char *frame_kind(size_t index);

/* The case of this seed; its kind follows from the seed, so that a run of seeds has every kind in number. */
struct frame_case frame_case_make(uint64_t seed);

/* Breaks one rule of "Framing" in a draft and returns the record that is now the first bad one. */
size_t break_rules(void);
const char *break_name(size_t rule);
struct style break_style(size_t rule, struct random *random);
size_t break_apply(size_t rule, struct draft *draft, struct random *random);

/* ---- large files */

size_t large_files(void);
const char *large_name(size_t index);

/* The file of this index, some 5 MB and good; file 0 is the ordinary one. */
struct frame_case large_make(size_t index);

/* ---- format lists and descriptive fields */

enum { MOST_LEVELS = 4 }; /* of brackets, one within the other */

struct formats_case {
    const char *kind;
    struct buffer text;
    bool known, accepted;
    struct formats written; /* where known and accepted */
};

size_t formats_kinds(void);
const char *formats_kind(size_t index);
struct formats_case formats_case_make(uint64_t seed);

struct cut_case {
    const char *kind;
    struct buffer field;
    bool accepted;
    struct cut cut;
};

size_t cut_kinds(void);
const char *cut_kind(size_t index);
struct cut_case cut_case_make(uint64_t seed);

#endif
