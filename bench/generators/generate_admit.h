/* Cases for Admit: codes 0 to 8 and 17 to 21. Of good cells the maker knows the held form, byte for byte. */
#ifndef BENCH_GENERATE_ADMIT_H
#define BENCH_GENERATE_ADMIT_H

#include "generate_judge.h"

struct admit_case {
    const char *kind;
    struct buffer cell;
    size_t records;        /* as they were before damage to the framing */
    bool known;            /* whether `verdict` is what a right Admit must say, given work and output enough */
    struct answer verdict; /* but for the number */
    struct buffer held;    /* where the verdict is 0 and the maker knows it: the held form; else empty */
};

size_t admit_kinds(void);
const char *admit_kind(size_t index);

/* Half of the seeds make the cells of Judge in their turn, the others good ones: most of Judge's are refused. */
struct admit_case admit_case_make(uint64_t seed);
void admit_case_free(struct admit_case *made);

/* A case of Judge, whose cell it takes over. Judge gives 0 for any number of records, Admit doesn't. */
struct admit_case as_admit(const struct judge_case *judged);

/* Whether the answer is document 01's for this much work and output, as far as the case knows. */
bool admit_agrees(const struct admit_case *made, const struct answer *answer, size_t work_length, size_t out_length);

/* The large cells of Judge, and cells that touch a limit of the held form, on both sides. */
size_t large_admits(void);
const char *large_admit_name(size_t index);
struct admit_case large_admit_make(size_t index);

/* ---- the held form as the generator sees it */

/* Record 0, as it must stand. */
extern const char first_of_held[];
extern const size_t first_of_held_length;

/* From a good cell's structure, in which each list is one field; what its record 0 and its fields 0001 say doesn't matter. */
struct buffer held_of_chart(const struct chart *chart);

/* The bytes of one record in it. */
size_t held_record_length(const struct chart_record *record);

/* A number for EDTN or UPDN: those at which a digit more is needed come often. */
uint32_t any_number(uint32_t least, uint32_t most, struct random *random);

/* Writes a number as such a text, with as many leading zeros as there is room for, or fewer. */
void spell(struct chart_field *field, const char *label, uint32_t number, int width, struct random *random);

/* A record 0 that is much shorter than the held form's: no tags beside those used, no tree of tags. */
void describe_briefly(struct chart *cell, struct random *random);

/* Puts `count` bytes more into the text that a field ends with. */
void lengthen_text(struct chart_field *field, size_t count);

#endif
