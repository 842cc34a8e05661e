/* What Show is asked: files of reading and of Apply, and names of records in them. Codes 0 to 8 and 22. */
#ifndef BENCH_ASK_SHOW_H
#define BENCH_ASK_SHOW_H

#include "../generators/generate_apply.h"

/* Which kind of name is asked for. */
enum asked {
    OF_THE_UPDATE,  /* a record of the update has it */
    OF_THE_CELL,    /* a record of the cell has it */
    OF_BOTH_FILES,  /* both have one; where none is, one of the cell's */
    NO_SUCH_ID,     /* a class that is there, with an id beside one that is */
    OTHER_CLASS,    /* an id that is there, with another of the four classes */
    HEADER_CLASS,   /* class 10 or 20, with the id of the record that has it */
    WILD_CLASS,     /* any other number as the class, often one that differs from a good one in its high bits, with an id that is there */
    EDGE_ID,        /* id 0 or 4,294,967,295 */
    ASKED
};

size_t asked_kinds(void); /* ASKED */
const char *asked_kind(size_t asked);

struct show_case {
    const char *kind;
    struct buffer cell, update; /* an update of length 0 is none */
    size_t records;             /* of the files given, as they were before damage to their framing */
    bool known;                 /* whether `verdict` is what a right reader must say of the files, given work enough */
    struct answer verdict;
};

/* A name, and the record that has it as the maker knows: `length` bytes from `start` on of the update or the cell; 0 bytes where neither has it. */
struct name {
    uint32_t class, id;
    bool update;
    size_t start, length;
};

struct show_case show_case_make(uint64_t seed);
struct show_case large_show_make(size_t index); /* as many as large_applies() */
void show_case_free(struct show_case *made);

/* A name of that kind for these files; of files that aren't well framed any name. */
struct name ask_name(const struct show_case *made, enum asked asked, struct random *random);

#endif
