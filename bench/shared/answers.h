/* What document 01 says of files, as types. The reader answers with them, and the generators say with them what the right answer is: neither knows the
   other. */
#ifndef BENCH_ANSWERS_H
#define BENCH_ANSWERS_H

#include <stdbool.h>
#include <stddef.h>
#include <stdint.h>

/* ---- "Framing (ISO/IEC 8211)" */

/* Where `good`, the file is `records` good records and nothing after; else `records` good ones stand before the first bad one, whose
   index it therefore is. */
struct framing {
    bool good;
    size_t records;
};

/* ---- the descriptive fields of record 0 */

enum { MOST_PRIMITIVES = 32 };

/* A format list written out: each primitive is its letter's byte + 256 * its size number (0 without one). */
struct formats {
    uint32_t count;
    uint32_t primitive[MOST_PRIMITIVES];
};

/* Where the two 1F of a descriptive field stand. */
struct cut {
    size_t name_end, labels_end;
};

/* ---- whole files */

/* The codes of document 01. */
enum code {
    CODE_DONE = 0,
    CODE_LONG = 1,
    CODE_FRAME = 2,
    CODE_WORK = 3,
    CODE_DESCRIBED = 4,
    CODE_LAYOUT = 5,
    CODE_VALUE = 6,
    CODE_TWICE = 7,
    CODE_COUNTS = 8,
    CODE_OTHER = 9,
    CODE_EDITION = 10,
    CODE_NUMBER = 11,
    CODE_LEVEL = 12,
    CODE_TARGET = 13,
    CODE_VERSION = 14,
    CODE_IDENTITY = 15,
    CODE_EDIT = 16,
    CODE_SHAPE = 17,
    CODE_POINTER = 18,
    CODE_RING = 19,
    CODE_SIZE = 20,
    CODE_ROOM = 21,
    CODE_ABSENT = 22,
};

/* File: 0 none, 1 cell, 2 update, 3 result. The number is the bytes of work area needed for 3, of output for 21, the bytes written or shown for 0, else
   0. The offset is that of request (ii): where in its file the refusal's first wrong byte stands. */
struct answer {
    uint32_t code, file, record, number, offset;
};

#endif
