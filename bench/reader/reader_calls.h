/* The reader as a host calls the loader: areas are lent, and a call leaves its bytes in them. So one test takes the proved code or the reader itself. The
   shapes are those of host/s57loader.h and probe.h, written down anew: nothing of the proved code is used here. */
#ifndef BENCH_READER_CALLS_H
#define BENCH_READER_CALLS_H

#include "reader.h"

enum { ANSWER = 16, READ_ANSWER = 20, WORK_A_RECORD = 16 };

/* An answer in an area of `wanted` bytes, a number in 4 bytes each, low byte first; an area of another length stays as it is. */
void put_answer(uint8_t *area, size_t length, size_t wanted, const struct answer *answer);

/* ---- framing and formats: the meaning is that of probe.h */

struct frame_calls {
    uint64_t (*frame)(const uint8_t *file, size_t length);
    uint64_t (*fields)(const uint8_t *file, size_t length);
    uint32_t (*formats)(const uint8_t *text, size_t length, uint8_t *out, size_t out_length);
    uint64_t (*cut)(const uint8_t *field, size_t length);
};

extern const struct frame_calls frame_reader;

enum { FORMATS_OUT = 4 * MOST_PRIMITIVES };

/* The numbers that stand for a verdict there. */
uint64_t framing_number(struct framing framing);
uint64_t cut_number(struct cut cut);
void put_formats(uint8_t *out, const struct formats *written); /* FORMATS_OUT bytes */

/* ---- reading and Show: that of probe.h too */

struct read_calls {
    uint32_t (*cell)(const uint8_t *cell, size_t length, uint8_t *work, size_t work_length, uint8_t *answer, size_t answer_length);
    uint32_t (*both)(const uint8_t *cell, size_t cell_length, const uint8_t *update, size_t update_length, uint8_t *work, size_t work_length,
                     uint8_t *answer, size_t answer_length);
};

extern const struct read_calls read_reader;

struct show_calls {
    size_t (*show)(const uint8_t *cell, size_t cell_length, const uint8_t *update, size_t update_length, uint8_t *work, size_t work_length,
                   uint8_t *answer, size_t answer_length, uint8_t *out, size_t out_length, uint32_t class, uint32_t id);
};

extern const struct show_calls show_reader;

size_t part_length(const struct shown *shown);                            /* 0 of a refusal */
void put_part(uint8_t *out, size_t length, const struct shown *shown); /* where there is room for all of it */

/* ---- the loader's three calls: that of host/s57loader.h */

struct loader {
    uint32_t (*judge)(const uint8_t *cell, size_t cell_length, uint8_t *work, size_t work_length, uint8_t *answer, size_t answer_length);
    uint32_t (*admit)(const uint8_t *cell, size_t cell_length, uint8_t *out, size_t out_length, uint8_t *work, size_t work_length, uint8_t *answer,
                      size_t answer_length);
    uint32_t (*apply)(const uint8_t *cell, size_t cell_length, const uint8_t *update, size_t update_length, uint8_t *out, size_t out_length,
                      uint8_t *work, size_t work_length, uint8_t *answer, size_t answer_length);
};

extern const struct loader loader_reader;

#endif
