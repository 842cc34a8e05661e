/* What the archive of the crate `probe` exports. Only host tests and benchmarks link it. */
#ifndef BENCH_PROBE_H
#define BENCH_PROBE_H

#include <stddef.h>
#include <stdint.h>

/* 2 * n where the file is n good records; 2 * k + 1 where record k (from 0) is the first bad one, also for length 0 (k is 0). */
uint64_t probe_frame(const uint8_t *file, size_t file_len);

/* 0 where the file isn't framed. Else h, from h = 1 on: for each record h = (h * 31 + its end offset) % 4294967291; then for each of its
   fields, in directory order, the same step with the tag (four bytes as a number, first byte highest), with the field's start offset in
   the file, and with its length, the closing 1E counted. */
uint64_t probe_fields(const uint8_t *file, size_t file_len);

/* How many primitives a whole format list has when written out (1 to 32), or 0 where it is refused. Where it is accepted and out_len is
   exactly 128, out gets each primitive as 4 bytes, low byte first (letter + 256 * size number), and zeros after the last; else out
   stays untouched. */
uint32_t probe_formats(const uint8_t *text, size_t len, uint8_t *out, size_t out_len);

/* a + 2^32 * b: where the two 1F of a descriptive field stand (its closing 1E counted in len), or 0 where it has no such two. */
uint64_t probe_cut(const uint8_t *field, size_t len);

/* Reads a cell, or a cell and an update, in document 01's order: codes 1 to 8. Returns the code, and fills an answer of exactly 20 bytes with
   code, file, record, number and offset, each 4 bytes, low byte first; an answer area of another length stays untouched. The work area is
   zero after every call. An update of length 0 is badly framed. */
uint32_t probe_read_cell(const uint8_t *cell, size_t len, uint8_t *work, size_t work_len, uint8_t *answer, size_t answer_len);
uint32_t probe_read_both(const uint8_t *cell, size_t cell_len, const uint8_t *update, size_t update_len, uint8_t *work, size_t work_len,
                         uint8_t *answer, size_t answer_len);

/* Show: the whole record of that name, of the update if it has one, else of the cell; an update of length 0 is none. Returns the part's length; an output of
   at least that many bytes gets the part in front, and all else of it stays. An answer of exactly 16 bytes gets code, file, record and number; an area of
   another length stays untouched. The work area is zero after every call. */
size_t probe_show(const uint8_t *cell, size_t cell_len, const uint8_t *update, size_t update_len, uint8_t *work, size_t work_len, uint8_t *answer,
                  size_t answer_len, uint8_t *out, size_t out_len, uint32_t class, uint32_t id);

#endif
