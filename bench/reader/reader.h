/* The second reader: document 01 read anew in C, with its own code and tables, so that the proved library has something to be compared
   with and timed against. Framing and formats take no memory of their own and work on the lent bytes in one pass; the calls at the end,
   which read whole files, take memory in proportion to the records and give it back. */
#ifndef BENCH_READER_H
#define BENCH_READER_H

#include "../shared/answers.h"

/* ---- "Framing (ISO/IEC 8211)" */

/* One record. All places are offsets in the file. */
struct record {
    size_t start, end;
    size_t directory; /* its first entry */
    size_t fields;    /* the base address */
    size_t entries;
    unsigned length_digits, position_digits;
};

/* One field. The tag is its four bytes as a number, first byte highest; the length counts the closing 1E. */
struct field {
    uint32_t tag;
    size_t start, length;
};

struct framing reader_frame(const uint8_t *file, size_t length);

/* The record at `start`, and field `index` of it, of a file that reader_frame found good. */
struct record reader_record(const uint8_t *file, size_t start);
struct field reader_field(const uint8_t *file, const struct record *record, size_t index);

/* One number over every record's end and every field's tag, start and length, or 0 where the framing is bad (see probe.h). */
uint64_t reader_fields(const uint8_t *file, size_t length);

/* ---- the descriptive fields of record 0 */

/* Reads a whole format list, from its "(" to its ")" and nothing after. False where it is refused. */
bool reader_formats(const uint8_t *text, size_t length, struct formats *written);

/* The cut of a descriptive field; `length` counts its closing 1E, which isn't looked at. False where it has no two 1F. */
bool reader_cut(const uint8_t *field, size_t length, struct cut *cut);

/* ---- whole files */

/* Codes 1 to 8 for a cell. Only the length of the work area matters: the reader has memory of its own. */
struct answer reader_read(const uint8_t *cell, size_t length, size_t work_length);

/* Codes 1 to 8 for a cell, and 1, 2, 4 to 7 for an update, in document 01's order; an update of length 0 is badly framed. */
struct answer reader_read_both(const uint8_t *cell, size_t cell_length, const uint8_t *update, size_t update_length, size_t work_length);

/* Judge: codes 1 to 8 for a cell, then 17 to 19, whose record is the place in held order. */
struct answer reader_judge(const uint8_t *cell, size_t length, size_t work_length);

/* Admit: the codes of Judge, then 20 and 21. Where it gives 0, the held form stands in front of the output, whose other bytes stay; else all of them
   do. */
struct answer reader_admit(const uint8_t *cell, size_t length, size_t work_length, uint8_t *out, size_t out_length);

/* Apply: codes 1 to 8 of both files as reader_read_both gives them, 9 to 16, then 17 to 19 of the result, whose file is 3, then 20 and 21. The topology of
   the cell itself isn't judged. Where it gives 0, the held form of the result stands in the output as with Admit. */
struct answer reader_apply(const uint8_t *cell, size_t cell_length, const uint8_t *update, size_t update_length, size_t work_length, uint8_t *out,
                           size_t out_length);

/* Show: codes 1 to 8 as reader_read gives them, or with an update as reader_read_both does; an update of length 0 is none. Then 0, and the part is the whole
   record of that name, of the update if it has one, else of the cell; or 22. The answer's number is the part's length; a refusal's part is the cell's
   first 0 bytes. */
struct shown {
    struct answer answer;
    const uint8_t *part;
};

struct shown reader_show(const uint8_t *cell, size_t cell_length, const uint8_t *update, size_t update_length, size_t work_length, uint32_t class,
                         uint32_t id);

struct buffer;

/* The listing ("Bench sheet"): appends the text of a cell's vectors and features, or of its refusal, and returns the verdict. It has work enough,
   but no cell of over 65,536 bytes is listed. */
struct answer reader_listing(const uint8_t *cell, size_t length, struct buffer *listing);

#endif
