/* One call as a string of bytes, which is what the fuzzer changes and keeps: which call, the lengths of the areas lent, and one file or two. Every string is
   some call: what is missing at its end is 0.

   0         the call, modulo 4: Judge, Admit, Apply, Show
   1, 2      the lengths of the work area and of the output, by what suffices (length_lent)
   3         the length of the answer area: 0 is 16 bytes, all others that many, modulo 33
   4, 8      for Show: class and id of the name asked for
   12        how many bytes of the string are the cell's; all behind them are the update's
   16        how many stretches there are, at most 4
   17        the stretches, 16 bytes each; then the cell, then the update

   Numbers are of 4 bytes, low byte first, but for those of one byte at 0 to 3 and 16. */
#ifndef BENCH_FUZZ_INPUT_H
#define BENCH_FUZZ_INPUT_H

#include "../shared/buffer.h"

enum call { JUDGE, ADMIT, APPLY, SHOW, CALLS };
enum file { CELL, UPDATE, FILES };

/* Large files in few bytes: `length` bytes of a file from `at` on come `times` more, right behind themselves, and in each copy the number of 4 bytes at
   `rising` of them, where they have it, is one more than in the copy before. The highest bit of `at` says that the file is the update. Stretches are worked
   in one after the other. One that doesn't lie in its file is left out, and no file grows to over LONGEST_STRETCHED bytes. */
struct stretch {
    uint32_t at, length, times, rising;
};

#define STRETCHES_UPDATE UINT32_C(0x80000000)

enum { MOST_STRETCHES = 4, LONGEST_STRETCHED = 5242880 + 64, NOT_RISING = 0x7FFFFFFF };

struct input {
    uint8_t call, work, out, answer;
    uint32_t class, id;
    size_t stretches;
    struct stretch stretch[MOST_STRETCHES];
    struct buffer file[FILES]; /* as they stand in the string */
};

const char *call_name(enum call call);

enum call call_of(const struct input *input);
bool has_update(const struct input *input); /* whether the call takes one: Judge and Admit don't */

struct input input_read(const uint8_t *bytes, size_t length);
void input_write(const struct input *input, struct buffer *bytes);
void input_free(struct input *input);

/* How many bytes the files have with the stretches worked in, and a file so. */
size_t stretched_length(const struct input *input);
struct buffer stretched(const struct input *input, enum file file);

/* An area's length by its byte: 0 just what suffices, 1 none, 2 one byte too few, 3 one more, up to 127 a part of it, from 128 on more. */
size_t length_lent(uint8_t byte, size_t needed);
size_t answer_lent(uint8_t byte);

#endif
