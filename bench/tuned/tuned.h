/* The tuned reader: document 01 read a third time in C, for speed alone. It is what the proved loader is to be measured against: as fast as we can make
   plain C11, with all the memory that it likes. What is right and wrong the plain reader judges (reader/), which it must agree with in every byte.

   A record of a vector or feature is walked once: framing, layout and values together. What later stages want of it is kept: names by class, the ends of
   edges, whether a vector's shape is good, where a feature's lists stand, how long the record will be in the held form. At the first record that isn't good
   slower code says what is wrong with it.

   Its memory is its own and stays from call to call, so one call at a time. Numbers are read as the machine has them: low byte first. */
#ifndef BENCH_TUNED_H
#define BENCH_TUNED_H

#include <stddef.h>
#include <stdint.h>

/* The calls of host/s57loader.h. */
uint32_t tuned_judge(const uint8_t *cell, size_t cell_length, uint8_t *work, size_t work_length, uint8_t *answer, size_t answer_length);
uint32_t tuned_admit(const uint8_t *cell, size_t cell_length, uint8_t *out, size_t out_length, uint8_t *work, size_t work_length, uint8_t *answer,
                     size_t answer_length);
uint32_t tuned_apply(const uint8_t *cell, size_t cell_length, const uint8_t *update, size_t update_length, uint8_t *out, size_t out_length, uint8_t *work,
                     size_t work_length, uint8_t *answer, size_t answer_length);

#endif
