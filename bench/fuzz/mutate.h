/* Changes of an input that keep its framing: bytes changed anywhere mostly end in code 2, and say nothing of what comes behind it. A file is taken apart into
   records and fields, some are changed, and it is written again with leaders and directories that fit; mostly the counts in DSSI are put right too, and the
   update's header and versions made to follow the cell. One time in three the files that are changed are new ones of the generators, and good. */
#ifndef BENCH_FUZZ_MUTATE_H
#define BENCH_FUZZ_MUTATE_H

#include "../shared/random.h"
#include "input.h"

/* Changes bytes in place, of which there may become `most`, and returns how many there are then: the fuzzer's own way, which knows what was compared with what. */
typedef size_t byte_changer(uint8_t *bytes, size_t length, size_t most);

/* False where the input is left to the fuzzer's own way: its files aren't framed, or chance wants it. */
bool change_input(struct input *input, byte_changer *change, struct random *random);

/* Takes a file or a record of the other. */
void cross_input(struct input *input, const struct input *other, struct random *random);

#endif
