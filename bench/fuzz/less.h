/* Less of an input: what isn't needed for going where it goes. */
#ifndef BENCH_FUZZ_LESS_H
#define BENCH_FUZZ_LESS_H

#include "input.h"

/* Takes one part out of a file: a record, a field, an entry of a list, the name in a field of record 0, whatever the parts of that number are when all are
   counted in a row. Counts are put right. False behind the last, and where the file isn't framed. */
bool drop_part(struct input *input, enum file file, size_t part);

#endif
