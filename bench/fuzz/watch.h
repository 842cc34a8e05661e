/* Where the proved code goes. On x86-64, of an archive that is as it is: a breakpoint at the start of each of its blocks, which goes when it is met (watch.c). So
   each costs its time once, and then the code runs as ever. For Linux; bench/fuzz/run.sh lists the blocks' addresses, one a line in hexadecimal.
   On Arm, of a module that is compiled for it with a flag at each block (watch_flags.c; clang's -fsanitize-coverage=bb,inline-bool-flag). */
#ifndef BENCH_FUZZ_WATCH_H
#define BENCH_FUZZ_WATCH_H

#include <stdbool.h>
#include <stddef.h>
#include <stdint.h>

/* How many blocks are watched at most. */
enum { MOST_BLOCKS = 16384 };

/* Reads the list and sets the breakpoints; each that is met makes its byte of `met` 1. False where that can't be done. With flags there is no list. */
bool watch_open(const char *path, uint8_t *met);

/* How many there are, and all set again. */
size_t watched_blocks(void);
void watch_again(void);

/* Brings what was met since then to `met`, where it isn't there yet: only flags have to be brought. */
void watch_look(void);

#endif
