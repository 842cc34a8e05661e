/* What the example hosts share: reading a file, and the sentences for the mate. */
#ifndef HOST_COMMON_H
#define HOST_COMMON_H

#include "s57loader.h"

/* How a host ends: done, refused by the loader, or a file or folder couldn't be read or written (a wrong call is one of these too). */
enum { HOST_DONE = 0, HOST_REFUSED = 1, HOST_FAILED = 2 };

/* The file's bytes, as many as fit into `room`. False where it can't be read. */
int read_file(const char *path, uint8_t *bytes, size_t room, size_t *length);

/* Prints what the answer means for the file and what to do, and for the supplier the code and where it was met. `done` is the sentence for S57_DONE,
   which is another one for each call. */
void say(const char *path, const char *done, struct s57_answer answer);

/* The end of such a line alone, behind a sentence of the host's own: the code and where it was met. */
void say_where(struct s57_answer answer);

#endif
