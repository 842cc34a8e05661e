/* A folder that keeps one chart: a cell's re-issue, under one name. It is never written over. The new bytes are written under another name, flushed to the
   disk, and renamed; then the folder is flushed. So a run that is cut off at any moment, by a signal or by a power cut, leaves under the
   chart's name the old bytes or the new ones, whole, and nothing else. Wants POSIX, and flock. */
#ifndef HOST_KEEP_H
#define HOST_KEEP_H

#include <stddef.h>
#include <stdint.h>

#define KEEP_NAME "cell.000"  /* the chart. A re-issue names itself .000 whatever updates it holds, so the name doesn't change with them */
#define KEEP_PART "cell.part" /* what is being written, or what a run that was cut off has left: no chart, and never read */

/* Opens a folder, which must be there, and removes what a run that was cut off has left in it. It is locked until the program ends, however it
   ends: two runs at once would write under the same other name, and one would rename what the other has only begun. A descriptor; -1 where it
   failed, and errno says why, EWOULDBLOCK that another run has it. */
int keep_open(const char *path);

/* The same for a run that only reads: it neither locks the folder nor removes anything, so it works beside a run that writes, and on a disk that can't
   be written to. Not for keep_replace. */
int keep_look(const char *path);

/* The chart's bytes, as many as fit into `room`: the old ones or the new ones, whole, also while another run replaces them. False where they can't be
   read, and errno says why, ENOENT that the folder has no chart. */
int keep_read(int folder, uint8_t *bytes, size_t room, size_t *length);

/* What stands under the chart's name now. But for KEEP_NEW errno says what went wrong. */
enum keep_end {
    KEEP_NEW,   /* the new bytes, and the disk has them */
    KEEP_OLD,   /* what stood there before, also if that was nothing */
    KEEP_UNSURE /* the new bytes; but the folder couldn't be flushed, and a power cut may bring the old ones back */
};

enum keep_end keep_replace(int folder, const uint8_t *bytes, size_t length);

#endif
