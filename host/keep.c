#define _POSIX_C_SOURCE 200809L
#include "keep.h"

#include <errno.h>
#include <fcntl.h>
#include <stdio.h>
#include <sys/file.h>
#include <unistd.h>

int keep_look(const char *path)
{
    return open(path, O_RDONLY | O_DIRECTORY | O_CLOEXEC);
}

int keep_open(const char *path)
{
    int folder = keep_look(path);
    if (folder < 0)
        return -1;
    if (flock(folder, LOCK_EX | LOCK_NB) != 0) {
        int why = errno;
        close(folder);
        errno = why;
        return -1;
    }
    /* Mostly there is none. One that can't be removed is met again by keep_replace, which then fails. */
    unlinkat(folder, KEEP_PART, 0);
    return folder;
}

/* A read may be cut short or interrupted too; the end of the file is a read of nothing. */
int keep_read(int folder, uint8_t *bytes, size_t room, size_t *length)
{
    int file = openat(folder, KEEP_NAME, O_RDONLY | O_CLOEXEC, 0);
    if (file < 0)
        return 0;
    ssize_t got = 1;
    for (*length = 0; got != 0 && *length < room; *length += (size_t)got) {
        do
            got = read(file, bytes + *length, room - *length);
        while (got < 0 && errno == EINTR);
        if (got < 0)
            break;
    }
    int why = errno;
    close(file);
    errno = why;
    return got >= 0;
}

/* A write may be cut short or interrupted with part of the bytes written; a disk that is full says so at the next one. */
static int write_all(int file, const uint8_t *bytes, size_t length)
{
    while (length > 0) {
        ssize_t written = write(file, bytes, length);
        if (written < 0 && errno == EINTR)
            continue;
        if (written == 0)
            errno = EIO; /* no disk does that, but it must not be tried for ever */
        if (written <= 0)
            return 0;
        bytes += written;
        length -= (size_t)written;
    }
    return 1;
}

static int flush(int file)
{
    int done;
    do
        done = fsync(file);
    while (done != 0 && errno == EINTR);
    return done == 0;
}

/* The new bytes under the other name, on the disk. They are flushed before anything is renamed: else a power cut could leave the chart's name with
   bytes that never came to the disk. Some file systems find out only when a file is closed that it is full. */
static int write_part(int folder, const uint8_t *bytes, size_t length)
{
    int part = openat(folder, KEEP_PART, O_WRONLY | O_CREAT | O_EXCL | O_CLOEXEC, 0666);
    if (part < 0)
        return 0;
    int good = write_all(part, bytes, length) && flush(part);
    int why = errno;
    if (close(part) != 0 && good) {
        good = 0;
        why = errno;
    }
    errno = why;
    return good;
}

enum keep_end keep_replace(int folder, const uint8_t *bytes, size_t length)
{
    if (!write_part(folder, bytes, length) || renameat(folder, KEEP_PART, folder, KEEP_NAME) != 0) {
        int why = errno;
        unlinkat(folder, KEEP_PART, 0);
        errno = why;
        return KEEP_OLD;
    }
    return flush(folder) ? KEEP_NEW : KEEP_UNSURE;
}
