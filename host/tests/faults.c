/* For the tests: linked into a copy of unit, unit_faults, it stands between keep.c and the system (the linker's --wrap) and counts the steps in which a
   chart is read and replaced. What $FAULT says happens at one of them:
     list    nothing; all steps are named on standard error
     kill N  just before step N, from 1, the program ends as by a power cut
     fail N  step N fails, and isn't done
   Each read reads a little only, and each write writes a little only, and every other one is interrupted before it has done anything. */
#define _POSIX_C_SOURCE 200809L
#include <errno.h>
#include <fcntl.h>
#include <signal.h>
#include <stdio.h>
#include <stdlib.h>
#include <string.h>
#include <unistd.h>

enum { SHORT = 3000 };

int __real_openat(int folder, const char *name, int flags, mode_t mode);
ssize_t __real_read(int file, void *bytes, size_t length);
ssize_t __real_write(int file, const void *bytes, size_t length);
int __real_fsync(int file);
int __real_close(int file);
int __real_renameat(int folder, const char *from, int to_folder, const char *to);
int __real_unlinkat(int folder, const char *name, int flags);

/* One step more. True where it has to fail; errno is then set. */
static int fails(const char *name, int error)
{
    static long steps;
    const char *fault = getenv("FAULT");
    steps++;
    if (fault == NULL)
        return 0;
    if (strcmp(fault, "list") == 0)
        fprintf(stderr, "%s\n", name);
    if (strncmp(fault, "kill ", 5) == 0 && strtol(fault + 5, NULL, 10) == steps)
        raise(SIGKILL);
    errno = error;
    return strncmp(fault, "fail ", 5) == 0 && strtol(fault + 5, NULL, 10) == steps;
}

int __wrap_openat(int folder, const char *name, int flags, mode_t mode)
{
    return fails("openat", EACCES) ? -1 : __real_openat(folder, name, flags, mode);
}

ssize_t __wrap_read(int file, void *bytes, size_t length)
{
    static int interrupted;
    if (fails("read", EIO))
        return -1;
    interrupted = !interrupted;
    errno = EINTR;
    return interrupted ? -1 : __real_read(file, bytes, length < SHORT ? length : SHORT);
}

ssize_t __wrap_write(int file, const void *bytes, size_t length)
{
    static int interrupted;
    if (fails("write", ENOSPC))
        return -1;
    interrupted = !interrupted;
    errno = EINTR;
    return interrupted ? -1 : __real_write(file, bytes, length < SHORT ? length : SHORT);
}

int __wrap_fsync(int file)
{
    return fails("fsync", EIO) ? -1 : __real_fsync(file);
}

/* A file whose closing fails is closed all the same. */
int __wrap_close(int file)
{
    int failing = fails("close", EIO);
    int done = __real_close(file);
    errno = failing ? EIO : errno;
    return failing ? -1 : done;
}

int __wrap_renameat(int folder, const char *from, int to_folder, const char *to)
{
    return fails("renameat", EIO) ? -1 : __real_renameat(folder, from, to_folder, to);
}

int __wrap_unlinkat(int folder, const char *name, int flags)
{
    return fails("unlinkat", EIO) ? -1 : __real_unlinkat(folder, name, flags);
}
