/* A library that is loaded before the C library. It makes calls of functions for input and output fail, or transfer one
   byte. Environment variables decide:
   - FAIL names a function. Of its calls, the one whose number, from 1, is in FAIL_AT fails. The error is EIO, or EINTR
     if FAIL_INTERRUPTED is set. If FAIL_KILLS is set, the program is killed instead.
   - If FAIL_ON is set, all later calls of this function on the same file descriptor fail, too. Calls of open and rename
     count as calls on one descriptor.
   - If a call fails, the library creates a file with the name in FAILED.
   - If SHORT_READ is set, each read transfers at most one byte. If SHORT_WRITE is set, each write does.
   - END_AT is the number of a read, from 1. From this read on, all reads report the end of the file, as if the file
     had been cut after it was opened.
   Files below /proc/self, from which the program reads the limits of its process, don't count: their calls never fail.
   The program calls no other functions for input and output than those below, close, lseek, isatty, unlink and fchmod:
   failing_devices.py checks this. */
#define _GNU_SOURCE
#include <dlfcn.h>
#include <errno.h>
#include <fcntl.h>
#include <signal.h>
#include <stdarg.h>
#include <stdlib.h>
#include <string.h>
#include <sys/stat.h>
#include <unistd.h>

/* Defines `next`: the function of the C library that has the name of the function here. */
#define NEXT(type, ...) \
    static type (*next)(__VA_ARGS__); \
    if (!next) \
        next = dlsym(RTLD_NEXT, __func__)

/* Whether this call of a function fails. If so, creates the file FAILED and sets errno. `file` is the descriptor that
 * the call is for, or -1. */
static int fails(const char *function, int file)
{
    static long left = -1;
    static int has_failed, failed;
    const char *chosen = getenv("FAIL"), *number = getenv("FAIL_AT"), *sign = getenv("FAILED");

    if (!chosen || !number || strcmp(chosen, function))
        return 0;
    if (left < 0)
        left = atol(number);
    if (left != 0 && --left == 0) {
        has_failed = 1;
        failed = file;
    } else if (!has_failed || !getenv("FAIL_ON") || file != failed) {
        return 0;
    }
    if (sign)
        close(creat(sign, 0600));
    if (getenv("FAIL_KILLS"))
        raise(SIGKILL);
    errno = getenv("FAIL_INTERRUPTED") ? EINTR : EIO;
    return 1;
}

/* How many of `size` bytes a call transfers at most: one if this environment variable is set. */
static size_t most(const char *variable, size_t size)
{
    return size && getenv(variable) ? 1 : size;
}

/* The descriptor of the file below /proc/self that was opened last, or -1. The program closes it before it opens
 * another file. */
static int own = -1;

ssize_t read(int file, void *bytes, size_t size)
{
    static long reads;
    const char *end = getenv("END_AT");

    NEXT(ssize_t, int, void *, size_t);
    if (file == own)
        return next(file, bytes, size);
    if (end && ++reads >= atol(end))
        return 0;
    return fails(__func__, file) ? -1 : next(file, bytes, most("SHORT_READ", size));
}

ssize_t write(int file, const void *bytes, size_t size)
{
    NEXT(ssize_t, int, const void *, size_t);
    return fails(__func__, file) ? -1 : next(file, bytes, most("SHORT_WRITE", size));
}

int open(const char *path, int flags, ...)
{
    va_list rest;
    mode_t mode;

    NEXT(int, const char *, int, ...);
    va_start(rest, flags);
    mode = flags & O_CREAT ? va_arg(rest, mode_t) : 0;
    va_end(rest);
    own = -1;
    if (!strncmp(path, "/proc/self/", 11))
        return own = next(path, flags, mode);
    return fails(__func__, -1) ? -1 : next(path, flags, mode);
}

int statx(int folder, const char *restrict path, int flags, unsigned mask, struct statx *restrict answer)
{
    NEXT(int, int, const char *, int, unsigned, struct statx *);
    return fails(__func__, folder) ? -1 : next(folder, path, flags, mask, answer);
}

int ftruncate(int file, off_t length)
{
    NEXT(int, int, off_t);
    return fails(__func__, file) ? -1 : next(file, length);
}

int rename(const char *from, const char *to)
{
    NEXT(int, const char *, const char *);
    return fails(__func__, -1) ? -1 : next(from, to);
}
