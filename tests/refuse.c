/* A library that is loaded before the C library. It makes one allocation of a program fail: the one whose number, from
   1, is in the environment variable REFUSE. If REFUSE_ALL is set, each allocation after that one fails, too. If
   REFUSE_AFTER_WRITE is set, each allocation after the first call of write fails. If an allocation fails, the library
   creates a file with the name in REFUSED. The program's allocator calls only malloc and realloc; the callers check
   that the program names no other function that allocates. */
#define _GNU_SOURCE
#include <dlfcn.h>
#include <fcntl.h>
#include <stddef.h>
#include <stdlib.h>
#include <sys/types.h>
#include <unistd.h>

static long left = -1;
static int wrote;

static int refused(void)
{
    if (left < 0) {
        const char *number = getenv("REFUSE");
        left = number ? atol(number) : 0;
    }
    if (!wrote) {
        if (left <= 0 || --left > 0)
            return 0;
        left = getenv("REFUSE_ALL") ? 1 : 0;
    }
    const char *file = getenv("REFUSED");
    if (file)
        close(creat(file, 0600));
    return 1;
}

void *malloc(size_t size)
{
    static void *(*next)(size_t);
    if (!next)
        next = dlsym(RTLD_NEXT, "malloc");
    return refused() ? NULL : next(size);
}

void *realloc(void *old, size_t size)
{
    static void *(*next)(void *, size_t);
    if (!next)
        next = dlsym(RTLD_NEXT, "realloc");
    return refused() ? NULL : next(old, size);
}

ssize_t write(int file, const void *bytes, size_t size)
{
    static ssize_t (*next)(int, const void *, size_t);
    if (!next)
        next = dlsym(RTLD_NEXT, "write");
    ssize_t count = next(file, bytes, size);
    wrote = wrote || getenv("REFUSE_AFTER_WRITE");
    return count;
}
