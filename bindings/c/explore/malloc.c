/* The C library's functions that allocate memory, for the whole process: with the heaps of heap.c. If another library
 * defines them, such as AddressSanitizer, this file isn't linked, and no states are saved.
 */
#define _GNU_SOURCE
#include "inside.h"
#include <errno.h>
#include <string.h>
#include <stdlib.h>

const bool xi_has_malloc = true;

void *malloc(size_t size)
{
    return xi_alloc(size, 0);
}

void free(void *block)
{
    int kept = errno;

    xi_free(block);
    errno = kept;
}

void *calloc(size_t count, size_t size)
{
    size_t all;
    void *made;

    if (__builtin_mul_overflow(count, size, &all)) {
        errno = ENOMEM;
        return NULL;
    }
    made = xi_alloc(all, 0);
    return made && !xi_alloc_is_zero(made) ? memset(made, 0, all) : made;
}

void *realloc(void *block, size_t size)
{
    size_t kept = block ? xi_alloc_size(block) : 0;
    void *made;

    if (block && !size) {
        free(block);
        return NULL;
    }
    made = xi_alloc(size, 0);
    if (made && block) {
        memcpy(made, block, kept < size ? kept : size);
        free(block);
    }
    return made;
}

void *reallocarray(void *block, size_t count, size_t size)
{
    size_t all;

    if (__builtin_mul_overflow(count, size, &all)) {
        errno = ENOMEM;
        return NULL;
    }
    return realloc(block, all);
}

void *memalign(size_t align, size_t size)
{
    return xi_alloc(size, align);
}

void *aligned_alloc(size_t align, size_t size)
{
    return xi_alloc(size, align);
}

int posix_memalign(void **into, size_t align, size_t size)
{
    void *made;

    if (align < sizeof(void *) || align & (align - 1))
        return EINVAL;
    made = xi_alloc(size, align);
    if (!made)
        return ENOMEM;
    *into = made;
    return 0;
}

void *valloc(size_t size)
{
    return xi_alloc(size, PAGE);
}

void *pvalloc(size_t size)
{
    return xi_alloc((size + PAGE - 1) / PAGE * PAGE, PAGE);
}

size_t malloc_usable_size(void *block)
{
    return block ? xi_alloc_size(block) : 0;
}
