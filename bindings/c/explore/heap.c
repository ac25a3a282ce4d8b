/* Memory of malloc: one heap for the test, whose pages are a part of the test's state, and one for the explorer.
 *
 * The test's heap serves the test, and all that runs before the explorer is called. Its first page has the lists of
 * free blocks, so these are saved, too. A free block of the test's heap has only zeros, but for the link of its list:
 * states don't differ by what was in blocks that nobody uses.
 */
#define _GNU_SOURCE
#include "inside.h"
#include <errno.h>
#include <string.h>
#include <sys/mman.h>

enum { GRAIN = 16, SMALL = 64, CLASSES = SMALL + 4 * 40, CHUNK = 1 << 20 };

/* Before each block. `shift` bytes are between the block's beginning and what its user gets. */
struct head {
    uint32_t class, shift;
    size_t size; /* as asked for */
};

struct heap {
    char *next, *end; /* what was never used */
    void *free[CLASSES];
};

static struct heap explorers;
static struct heap *tests; /* at the beginning of its memory */
static bool explores;      /* whether the explorer was called, and hasn't returned */
static volatile char is_locked;

static size_t size_of(unsigned class)
{
    unsigned more = class - SMALL;

    return class < SMALL ? GRAIN * (size_t)(class + 1) : ((size_t)5 + more % 4) * (GRAIN * SMALL / 4) << more / 4;
}

static unsigned class_of(size_t size)
{
    unsigned class = SMALL;

    if (size <= GRAIN * SMALL)
        return size ? (unsigned)((size - 1) / GRAIN) : 0;
    while (class < CLASSES && size_of(class) < size)
        class++;
    return class;
}

/* Makes the test's heap, if there is none, as large as the process may make it. */
static struct heap *made_for_test(void)
{
    int flags = MAP_PRIVATE | MAP_ANONYMOUS | MAP_NORESERVE | MAP_FIXED_NOREPLACE;

    for (size_t size = XI_HEAP_SIZE; size >= CHUNK && !tests; size /= 2)
        if (mmap((void *)XI_HEAP, size, PROT_READ | PROT_WRITE, flags, -1, 0) == (void *)XI_HEAP) {
            tests = (struct heap *)XI_HEAP;
            tests->next = (char *)XI_HEAP + PAGE, tests->end = (char *)XI_HEAP + size;
        }
    return tests;
}

/* Watches the test's heap. */
void xi_watch_heap(void)
{
    xi_watch(tests, tests->end);
}

static bool is_tests(const void *block)
{
    return tests && (char *)block >= (char *)tests && (char *)block < tests->end;
}

void xi_explores(bool now)
{
    if (!made_for_test())
        xi_die("the memory at 0x202000000000 isn't free");
    explores = now;
}

/* Other threads than the test's may allocate memory before the explorer is called. */
static void lock(void)
{
    while (!x_inside() && __atomic_test_and_set(&is_locked, __ATOMIC_ACQUIRE))
        ;
}

static void unlock(void)
{
    if (!x_inside())
        __atomic_clear(&is_locked, __ATOMIC_RELEASE);
}

static char *new_block(struct heap *heap, size_t size)
{
    char *at;

    if ((size_t)(heap->end - heap->next) < size && heap == &explorers) {
        size_t more = size > CHUNK ? size : CHUNK;
        heap->next = xi_map(more), heap->end = heap->next ? heap->next + more : NULL;
    }
    if ((size_t)(heap->end - heap->next) < size)
        return NULL;
    at = heap->next, heap->next += size;
    return at;
}

static void *take(struct heap *heap, size_t size, size_t align)
{
    size_t shift = align > GRAIN ? align : 0;
    unsigned class = size > SIZE_MAX / 4 || align > SIZE_MAX / 4 ? CLASSES : class_of(size + shift);
    struct head *head;
    char *block;

    if (class >= CLASSES || !heap)
        return NULL;
    block = heap->free[class];
    if (block)
        memcpy(&heap->free[class], block + sizeof *head, sizeof(void *)),
            memset(block + sizeof *head, 0, sizeof(void *));
    else if (!(block = new_block(heap, sizeof *head + size_of(class))))
        return NULL;
    head = (struct head *)block;
    if (shift) {
        uintptr_t at = ((uintptr_t)block + sizeof *head + align - 1) & ~(uintptr_t)(align - 1);
        shift = at - (uintptr_t)block - sizeof *head;
        head = (struct head *)(at - sizeof *head);
    }
    *head = (struct head){ class, (uint32_t)shift, size };
    return head + 1;
}

/* Returns `size` bytes at a multiple of `align`, which is a power of 2, or NULL. */
void *xi_alloc(size_t size, size_t align)
{
    void *made;

    lock();
    made = take(x_inside() || !explores ? tests ? tests : made_for_test() : &explorers, size, align);
    unlock();
    if (!made)
        errno = ENOMEM;
    return made;
}

size_t xi_alloc_size(const void *block)
{
    return ((const struct head *)block)[-1].size;
}

/* Whether a block has only zeros before its user writes to it. */
bool xi_alloc_is_zero(const void *block)
{
    return is_tests(block);
}

/* Frees a block. Does nothing if it is of neither heap, as a block that the loader of shared objects made. */
void xi_free(void *at)
{
    struct head *head = (struct head *)at - 1, kept;
    struct heap *heap = is_tests(at) ? tests : &explorers;
    char *block;

    if (!at || (uintptr_t)at < XI_BEGIN || (uintptr_t)at >= XI_END)
        return;
    lock();
    kept = *head, block = (char *)head - kept.shift;
    if (heap == tests)
        memset(head, 0, sizeof kept + kept.size);
    else if (kept.size >= CHUNK)
        madvise((void *)(((uintptr_t)at + PAGE - 1) & ~(uintptr_t)(PAGE - 1)), kept.size - PAGE, MADV_DONTNEED);
    memcpy(block + sizeof kept, &heap->free[kept.class], sizeof(void *));
    heap->free[kept.class] = block;
    unlock();
}

/* Frees pages of mmap: a whole block, or a part of one, whose bytes are set to 0 and aren't served again. Does nothing
 * to pages that main has mapped: nobody uses them again in this run, and the next run has them again. */
void xi_unmap(void *at, size_t size)
{
    const struct head *head = (const struct head *)at - 1;

    if (!is_tests(at) || at == (void *)tests || (size_t)(tests->end - (char *)at) < size)
        return;
    if (head->size == size && head->class < CLASSES && head->shift)
        xi_free(at);
    else
        memset(at, 0, size);
}
