/* Which memory is the test's, and what runs have changed of it.
 *
 * The test's memory is all that the process can write when the search begins, except the explorer's variables and
 * frames, and what the kernel writes for the thread by itself: static variables of the program and of each shared
 * object, thread-local variables, what the C library keeps for each thread (values of pthread_setspecific, whether the
 * thread may be cancelled), memory of malloc, mmap and sbrk, and the frames of the functions that have called the
 * explorer. It also has the arena, which states.c adds. Other threads would change memory at any time, so a process
 * that has some is refused.
 *
 * Whole pages of it are protected. The first write to a page is a fault: its handler copies the page, notes it as
 * written, and allows writes. What shares its page with memory of the explorer or of the kernel can't be protected.
 * Such a part is compared with its copy instead, whenever a state is saved, compared or restored. So memory that no
 * run writes is never copied again.
 */
#define _GNU_SOURCE
#include "inside.h"
#include <fcntl.h>
#include <stdlib.h>
#include <string.h>
#include <sys/mman.h>
#include <unistd.h>

enum { MOST_RANGES = 256, MOST_PARTS = 2 * MOST_RANGES, MOST_LINES = 1 << 18, LEAST_RSEQ = 32, OF_THREAD = 256 };
#define PAGES_OF(size) (((size) + PAGE - 1) / PAGE)

/* Bytes from `from` up to `to` */
struct range {
    char *from, *to;
};

/* Pages that are protected until they are written, and then have these kinds of access */
struct watched {
    struct range range;
    uint8_t *is_own;
    int kinds;
};

struct own *xi_own;
int xi_own_count;
static struct watched watched[MOST_RANGES];
static struct own parts[MOST_PARTS]; /* what can't be protected, until it is written */
static int watched_count, part_count, own_room;
static char *copies, *copies_end; /* room for copies of pages */
static char *callers;             /* the end of the explorer's frames on the stack of its caller */
static int kinds_of_pages = PROT_READ | PROT_WRITE; /* of those that are watched next */

/* The variables of the explorer: bindings/c/explore/build puts them in these sections. */
extern char __start_xi_data[], __stop_xi_data[], __start_xi_bss[], __stop_xi_bss[];

void xi_set_callers(void *frame)
{
    callers = frame;
}

/* Memory of the explorer, of whole pages with zeros */
void *xi_map(size_t size)
{
    static char *next = (char *)XI_OWN;
    char *at = next;
    int flags = MAP_PRIVATE | MAP_ANONYMOUS | MAP_NORESERVE | MAP_FIXED_NOREPLACE;

    size = PAGES_OF(size) * PAGE;
    if (mmap(at, size, PROT_READ | PROT_WRITE, flags, -1, 0) != at)
        return NULL;
    next = at + size;
    return at;
}

/* Copies bytes at the first write to a page. It is no memcpy: the program may define that, and come here again. */
static void copy_first(char *to, const char *from, size_t size)
{
    for (size_t n = 0; n < size; n++) {
        to[n] = from[n];
        __asm__ volatile("" : : : "memory");
    }
}

/* Copies a page, or a part of one. */
static void copy(char *to, const char *from, size_t size)
{
    if (size == PAGE)
        memcpy(to, from, PAGE);
    else
        memcpy(to, from, size);
}

/* Returns a copy of bytes as they were before the first run. Room for copies isn't freed. */
static char *kept(const char *at, size_t size)
{
    char *into;

    if ((size_t)(copies_end - copies) < size) {
        copies = xi_map(256 * (size_t)PAGE);
        if (!copies)
            xi_die("memory is refused");
        copies_end = copies + 256 * (size_t)PAGE;
    }
    into = copies, copies += size;
    copy_first(into, at, size);
    return into;
}

/* Notes a page, or a part of one, as written. */
static void add_own(const struct own *one)
{
    if (xi_own_count == own_room) {
        int room = own_room ? 2 * own_room : 1024;
        struct own *larger = xi_map((size_t)room * sizeof *larger);
        if (!larger)
            xi_die("memory is refused");
        copy_first((char *)larger, (const char *)xi_own, (size_t)xi_own_count * sizeof *larger);
        xi_own = larger, own_room = room;
    }
    xi_own[xi_own_count++] = *one;
}

/* Returns whether this is the first write to a page of the test's memory. The page can be written from now on. */
bool xi_is_first_write(const void *address)
{
    char *at = (char *)((uintptr_t)address & ~(uintptr_t)(PAGE - 1));

    for (struct watched *one = watched; one < watched + watched_count; one++)
        if (at >= one->range.from && at < one->range.to) {
            size_t page = (size_t)(at - one->range.from) / PAGE;
            if (one->is_own[page])
                return false;
            one->is_own[page] = 1;
            add_own(&(struct own){ .at = at, .size = PAGE, .base = kept(at, PAGE) });
            if (mprotect(at, PAGE, one->kinds))
                xi_die("memory is refused: runs write to too many pages");
            return true;
        }
    return false;
}

/* Finds the parts that the test has written since the last call. They are compared, since they can't be protected. */
void xi_find_written(void)
{
    static unsigned looked = -1u;

    if (looked == xi_entries)
        return;
    looked = xi_entries;
    for (int n = 0; n < part_count; n++)
        if (memcmp(parts[n].at, parts[n].base, parts[n].size)) {
            add_own(&parts[n]);
            parts[n--] = parts[--part_count];
        }
}

static void watch_part(char *from, char *to)
{
    if (from >= to)
        return;
    if (part_count == MOST_PARTS)
        xi_die("the program's memory has more than 512 parts");
    parts[part_count] = (struct own){ .at = from, .size = (uint32_t)(to - from) };
    parts[part_count++].base = kept(from, (size_t)(to - from));
}

static void watch_pages(char *from, char *to)
{
    uint8_t *is_own;

    if (from >= to)
        return;
    is_own = xi_map((size_t)(to - from) / PAGE);
    if (watched_count == MOST_RANGES)
        xi_die("the program's memory has more than 256 ranges");
    if (!is_own || mprotect(from, (size_t)(to - from), kinds_of_pages & ~PROT_WRITE))
        xi_die("memory is refused");
    watched[watched_count++] = (struct watched){ { from, to }, is_own, kinds_of_pages };
}

/* From now on, notes which of these bytes are written. */
void xi_watch(void *from_at, void *to_at)
{
    char *from = from_at, *to = to_at;
    char *first = (char *)(((uintptr_t)from + PAGE - 1) & ~(uintptr_t)(PAGE - 1));
    char *last = (char *)((uintptr_t)to & ~(uintptr_t)(PAGE - 1));

    if (first > last)
        watch_part(from, to);
    else
        watch_part(from, first), watch_pages(first, last), watch_part(last, to);
}

/* Restores all that runs have written as it was before the first run. */
void xi_to_base(void)
{
    xi_find_written();
    for (int n = 0; n < xi_own_count; n++)
        copy(xi_own[n].at, xi_own[n].base, xi_own[n].size);
}

/* The memory of the program */

/* Where the C library has registered what the kernel writes for each thread: on which processor it runs. Others don't
 * register it. */
extern const ptrdiff_t __rseq_offset __attribute__((weak));
extern const unsigned __rseq_size __attribute__((weak));

static struct range kernels(void)
{
    char *at = __builtin_thread_pointer();
    size_t size = &__rseq_size && &__rseq_offset ? __rseq_size : 0;

    if (!size)
        return (struct range){ NULL, NULL };
    at += __rseq_offset;
    return (struct range){ at, at + (size + LEAST_RSEQ - 1) / LEAST_RSEQ * LEAST_RSEQ };
}

/* Watches bytes, except the explorer's variables and the kernel's. */
static void watch_without_own(char *from, char *to)
{
    const struct range own[] = { { __start_xi_data, __stop_xi_data }, { __start_xi_bss, __stop_xi_bss }, kernels() };

    for (size_t n = 0; n < sizeof own / sizeof *own; n++)
        if (own[n].from < to && from < own[n].to) {
            if (from < own[n].from)
                watch_without_own(from, own[n].from);
            if (own[n].to < to)
                watch_without_own(own[n].to, to);
            return;
        }
    xi_watch(from, to);
}

/* Watches bytes. On x86-64, thread-local variables end where the thread pointer points. Each run writes to some of
 * them, such as errno: so they are watched apart from what is around them, and less is copied. */
static void watch_apart(char *from, char *to)
{
    char *end = __builtin_thread_pointer(), *begin = end - OF_THREAD;

    if (begin < from || end > to) {
        watch_without_own(from, to);
        return;
    }
    watch_without_own(from, begin), watch_without_own(begin, end), watch_without_own(end, to);
}

static bool is_in(const struct range *all, const void *at)
{
    return (const char *)at >= all->from && (const char *)at < all->to;
}

/* Watches what is the test's of memory that the process can write: on the stack, not what is below `callers`. */
static void watch_mapping(const struct range *all, const char *name)
{
    if (is_in(all, callers) && strcmp(name, "[stack]") && !is_in(all, __builtin_thread_pointer()))
        xi_die("it was called on a stack that isn't that of its thread");
    if (all->from < (char *)XI_BEGIN || all->from >= (char *)XI_END)
        watch_apart(is_in(all, callers) ? callers : all->from, all->to);
}

/* Reads a line of /proc/self/maps. Watches its memory, if the process can write it. */
static void watch_line(char *line)
{
    unsigned long from, to;
    char kinds[8], *name = strchr(line, '/');
    int at = 0;

    if (sscanf(line, "%lx-%lx %7s %*s %*s %*s %n", &from, &to, kinds, &at) < 3 || kinds[1] != 'w')
        return;
    name = at ? line + at : line + strlen(line);
    if (kinds[3] == 's')
        xi_die_of("memory that is shared with other processes", name);
    kinds_of_pages = PROT_READ | PROT_WRITE | (kinds[2] == 'x' ? PROT_EXEC : 0);
    watch_mapping(&(struct range){ (char *)from, (char *)to }, name);
    kinds_of_pages = PROT_READ | PROT_WRITE;
}

/* Whether there are other threads. One that was joined may be counted for a moment. An emulator of the processor has
 * threads of its own, and gives 0. */
static bool has_threads(void)
{
    int file = open("/proc/self/stat", O_RDONLY), count = 0;
    char text[1024], *at;
    ssize_t size = file < 0 ? -1 : read(file, text, sizeof text - 1);

    if (file >= 0)
        close(file);
    text[size < 0 ? 0 : size] = 0;
    at = strrchr(text, ')'); /* the name of the program ends here */
    if (!at || sscanf(at + 1, " %*c%*s%*s%*s%*s%*s%*s%*s%*s%*s%*s%*s%*s%*s%*s%*s%*s%d", &count) != 1)
        xi_die("/proc/self/stat can't be read");
    return count > 1;
}

/* Restores the test's memory as it was before the first run. From now on, it isn't watched. */
void xi_unwatch(void)
{
    xi_to_base();
    for (int n = 0; n < watched_count; n++)
        mprotect(watched[n].range.from, (size_t)(watched[n].range.to - watched[n].range.from), watched[n].kinds);
    watched_count = part_count = xi_own_count = 0;
}

/* Writes to a watched page of the explorer's own. So the loader of shared objects has found all functions that the
 * handler of such a write calls, and needn't write down their addresses, in a page that is watched, while it runs. */
static void rehearse(void)
{
    char *page = xi_map(PAGE);

    if (!page)
        xi_die("memory is refused");
    xi_watch(page, page + PAGE);
    *(volatile char *)page = 1;
    xi_find_written();
    watched_count = xi_own_count = 0;
}

/* From now on, notes which memory of the program is written. */
void xi_watch_program(void)
{
    int file = open("/proc/self/maps", O_RDONLY);
    size_t count = 0;
    ssize_t more;
    char *text = xi_map(MOST_LINES), *end;

    while (file >= 0 && text && (more = read(file, text + count, MOST_LINES - 1 - count)) > 0)
        count += (size_t)more;
    if (file < 0 || !text || !count || count == MOST_LINES - 1)
        xi_die("/proc/self/maps can't be read");
    close(file);
    for (int n = 0; n < 100 && has_threads(); n++)
        usleep(1000);
    if (has_threads())
        xi_die("the process has another thread, which may write memory at any time: search before it is started, or in "
               "a process of its own");
    rehearse();
    for (char *line = text; (end = strchr(line, '\n')) != NULL; line = end + 1)
        *end = 0, watch_line(line);
}
