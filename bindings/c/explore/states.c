/* The memory of a run, its copies and its digests.
 *
 * All that a run changes is on the stack of the test, in the program's memory (memory.c), or in an arena at a fixed
 * address. The arena has what the explorer knows of the run, what the test keeps, and the heap of libnic82540em, whose
 * three functions are here. A saved state is the pages that any run has changed, and the used part of the stack of the
 * test.
 */
#define _GNU_SOURCE
#include "inside.h"
#include <errno.h>
#include <signal.h>
#include <stdlib.h>
#include <string.h>
#include <sys/mman.h>
#ifdef __x86_64__
#include <immintrin.h>
#elif defined(__aarch64__)
#include <arm_neon.h>
#include <sys/auxv.h>
#endif

enum {
    BOOK_PAGES = (sizeof(struct book) + PAGE - 1) / PAGE, STATE_PAGES = (sizeof(struct state) + PAGE - 1) / PAGE,
    MEMORY_PAGES = 256, HEAP_PAGES = 8192, PAGES = BOOK_PAGES + STATE_PAGES + MEMORY_PAGES + HEAP_PAGES, BLOCK = 64,
    HANDLER_STACK = 1 << 16
};
#define ARENA ((char *)XI_BEGIN)
#define MEMORY (ARENA + (BOOK_PAGES + STATE_PAGES) * (size_t)PAGE)
#define HEAP (MEMORY + MEMORY_PAGES * (size_t)PAGE)

struct book *const xi_book = (struct book *)XI_BEGIN;
struct state *const xi_state = (struct state *)(XI_BEGIN + BOOK_PAGES * (uintptr_t)PAGE);
bool xi_saves;
static bool is_tracked;
static char *host, *host_end;    /* the host's memory */
static char wire[64 * LONGEST];  /* the frames on the wire: none at an access or a request, so it isn't saved */

/* Ends the run of the test, which fails. */
_Noreturn void xi_fail(const char *fault)
{
    xi_state->fault = fault;
    xi_book->event = ENDED;
    xi_to_explorer();
    __builtin_trap();
}

/* What a signal of the test means. Above the end of the test's stack, nothing is mapped. */
static const char *name_of(int number, uintptr_t address)
{
    if (number == SIGSEGV && address < XI_STACK && address >= XI_STACK - XI_STACK_GAP)
        return "ended by SIGSEGV: its stack has more than 1 MiB";
    return xi_ended_by(number);
}

static void on_signal(int number, siginfo_t *info, void *context)
{
    char before = xi_pause();

    (void)context;
    if (number == SIGSEGV && xi_is_first_write(info->si_addr)) {
        xi_resume(before);
        return;
    }
    if (xi_is_test() && number != SIGSEGV ? !xi_is_elsewhere(number) : xi_is_test())
        xi_fail(name_of(number, (uintptr_t)info->si_addr));
    signal(number, SIG_DFL);
}

void xi_prepare(bool may_save)
{
    static const int numbers[] = { SIGSEGV, SIGABRT, SIGFPE, SIGILL, SIGBUS };
    static char stack[HANDLER_STACK];
    int kind = PROT_READ | PROT_WRITE, flags = MAP_PRIVATE | MAP_ANONYMOUS | MAP_NORESERVE | MAP_FIXED_NOREPLACE;
    static bool is_prepared;

    xi_saves = may_save;
    if (is_prepared)
        return;
    is_prepared = true;
    if (mmap(ARENA, PAGES * (size_t)PAGE, kind, flags, -1, 0) != ARENA)
        xi_die(errno == ENOMEM ? "memory is refused" : "the memory at 0x200000000000 isn't free");
    sigaltstack(&(stack_t){ .ss_sp = stack, .ss_size = sizeof stack }, NULL);
    for (size_t n = 0; n < sizeof numbers / sizeof *numbers; n++)
        xi_on(numbers[n], on_signal, SA_NODEFER | SA_ONSTACK);
    xi_block_calls();
}

/* Sets the arena to zeros, as it is before a run, but for the heap and the path. */
void xi_clear(void)
{
    memset(xi_book, 0, offsetof(struct book, path));
    memset(xi_state, 0, sizeof *xi_state);
    memset(MEMORY, 0, MEMORY_PAGES * (size_t)PAGE);
}

/* From now on, notes which pages are changed, if states are saved. */
void xi_track(void)
{
    uint64_t size;

    if (!xi_saves || is_tracked)
        return;
    host = (char *)xi_host(&size), host_end = host + size;
    is_tracked = true;
    xi_watch(ARENA, ARENA + PAGES * (size_t)PAGE);
}

int xi_pages(void)
{
    return xi_own_count;
}

/* The heap of the library. The heap only grows, except that the newest block can be freed. */

/* A block of at least a page begins a page, and no other block is in its pages. A test that makes another adapter is
 * refused: no digest has the memory of that one. */
struct tried rattle_alloc(size_t size, size_t align)
{
    size_t whole = size < PAGE ? align > 16 ? align : 16 : PAGE;
    size_t at = (xi_state->heap_used + whole - 1) / whole * whole, end = (at + size + whole - 1) / whole * whole;

    if (x_inside() && xi_saves)
        xi_pause(), xi_die_of("the test makes an adapter of its own", NULL);
    if (size == sizeof wire && x_options.memory != sizeof wire)
        return (struct tried){ true, wire };
    if (size > HEAP_PAGES * (size_t)PAGE || end > HEAP_PAGES * (size_t)PAGE)
        return (struct tried){ false, HEAP };
    xi_state->last_block = at, xi_state->before_last = xi_state->heap_used, xi_state->heap_used = end;
    return (struct tried){ true, HEAP + at };
}

struct tried rattle_realloc(void *block, size_t kept, size_t size, size_t align)
{
    struct tried made = rattle_alloc(size, align);

    if (made.ok)
        memcpy(made.block, block, kept < size ? kept : size);
    return made;
}

void rattle_dealloc(void *block)
{
    if (block == HEAP + xi_state->last_block && xi_state->heap_used > xi_state->last_block)
        xi_state->heap_used = xi_state->before_last;
}

void *x_memory(size_t size)
{
    size_t at = (xi_state->memory_used + 63) & ~(size_t)63;

    if (size > MEMORY_PAGES * (size_t)PAGE - at)
        xi_end("x_memory: the test has asked for more than 1 MiB");
    xi_state->memory_used = at + size;
    return MEMORY + at;
}

/* Digests */

static struct digest portable(const char *at, size_t blocks, uint64_t seed)
{
    uint64_t one = seed ^ 0x9E3779B97F4A7C15, two = seed ^ 0xD1B54A32D192ED03, word[2];

    for (size_t n = 0; n < blocks * (BLOCK / 16); n++, at += 16) {
        memcpy(word, at, 16);
        one = (one ^ word[0]) * 0xBF58476D1CE4E5B9, one = (one ^ one >> 29) + word[1];
        two = (two ^ word[1]) * 0x94D049BB133111EB, two = (two ^ two >> 31) + word[0];
    }
    one = (one ^ two >> 32) * 0x9FB21C651E98DF25, two = (two ^ one >> 29) * 0x9E3779B97F4A7C15;
    return (struct digest){ one ^ one >> 32, two ^ two >> 29 };
}

#ifdef __x86_64__
#define BY_AES __attribute__((target("aes,sse4.1")))
typedef __m128i vector;

BY_AES static inline vector load(const void *at)
{
    return _mm_loadu_si128(at);
}

/* A round of AES of the exclusive or of two vectors */
BY_AES static inline vector mix(vector one, vector two, vector key)
{
    return _mm_aesenc_si128(_mm_xor_si128(one, two), key);
}

static bool has_aes(void)
{
    return __builtin_cpu_supports("aes") && __builtin_cpu_supports("sse4.1");
}
#elif defined(__aarch64__)
#define BY_AES __attribute__((target("+crypto")))
typedef uint8x16_t vector;

BY_AES static inline vector load(const void *at)
{
    return vld1q_u8(at);
}

BY_AES static inline vector mix(vector one, vector two, vector key)
{
    return veorq_u8(vaesmcq_u8(vaeseq_u8(one, two)), key);
}

static bool has_aes(void)
{
    return getauxval(AT_HWCAP) & HWCAP_AES;
}
#endif

#ifdef BY_AES
/* Words from which the digest of blocks begins */
struct start {
    uint64_t key[2], a[2], b[2], zero[2];
};

BY_AES static struct digest by_aes(const char *at, size_t blocks, uint64_t seed)
{
    const uint64_t other = seed ^ 0x5851F42D4C957F2D;
    const struct start start = { { 0xD1B54A32D192ED03, 0x9E3779B97F4A7C15 }, { seed, seed }, { other, other }, { 0, 0 } };
    const vector key = load(start.key), zero = load(start.zero);
    vector a = load(start.a), b = load(start.b), c = mix(a, key, zero), d = mix(b, zero, key);
    struct digest digest;

    for (; blocks--; at += BLOCK) {
        a = mix(a, load(at), key), b = mix(b, load(at + 16), key);
        c = mix(c, load(at + 32), key), d = mix(d, load(at + 48), key);
    }
    a = mix(mix(a, mix(b, zero, key), key), zero, key), c = mix(mix(c, mix(d, zero, key), key), zero, key);
    a = mix(mix(a, c, key), zero, key);
    memcpy(&digest, &a, sizeof digest);
    return digest;
}
#endif

/* The digest of blocks of 64 bytes */
static struct digest digest_of(const char *at, size_t blocks, uint64_t seed)
{
#ifdef BY_AES
    static int aes = -1;

    if (aes < 0)
        aes = has_aes();
    if (aes)
        return by_aes(at, blocks, seed);
#endif
    return portable(at, blocks, seed);
}

/* The digest of the bytes of a page, or of a part of one */
static struct digest digest_of_bytes(const char *at, const struct own *one)
{
    char padded[PAGE];

    if (one->size == PAGE)
        return digest_of(at, PAGE / BLOCK, (uintptr_t)one->at);
    memcpy(padded, at, one->size);
    memset(padded + one->size, 0, PAGE - one->size);
    return digest_of(padded, (one->size + BLOCK - 1) / BLOCK, (uintptr_t)one->at);
}

/* Whether the bytes of a page are a part of the digest. Those of the book aren't, and of the library's heap, only those
 * of the host's memory are. The adapter's own digest stands for the others of the heap. */
static bool is_compared(const struct own *one)
{
    bool is_in_arena = one->at >= ARENA && one->at < HEAP + HEAP_PAGES * (size_t)PAGE;
    bool is_tests = one->at >= (char *)xi_state && one->at < HEAP;

#ifdef XI_HIDES_VARIABLES /* for tests of the search's own checks */
    if (!is_in_arena)
        return false;
#endif
    return !is_in_arena || is_tests || (one->at >= host && one->at < host_end);
}

/* Adds the difference of a page from what it was before the first run. */
static void add_page(struct digest *sum, struct own *one)
{
    struct digest now;

    if (!is_compared(one))
        return;
    if (!one->digest.one)
        one->digest = digest_of_bytes(one->base, one);
    now = digest_of_bytes(one->at, one);
    sum->one += now.one - one->digest.one, sum->two += now.two - one->digest.two;
}

/* The digest of the state: of the stack of the test, of the adapter by its contents, and of each compared page. Bytes
 * below the top of the stack in the same block are cleared, since they aren't used any more. */
struct digest xi_digest(void)
{
    void *top;
    char *end = xi_stack(&top), *from = (char *)((uintptr_t)top & ~(uintptr_t)(BLOCK - 1));
    struct digest sum, adapter;

    xi_clear_dead();
    xi_find_written();
    adapter = xi_adapter();
    memset(from, 0, (size_t)((char *)top - from));
    sum = digest_of(from, (size_t)(end - from) / BLOCK, (uintptr_t)top);
    sum.one += adapter.one, sum.two += adapter.two;
    for (int n = 0; n < xi_own_count; n++)
        add_page(&sum, &xi_own[n]);
    return sum;
}

/* How many bytes of a page, or of a part of one, are copied: of the path of the book, those of `count` deviations. */
static size_t size_of(const struct own *one, unsigned count)
{
    const char *end = (const char *)(xi_book->path + count);

    if (one->at < (char *)xi_book || one->at >= (char *)xi_book + BOOK_PAGES * PAGE)
        return one->size;
    return one->at >= end ? 0 : end - one->at < PAGE ? (size_t)(end - one->at) : PAGE;
}

/* Copies bytes of a page, or of a part of one. Returns their number. */
static size_t copy(char *to, const char *from, size_t size)
{
    if (size == PAGE)
        memcpy(to, from, PAGE);
    else
        memcpy(to, from, size);
    return size;
}

void xi_save(struct saved *saved)
{
    void *top;
    char *end = xi_stack(&top), *into;
    size_t stack = (size_t)(end - (char *)top), need;

    xi_find_written();
    need = (size_t)xi_own_count * PAGE + stack;
    if (saved->room < need) {
        free(saved->bytes);
        saved->bytes = malloc(saved->room = need + 8 * (size_t)PAGE);
        if (!saved->bytes)
            xi_die("memory is refused");
    }
    into = saved->bytes;
    for (int n = 0; n < xi_own_count; n++)
        into += copy(into, xi_own[n].at, size_of(&xi_own[n], xi_book->path_count));
    memcpy(into, top, stack);
    saved->pages = xi_own_count, saved->path_count = xi_book->path_count, saved->top = top;
}

void xi_restore(const struct saved *saved)
{
    char *end = xi_stack(NULL), *from = saved->bytes;

    xi_begin_time();
    xi_find_written();
    for (int n = 0; n < xi_own_count; n++)
        if (n < saved->pages)
            from += copy(xi_own[n].at, from, size_of(&xi_own[n], saved->path_count));
        else
            copy(xi_own[n].at, xi_own[n].base, xi_own[n].size);
    xi_set_stack(saved->top);
    memcpy(saved->top, from, (size_t)(end - (char *)saved->top));
}
