/* Places before accesses by pointers, and of variables.
 *
 * Compile the driver alone with -fsanitize=thread -fno-builtin -U_FORTIFY_SOURCE (gcc: also
 * --param=tsan-distinguish-volatile=1), link this file, and link no ThreadSanitizer. Then the driver calls a function
 * before each load and store, also of an atomic variable, and calls memcpy, memmove and memset for any size. All of them
 * are here, and call x_access. What isn't seen: memory that inline assembly accesses.
 */
#include "nic82540em_explore.h"
#include <string.h>

#define HOOKS(n)                                                    \
    void __tsan_read##n(void *at) { x_access(false, at); }          \
    void __tsan_write##n(void *at) { x_access(true, at); }          \
    void __tsan_volatile_read##n(void *at) { x_access(false, at); } \
    void __tsan_volatile_write##n(void *at) { x_access(true, at); } \
    void __tsan_unaligned_read##n(void *at) { x_access(false, at); } \
    void __tsan_unaligned_write##n(void *at) { x_access(true, at); } \
    void __tsan_unaligned_volatile_read##n(void *at) { x_access(false, at); } \
    void __tsan_unaligned_volatile_write##n(void *at) { x_access(true, at); } \
    void __tsan_read_write##n(void *at) { x_access(true, at); } \
    void __tsan_unaligned_read_write##n(void *at) { x_access(true, at); }
HOOKS(1)
HOOKS(2)
HOOKS(4)
HOOKS(8)
HOOKS(16)

void __tsan_read_range(void *at, size_t count)
{
    (void)count;
    x_access(false, at);
}

void __tsan_write_range(void *at, size_t count)
{
    (void)count;
    x_access(true, at);
}

void __tsan_init(void)
{
}

void __tsan_func_entry(void *at)
{
    (void)at;
}

void __tsan_func_exit(void)
{
}

void __tsan_vptr_update(void **at, void *value)
{
    (void)value;
    x_access(true, at);
}

void __tsan_vptr_read(void **at)
{
    x_access(false, at);
}

/* Atomic accesses. Threads don't exist here, so each is a plain one after its place. */
#define CHANGES(n, type, name, result)                                                              \
    type __tsan_atomic##n##_##name(volatile type *at, type value, int order)                        \
    {                                                                                               \
        type before;                                                                                \
        (void)order, x_access(true, (const void *)at);                                              \
        before = *at, *at = result;                                                                 \
        return before;                                                                              \
    }
#define COMPARES(n, type, name)                                                                     \
    int __tsan_atomic##n##_compare_exchange_##name(volatile type *at, type *wanted, type value, int order, int other) \
    {                                                                                               \
        bool is_equal;                                                                              \
        (void)order, (void)other, x_access(true, (const void *)at);                                 \
        is_equal = *at == *wanted;                                                                  \
        if (is_equal)                                                                               \
            *at = value;                                                                            \
        else                                                                                        \
            *wanted = *at;                                                                          \
        return is_equal;                                                                            \
    }
#define ATOMICS(n, type)                                                                            \
    type __tsan_atomic##n##_load(const volatile type *at, int order)                                \
    {                                                                                               \
        (void)order, x_access(false, (const void *)at);                                             \
        return *at;                                                                                 \
    }                                                                                               \
    void __tsan_atomic##n##_store(volatile type *at, type value, int order)                         \
    {                                                                                               \
        (void)order, x_access(true, (const void *)at);                                              \
        *at = value;                                                                                \
    }                                                                                               \
    CHANGES(n, type, exchange, value)                                                               \
    CHANGES(n, type, fetch_add, (type)(before + value))                                             \
    CHANGES(n, type, fetch_sub, (type)(before - value))                                             \
    CHANGES(n, type, fetch_and, (type)(before & value))                                             \
    CHANGES(n, type, fetch_or, (type)(before | value))                                              \
    CHANGES(n, type, fetch_xor, (type)(before ^ value))                                             \
    CHANGES(n, type, fetch_nand, (type)~(before & value))                                           \
    COMPARES(n, type, strong)                                                                       \
    COMPARES(n, type, weak)                                                                         \
    type __tsan_atomic##n##_compare_exchange_val(volatile type *at, type wanted, type value, int order, int other) \
    {                                                                                               \
        type before;                                                                                \
        (void)order, (void)other, x_access(true, (const void *)at);                                 \
        before = *at;                                                                               \
        if (before == wanted)                                                                       \
            *at = value;                                                                            \
        return before;                                                                              \
    }
ATOMICS(8, uint8_t)
ATOMICS(16, uint16_t)
ATOMICS(32, uint32_t)
ATOMICS(64, uint64_t)

void __tsan_atomic_thread_fence(int order)
{
    (void)order;
}

void __tsan_atomic_signal_fence(int order)
{
    (void)order;
}

/* The functions of the C library that the driver calls, for the whole program. The barrier keeps the compiler from
 * making a call of the function itself out of a loop. */
#define BARRIER() __asm__ volatile("" : : : "memory")

static void *copy_up(void *to, const void *from, size_t count)
{
#ifdef __x86_64__
    void *at = to;

    __asm__ volatile("rep movsb" : "+D"(at), "+S"(from), "+c"(count) : : "memory");
#else
    for (size_t n = 0; n < count; n++) {
        ((char *)to)[n] = ((const char *)from)[n];
        BARRIER();
    }
#endif
    return to;
}

void *memcpy(void *restrict to, const void *restrict from, size_t count)
{
    x_access(false, from);
    x_access(true, to);
    return copy_up(to, from, count);
}

void *memmove(void *to, const void *from, size_t count)
{
    x_access(false, from);
    x_access(true, to);
    if ((uintptr_t)to - (uintptr_t)from >= count)
        return copy_up(to, from, count);
    for (size_t n = count; n-- > 0;) {
        ((char *)to)[n] = ((const char *)from)[n];
        BARRIER();
    }
    return to;
}

void *memset(void *to, int value, size_t count)
{
    x_access(true, to);
#ifdef __x86_64__
    void *at = to;

    __asm__ volatile("rep stosb" : "+D"(at), "+c"(count) : "a"(value) : "memory");
#else
    for (size_t n = 0; n < count; n++) {
        ((char *)to)[n] = (char)value;
        BARRIER();
    }
#endif
    return to;
}

/* What newer clangs call for them, and the linker for -Wl,--wrap=memcpy */
void *__tsan_memcpy(void *to, const void *from, size_t count)
{
    return memcpy(to, from, count);
}

void *__tsan_memmove(void *to, const void *from, size_t count)
{
    return memmove(to, from, count);
}

void *__tsan_memset(void *to, int value, size_t count)
{
    return memset(to, value, count);
}

void *__wrap_memcpy(void *to, const void *from, size_t count)
{
    x_access(false, from);
    x_access(true, to);
    return copy_up(to, from, count);
}
