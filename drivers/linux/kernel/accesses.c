/* The driver's accesses of memory, and of bits that are atomic, as places of the schedule. pointers/hooks.c of the
 * explorer calls kernel_access before each load and store of the driver. */
#include "test.h"
#include <nic82540em_explore.h>

void kernel_access(bool is_store, const void *at);

void kernel_access(bool is_store, const void *at)
{
    int is_memory = x_inside() ? kernel_check_access(at) : 0;

    if (is_memory == 1)
        x_touch(is_store, kernel_address(at));
    else if (is_memory == 2 && kernel.has_variables)
        x_variable(is_store, at);
}

static volatile unsigned long *word_of(long n, volatile unsigned long *at)
{
    kernel_access(true, (const void *)at);
    return at + n / 64;
}

void set_bit(long n, volatile unsigned long *at)
{
    *word_of(n, at) |= 1ul << n % 64;
}

void clear_bit(long n, volatile unsigned long *at)
{
    *word_of(n, at) &= ~(1ul << n % 64);
}

bool test_and_set_bit(long n, volatile unsigned long *at)
{
    volatile unsigned long *word = word_of(n, at);
    bool was = *word >> n % 64 & 1;

    *word |= 1ul << n % 64;
    return was;
}
