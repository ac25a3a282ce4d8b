#include "test.h"
#include <nic82540em_explore.h>

static unsigned atomic; /* how many reasons forbid sleep to the code that runs */

void kernel_sleeps(const char *call)
{
    if (atomic)
        kernel_fails("%s: it may sleep, and is called where sleep is forbidden", call);
}

unsigned kernel_enter(bool is_atomic)
{
    unsigned before = atomic;

    atomic = is_atomic;
    return before;
}

void kernel_leave(unsigned before)
{
    atomic = before;
}

/* One that finds the lock held has interrupted the code that holds it, and would wait for it. */
unsigned long kernel_lock(spinlock_t *lock)
{
    unsigned long flags = x_interrupts(false);

    if (lock->is_held)
        x_impossible();
    lock->is_held = true, atomic++;
    return flags;
}

void kernel_unlock(spinlock_t *lock, unsigned long flags)
{
    if (!lock->is_held)
        kernel_fails("a lock is released that isn't held");
    lock->is_held = false, atomic--;
    x_interrupts(flags);
}

void mutex_lock(struct mutex *lock)
{
    kernel_sleeps("mutex_lock");
    if (lock->is_held)
        x_impossible();
    lock->is_held = true;
}

void mutex_unlock(struct mutex *lock)
{
    if (!lock->is_held)
        kernel_fails("a mutex is released that isn't held");
    lock->is_held = false;
}
