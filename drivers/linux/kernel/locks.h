/* Locks, and contexts in which sleep is forbidden. */
#ifndef KERNEL_LOCKS_H
#define KERNEL_LOCKS_H

typedef struct { bool is_held; } spinlock_t;
struct mutex { bool is_held; };

/* Takes a lock, and keeps the handler out of this processor. The other processor waits for it. */
unsigned long kernel_lock(spinlock_t *lock);
void kernel_unlock(spinlock_t *lock, unsigned long flags);
/* Takes a lock for which a task may sleep. */
void mutex_lock(struct mutex *lock);
void mutex_unlock(struct mutex *lock);
#define DEFINE_SPINLOCK(name) spinlock_t name
#define DEFINE_MUTEX(name) struct mutex name
#define spin_lock_init(lock) ((lock)->is_held = false)
#define spin_lock_irqsave(lock, flags) ((flags) = kernel_lock(lock))
#define spin_unlock_irqrestore(lock, flags) kernel_unlock(lock, flags)

/* Of the small kernel. Code that isn't a task's (the handler, a poll, a send), or that holds a spin lock, mustn't sleep:
 * kernel_sleeps fails if `call` is made there. kernel_enter begins such code, or a task's if `is_atomic` is false, and
 * returns what kernel_leave gets at its end. */
void kernel_sleeps(const char *call);
unsigned kernel_enter(bool is_atomic);
void kernel_leave(unsigned before);
#endif
