/* Time and work. Time passes only while a task sleeps, and up to the time of work that runs before it is due. */
#ifndef KERNEL_WORK_H
#define KERNEL_WORK_H

#define HZ 250
unsigned long kernel_jiffies(void);
#define jiffies kernel_jiffies()
#define time_after(a, b) ((long)((b) - (a)) < 0)
#define time_after_eq(a, b) ((long)((a) - (b)) >= 0)
/* Sleeps for at least so many milliseconds. */
void msleep(unsigned milliseconds);
#define msleep_interruptible(n) (msleep(n), 0)
#define usleep_range(from, to) msleep(((from) + 999) / 1000)
/* Wait without sleep: the time is too short for the clock of the small kernel. */
#define udelay(n) ((void)(n))
#define mdelay(n) ((void)(n))
#define cond_resched() ((void)0)
struct timer_list { int unused; };

struct work_struct {
    const char *name;
    void (*function)(struct work_struct *);
    bool is_pending, is_running;
    unsigned long at;
};
struct delayed_work { struct work_struct work; };
#define INIT_WORK(to, by) kernel_work_begin(to, by, #by)
#define INIT_DELAYED_WORK(to, by) kernel_work_begin(&(to)->work, by, #by)
/* Lets work run once, `delay` jiffies from now at the earliest. Returns false if it is pending already. */
bool kernel_schedule(struct work_struct *work, unsigned long delay);
/* Work that is pending isn't any more; waits for work that runs. Returns whether it was pending. */
bool kernel_cancel(struct work_struct *work, const char *call);
#define schedule_work(work) kernel_schedule(work, 0)
#define schedule_delayed_work(to, delay) kernel_schedule(&(to)->work, delay)
#define cancel_work_sync(work) kernel_cancel(work, "cancel_work_sync")
#define cancel_delayed_work_sync(to) kernel_cancel(&(to)->work, "cancel_delayed_work_sync")

/* Of the small kernel: */
void kernel_work_begin(struct work_struct *work, void (*function)(struct work_struct *), const char *name);
struct work_struct *kernel_work_named(const char *name); /* or NULL */
struct work_struct *kernel_first_work(unsigned long until); /* the first that is due up to then, or NULL */
bool kernel_can_work(const struct work_struct *work); /* it is pending, and may run now */
void kernel_work(struct work_struct *work);
#endif
