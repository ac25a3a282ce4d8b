#include "test.h"
#include <nic82540em_explore.h>

enum { WORKS = 8, AT_BOOT = 1000 };
static unsigned long now;
static struct work_struct *works[WORKS]; /* that were made */

unsigned long kernel_jiffies(void)
{
    return AT_BOOT + now;
}

void msleep(unsigned milliseconds)
{
    kernel_sleeps("msleep");
    now += milliseconds * HZ / 1000 + 1;
    kernel_soft();
}

void kernel_work_begin(struct work_struct *work, void (*function)(struct work_struct *), const char *name)
{
    int n = 0;

    *work = (struct work_struct){ name, function, false, false, 0 };
    while (n < WORKS && works[n] && works[n] != work)
        n++;
    if (n == WORKS)
        kernel_fails("the driver has more than 8 kinds of work");
    else
        works[n] = work;
}

bool kernel_schedule(struct work_struct *work, unsigned long delay)
{
    if (work->is_pending)
        return false;
    work->is_pending = true, work->at = now + delay;
    return true;
}

bool kernel_cancel(struct work_struct *work, const char *call)
{
    bool was = work->is_pending;

    kernel_sleeps(call);
    if (work->is_running)
        x_impossible(); /* the caller has interrupted the work for which it would wait */
    work->is_pending = false, work->at = 0;
    return was;
}

struct work_struct *kernel_work_named(const char *name)
{
    for (int n = 0; n < WORKS && works[n]; n++)
        if (works[n]->name && !strcmp(works[n]->name, name)) /* no name: its memory was freed */
            return works[n];
    return NULL;
}

struct work_struct *kernel_first_work(unsigned long until)
{
    struct work_struct *first = NULL;

    for (int n = 0; n < WORKS && works[n]; n++)
        if (works[n]->is_pending && !works[n]->is_running && (!first || works[n]->at < first->at))
            first = works[n];
    return first && first->at <= now + until ? first : NULL;
}

/* Time doesn't pass while frames are in flight: the adapter is quick. */
bool kernel_can_work(const struct work_struct *work)
{
    return work && work->is_pending && !work->is_running && (work->at <= now || !kernel.dev->in_flight);
}

void kernel_work(struct work_struct *work)
{
    unsigned before = kernel_enter(false);

    now = work->at > now ? work->at : now;
    work->is_pending = false, work->at = 0, work->is_running = true;
    work->function(work);
    work->is_running = false;
    kernel_leave(before);
    kernel_soft();
}
