#include "test.h"
#include <nic82540em_explore.h>

enum { WEIGHT = 64, MOST_WAITS = 100 };
static struct napi_struct *scheduled; /* what is to be polled */
static bool is_polling;

void netif_napi_add(struct net_device *dev, struct napi_struct *napi, int (*poll)(struct napi_struct *, int))
{
    *napi = (struct napi_struct){ dev, poll, NAPI_SCHED };
}

void napi_enable(struct napi_struct *napi)
{
    if (!(napi->state & NAPI_SCHED))
        kernel_fails("napi_enable: it is enabled already");
    napi->state &= ~(unsigned)NAPI_SCHED;
}

void napi_disable(struct napi_struct *napi)
{
    kernel_sleeps("napi_disable");
    napi->state |= NAPI_DISABLE;
    if (is_polling)
        x_impossible(); /* the caller has interrupted the poll for which it would wait */
    for (int n = 0; n < MOST_WAITS && napi->state & NAPI_SCHED; n++)
        kernel_poll(), msleep(1);
    if (napi->state & NAPI_SCHED)
        kernel_fails("napi_disable waits for ever");
    napi->state = (napi->state | NAPI_SCHED) & ~(unsigned)NAPI_DISABLE;
}

bool napi_schedule_prep(struct napi_struct *napi)
{
    bool was = napi->state & NAPI_SCHED;

    if (napi->state & NAPI_DISABLE)
        return false;
    napi->state |= NAPI_SCHED | (was ? NAPI_MISSED : 0);
    return !was;
}

void __napi_schedule(struct napi_struct *napi)
{
    scheduled = napi;
}

bool napi_complete_done(struct napi_struct *napi, int done)
{
    bool missed = napi->state & NAPI_MISSED;

    (void)done;
    napi->state &= ~(unsigned)(NAPI_MISSED | NAPI_SCHED);
    if (!missed)
        return true;
    napi->state |= NAPI_SCHED;
    __napi_schedule(napi);
    return false;
}

void napi_gro_receive(struct napi_struct *napi, struct sk_buff *skb)
{
    (void)napi;
    if (kernel.count < KERNEL_FRAMES)
        kernel.received[kernel.count++] = skb;
    else
        kernel_fails("the driver has passed more than 256 frames to the stack");
}

bool kernel_can_poll(void)
{
    return scheduled && !is_polling;
}

/* Polls until nothing is scheduled. Interrupts are on meanwhile. */
void kernel_poll(void)
{
    unsigned before;
    bool was;

    if (!kernel_can_poll())
        return;
    is_polling = true, before = kernel_enter(true);
    was = x_interrupts(true);
    while (scheduled) {
        struct napi_struct *napi = scheduled;
        scheduled = NULL;
        if (napi->poll(napi, WEIGHT) == WEIGHT)
            scheduled = napi;
    }
    is_polling = false, kernel_leave(before);
    x_interrupts(was);
}

void kernel_soft(void)
{
    if (!kernel.has_two && !(kernel.dev && kernel.dev->sends))
        kernel_poll();
}
