/* Tests of Linux's driver e1000, whose schedules the explorer searches.
 *
 * usage: test [TEST [RECEIVED [SENT [BYTES]]]] [OPTION..]
 */
#include "frames.h"
#include <nic82540em_explore.h>
#include <stdio.h>
#include <stdlib.h>

enum { RING = 48, OFFERED = RING - 2, LONGER = 64, SHORTER = 1400, MOST_STATISTICS = 128, MOST_BYTES = 1514 };
static const char *name = "both";

static const struct net_device_ops *ops(void)
{
    return kernel.dev->netdev_ops;
}

/* Opens the interface as the kernel does. */
static const char *opened(void)
{
    kernel.dev->is_running = true;
    if (ops()->ndo_open(kernel.dev))
        return "open fails";
    ops()->ndo_set_rx_mode(kernel.dev);
    return fault();
}

static void closed(void)
{
    kernel.dev->is_running = false;
    ops()->ndo_stop(kernel.dev);
    if (kernel_mappings())
        kernel_fails("DMA: the interface is closed, and %u buffers are still mapped", kernel_mappings());
    if (kernel_first_work(LONG_MAX / 2))
        kernel_fails("the interface is closed, and %s is still pending", kernel_first_work(LONG_MAX / 2)->name);
}

/* Loads the driver, opens its interface, and waits for the link. */
static const char *loaded(void)
{
    const char *wrong;

    kernel_begin();
    if (kernel_module_init() || !kernel.dev)
        return "probe fails";
    if ((wrong = opened()) != NULL)
        return wrong;
    for (int n = 0; n < 20 && !netif_carrier_ok(kernel.dev); n++) {
        struct work_struct *work = kernel_first_work(HZ / 2);
        x_read(NIC_STATUS); /* the PHY takes a step before it. A request would begin round 1 */
        if (work)
            kernel_work(work);
    }
    return netif_carrier_ok(kernel.dev) ? fault() : "the link isn't up";
}

/* Other actors, if there are two processors: the poll, a sender, the driver's work, and a user who reads statistics. */

static bool can_send(void)
{
    return frames.sends_left && kernel.dev->is_running && !kernel.dev->sends && !netif_xmit_stopped(&kernel.dev->queue);
}

static void runs_send(void)
{
    frames.has_run = true, frames.sends_left--, send();
}

#define WORK(short, function)                                                                 \
    static bool can_##short(void)                                                             \
    {                                                                                         \
        return frames.works_left && kernel_can_work(kernel_work_named(function));             \
    }                                                                                         \
    static void runs_##short(void)                                                            \
    {                                                                                         \
        frames.has_run = true, frames.works_left--;                                           \
        kernel_work(kernel_work_named(function));                                             \
    }
WORK(watchdog, "e1000_watchdog")
WORK(phy_info, "e1000_update_phy_info_task")
WORK(reset, "e1000_reset_task")

static void polls(void)
{
    frames.has_run = true, kernel_poll();
}

static bool can_read(void)
{
    return frames.reads_left != 0;
}

static void reads(void)
{
    unsigned before = kernel_enter(false);
    u64 values[MOST_STATISTICS];

    frames.has_run = true, frames.reads_left--;
    kernel.dev->ethtool_ops->get_ethtool_stats(kernel.dev, NULL, values);
    kernel_leave(before);
}

static const struct x_actor actors[] = {
    { "poll", kernel_can_poll, polls }, { "send", can_send, runs_send }, { "watchdog", can_watchdog, runs_watchdog },
    { "phy-info", can_phy_info, runs_phy_info }, { "reset", can_reset, runs_reset }, { "statistics", can_read, reads }
};

/* Tests */

static void offers(void)
{
    for (unsigned n = 0; n < frames.receives; n++)
        offer();
}

/* Lets another processor send, or sends. */
static const char *sends(void)
{
    if (kernel.has_two)
        frames.sends_left = frames.sends;
    for (unsigned n = 0; n < frames.sends && !kernel.has_two; n++)
        if (!send())
            return "the queue is stopped";
    return NULL;
}

/* Frames are on their way. */
static void begins(void)
{
    offers();
    for (unsigned n = 0; n < frames.sends && !kernel.has_two; n++)
        send();
}

/* Frames arrive and are sent. */
static const char *both(void)
{
    const char *wrong;

    offers();
    wrong = sends();
    return wrong ? wrong : check(false);
}

/* All slots of the receive ring are finished when the handler is let in, and more frames arrive. */
static const char *dry(void)
{
    unsigned more = frames.receives;

    x_interrupts(false);
    for (int n = 0; n < OFFERED; n++)
        offer(), x_settle();
    for (unsigned n = 0; n < more; n++)
        offer();
    x_interrupts(true);
    return check(false);
}

/* The last send stops the queue, while the frames before it are sent, but not yet freed. */
static const char *stop(void)
{
    x_interrupts(false);
    for (int n = 0; n < RING - 1 - (MAX_SKB_FRAGS + 7); n++)
        if (!send())
            return "the queue is stopped too early";
    x_settle();
    if (kernel.has_two)
        frames.sends_left = frames.sends;
    x_interrupts(true);
    for (unsigned n = 0; n < frames.sends && !kernel.has_two; n++)
        send();
    return check(false);
}

/* A user's call takes the driver down and up. Other actors may run meanwhile; frames may be lost. */
static const char *restarted(void (*call)(void), unsigned sends_meanwhile)
{
    frames.works_left = 2, frames.sends_left = kernel.has_two ? sends_meanwhile : 0, frames.is_down = true;
    call();
    frames.works_left = frames.sends_left = 0;
    wait_for_link();
    frames.is_down = false;
    return check(true);
}

static const char *then_both(const char *wrong)
{
    return wrong ? wrong : both();
}

static void renegotiates(void)
{
    kernel.dev->ethtool_ops->nway_reset(kernel.dev);
}

/* `ethtool -r`: the link is negotiated again. Then frames are received and sent. */
static const char *down(void)
{
    return then_both(restarted(renegotiates, 0));
}

/* As `down`, but frames arrive and are sent meanwhile. */
static const char *reset(void)
{
    begins();
    return then_both(restarted(renegotiates, frames.sends));
}

static void closes_and_opens(void)
{
    const char *wrong;

    closed();
    if ((wrong = opened()) != NULL)
        kernel_fails("%s", wrong);
}

/* The interface is closed while frames arrive, and opened again. */
static const char *closing(void)
{
    begins();
    return then_both(restarted(closes_and_opens, frames.sends));
}

static void times_out(void)
{
    unsigned before = kernel_enter(true);

    ops()->ndo_tx_timeout(kernel.dev, 0);
    kernel_leave(before);
    x_settle();
    kernel_poll();
}

/* The stack finds that the queue was stopped for too long, so work restarts the driver at any time. */
static const char *timeout(void)
{
    begins();
    return then_both(restarted(times_out, frames.sends));
}

static void changes_mtu(void)
{
    if (ops()->ndo_change_mtu(kernel.dev, SHORTER))
        kernel_fails("the MTU can't be changed");
}

static const char *mtu(void)
{
    begins();
    return then_both(restarted(changes_mtu, frames.sends));
}

static void resizes(void)
{
    struct ethtool_ringparam rings = { .rx_pending = LONGER, .tx_pending = LONGER };

    if (kernel.dev->ethtool_ops->set_ringparam(kernel.dev, &rings, NULL, NULL))
        kernel_fails("the rings can't be resized");
}

static const char *rings(void)
{
    begins();
    return then_both(restarted(resizes, frames.sends));
}

/* A group is joined and another one left, while frames to a third one arrive. */
static const char *groups(void)
{
    static struct netdev_hw_addr lists[3][2] = { { { { 1, 0, 0x5E, 0, 0, 1 } }, { { 1, 0, 0x5E, 0, 0, 2 } } },
                                                 { { { 1, 0, 0x5E, 0, 0, 2 } }, { { 1, 0, 0x5E, 0, 0, 3 } } } };

    kernel.dev->mc = lists[0], kernel.dev->mc_count = 2;
    ops()->ndo_set_rx_mode(kernel.dev);
    for (unsigned n = 0; n < frames.receives; n++)
        offer_to(lists[0][1].addr);
    kernel.dev->mc = lists[1];
    ops()->ndo_set_rx_mode(kernel.dev);
    return check(false);
}

/* Promiscuous mode is switched on and off while frames arrive. */
static const char *promiscuous(void)
{
    offers();
    kernel.dev->flags |= IFF_PROMISC;
    ops()->ndo_set_rx_mode(kernel.dev);
    kernel.dev->flags &= ~(unsigned)IFF_PROMISC;
    ops()->ndo_set_rx_mode(kernel.dev);
    return check(false);
}

/* A user reads the statistics: by the schedule, if there are two processors, or else between the frames. */
static const char *statistics(void)
{
    frames.reads_left = 1;
    offers();
    if (!kernel.has_two)
        reads();
    return then_both(NULL);
}

/* The driver is unloaded while frames arrive. */
static const char *unload(void)
{
    begins();
    frames.works_left = 2, frames.is_down = true, kernel.count = 0;
    kernel_module_exit();
    if (kernel_mappings())
        kernel_fails("DMA: the driver is unloaded, and %u buffers are still mapped", kernel_mappings());
    for (unsigned n = 0; n < kernel.count; n++)
        dev_kfree_skb_any(kernel.received[n]);
    kernel_check_free();
    return fault();
}

static const struct { const char *name; const char *(*test)(void); } tests[] = {
    { "both", both }, { "dry", dry }, { "stop", stop }, { "down", down }, { "reset", reset }, { "close", closing },
    { "timeout", timeout }, { "mtu", mtu }, { "rings", rings }, { "groups", groups }, { "promiscuous", promiscuous },
    { "statistics", statistics }, { "unload", unload }
};
enum { TESTS = sizeof tests / sizeof *tests };

/* The name of a test without its prefix */
static const char *plain(void)
{
    return !strncmp(name, "smp-", 4) || !strncmp(name, "any-", 4) ? name + 4 : name;
}

static const char *play(void *unused)
{
    const char *wrong = loaded();

    (void)unused;
    kernel.has_two = name == plain() - 4 && name[0] == 's', kernel.has_variables = name != plain();
    kernel.freed = freed;
    for (int n = 0; n < TESTS && !wrong; n++)
        if (!strcmp(plain(), tests[n].name))
            wrong = tests[n].test();
    return wrong ? wrong : fault();
}

static int usage(void)
{
    fprintf(stderr, "usage: test [TEST [RECEIVED [SENT [BYTES]]]] [OPTION..]\n");
    fprintf(stderr, "TEST is one of these, or any-TEST, or smp-TEST:");
    for (int n = 0; n < TESTS; n++)
        fprintf(stderr, " %s", tests[n].name);
    fprintf(stderr, "\nRECEIVED and SENT are at most 16, BYTES from 60 to 1514.\n");
    return 2;
}

/* Reads a number of the test. Returns whether it is one from `least` to `most`. */
static bool number(const char *text, unsigned least, unsigned most, unsigned *into)
{
    char *end;
    unsigned long value = strtoul(text, &end, 10);

    *into = (unsigned)value;
    return *text >= '0' && *text <= '9' && !*end && value >= least && value <= most;
}

static bool words(int count, char **given)
{
    bool is_right = false;

    if (count > 1 && given[1][0] != '-')
        name = given[1];
    for (int n = 0; n < TESTS; n++)
        is_right |= !strcmp(plain(), tests[n].name);
    for (int n = 2; is_right && n < count && n < 5 && given[n][0] != '-'; n++)
        is_right = n == 4 ? number(given[n], ETH_ZLEN, MOST_BYTES, &frames.bytes)
                          : number(given[n], 0, 16, n == 2 ? &frames.receives : &frames.sends);
    return is_right;
}

int main(int count, char **given)
{
    if (!words(count, given))
        return usage();
    *kernel_param_TxDescriptors = *kernel_param_RxDescriptors = RING;
    *kernel_param_InterruptThrottleRate = 0;
    *kernel_count_TxDescriptors = *kernel_count_RxDescriptors = *kernel_count_InterruptThrottleRate = 1;
    if (!strncmp(name, "smp-", 4))
        x_actors(actors, sizeof actors / sizeof *actors);
    return nic82540em_explore(count, given, play, NULL);
}
