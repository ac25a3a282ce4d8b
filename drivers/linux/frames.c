#include "frames.h"
#include <nic82540em_explore.h>

enum { LONGEST = 1514, CHECKSUM = 4, ADDRESS = 6, ARRIVES = 0xA0, LEAVES = 0x50, GROUP = 1, MOST_WAITS = 20 };
struct frames frames = { .receives = 1, .sends = 1, .bytes = 60 };
static const u8 own[ADDRESS] = { 2, 0, 0, 0, 0, 1 };

static void fill(u8 *frame, const u8 *to, u8 kind, unsigned number)
{
    static const u8 rest[] = { 2, 0, 0, 0, 0, 9, 0x88, 0xB5 };

    kernel_copy(frame, to, ADDRESS), kernel_copy(frame + ADDRESS, rest, sizeof rest);
    for (unsigned n = ADDRESS + sizeof rest; n < frames.bytes; n++)
        frame[n] = (u8)(kind + 7 * number + n);
    frame[14] = (u8)number, frame[15] = kind;
}

void offer_to(const u8 *address)
{
    u8 frame[LONGEST + CHECKSUM] = { 0 };

    fill(frame, address, ARRIVES, frames.received++);
    x_offer(frame, frames.bytes + CHECKSUM); /* the driver cuts off a checksum */
}

void offer(void)
{
    offer_to(own);
}

bool send(void)
{
    struct net_device *dev = kernel.dev;
    u8 frame[LONGEST] = { 0 };
    struct sk_buff *skb;
    unsigned before;
    bool is_busy;

    if (netif_xmit_stopped(&dev->queue))
        return false;
    skb = alloc_skb(frames.bytes, GFP_ATOMIC);
    skb->protocol = htons(0x88B5), skb->dev = dev;
    fill(frame, own, LEAVES, frames.sent), kernel_copy(skb_put(skb, frames.bytes), frame, frames.bytes);
    skb->number = 1 + frames.sent++;
    dev->sends++, before = kernel_enter(true);
    is_busy = dev->netdev_ops->ndo_start_xmit(skb, dev) != NETDEV_TX_OK;
    kernel_leave(before), dev->sends--;
    if (is_busy)
        skb->number = 0, frames.sent--, dev_kfree_skb_any(skb);
    kernel_soft();
    return !is_busy;
}

void freed(unsigned number)
{
    if (!frames.is_down && number >= frames.compared + x_put_count())
        kernel_fails("a frame was freed before it was sent");
}

const char *fault(void)
{
    return kernel.fault[0] ? kernel.fault : NULL;
}

static unsigned missed(void)
{
    unsigned count = 0;
    u32 fate;

    for (unsigned n = 0; n < x_arrived_count(); n++)
        x_arrived(n, &fate, NULL, 0), count += fate == NIC_MISSED;
    return count;
}

static const char *compare_received(bool may_lose)
{
    u8 frame[LONGEST + CHECKSUM];
    unsigned next = 0;
    u32 fate;

    for (unsigned n = 0; n < x_arrived_count(); n++) {
        size_t count = x_arrived(n, &fate, frame, sizeof frame) - CHECKSUM;
        struct sk_buff *skb = next < kernel.count ? kernel.received[next] : NULL;
        bool is_same = fate == NIC_STORED && skb && skb->len == count && memcmp(skb->data, frame, count) == 0;
        if (is_same)
            dev_kfree_skb_any(skb), kernel.received[next++] = NULL;
        else if (fate == NIC_STORED && !may_lose)
            return skb ? "a frame was received with wrong bytes, or in another order" : "a frame was never received";
    }
    if (next != kernel.count)
        return "a frame was received twice, with wrong bytes, or in another order";
    kernel.count = 0;
    return NULL;
}

static const char *compare_sent(bool may_lose)
{
    u8 frame[LONGEST], expected[LONGEST];

    for (unsigned n = 0; n < x_put_count(); n++) {
        size_t count = x_put(n, frame, sizeof frame);
        bool is_same = false;
        do
            fill(expected, own, LEAVES, frames.compared++),
                is_same = count == frames.bytes && memcmp(frame, expected, count) == 0;
        while (!is_same && may_lose && frames.compared < frames.sent);
        if (!is_same)
            return "a frame was sent twice, with wrong bytes, or in another order";
    }
    if (may_lose)
        frames.compared = frames.sent;
    return frames.compared == frames.sent ? NULL : "a frame was never sent";
}

/* Frames that the adapter has missed are counted where a user looks for them. */
static const char *compare_missed(void)
{
    unsigned count = missed();
    u64 values[128];

    if (!count)
        return NULL;
    kernel.dev->ethtool_ops->get_ethtool_stats(kernel.dev, NULL, values);
    return kernel.dev->stats.rx_missed_errors == count ? NULL : "a frame was missed, and not counted";
}

const char *check(bool may_lose)
{
    const char *wrong;
    bool goes_on;

    do {
        frames.has_run = false;
        goes_on = x_settle() || x_line();
        if (kernel_can_poll())
            kernel_poll(), goes_on = true;
        if (frames.sends_left && !netif_xmit_stopped(&kernel.dev->queue))
            frames.sends_left--, send(), goes_on = true;
    } while ((goes_on || frames.has_run) && !fault());
    frames.has_run = false;
    kernel_check_free();
    if (fault())
        return fault();
    if (netif_xmit_stopped(&kernel.dev->queue))
        return "the queue was never woken";
    if (!netif_carrier_ok(kernel.dev))
        return "the carrier is off, and the link is up";
    if ((wrong = compare_received(may_lose)) || (wrong = compare_sent(may_lose)) ||
        (!may_lose && (wrong = compare_missed())))
        return wrong;
    x_forget();
    return fault();
}

void wait_for_link(void)
{
    for (int n = 0; n < MOST_WAITS && (n < 5 || !netif_carrier_ok(kernel.dev)); n++) {
        struct work_struct *work = kernel_first_work(5 * HZ);
        x_settle();
        kernel_poll();
        if (work)
            kernel_work(work);
    }
}
