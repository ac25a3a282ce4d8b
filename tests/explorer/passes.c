/* Tests that once passed although they have a race, each with its right twin.
 *
 * usage: passes NAME [wrong] [OPTION..]
 */
#include <nic82540em_explore.h>
#include <stdlib.h>
#include <string.h>

enum { RING = 0x1000, BUFFERS = 0x10000, OTHER = 0x20000, SIZE = 2048, SLOTS = 8, LENGTH = 60 };

static bool is_wrong;
static unsigned next, ready, taken;

static void offer(unsigned slot)
{
    x_store(RING + 16 * slot, (uint64_t[]){ BUFFERS + SIZE * slot, 0 }, 16);
}

static void arrive(void)
{
    static const uint8_t frame[LENGTH] = { 255, 255, 255, 255, 255, 255 };

    x_arrive(frame, LENGTH);
}

static uint8_t status_of(unsigned slot)
{
    uint8_t status;

    x_load(RING + 16 * slot + 12, &status, 1);
    return status;
}

static void begin(unsigned slots, unsigned tail)
{
    for (unsigned slot = 0; slot < slots; slot++)
        offer(slot);
    x_write(NIC_RDBAL, RING), x_write(NIC_RDLEN, 16 * SLOTS), x_write(NIC_RDT, tail);
    x_write(NIC_RCTL, NIC_RCTL_EN | NIC_RCTL_BAM);
}

/* Takes all finished frames. Returns whether there was one. */
static bool take(void)
{
    unsigned first = next;

    for (; status_of(next) & NIC_RXD_DD; next = (next + 1) % SLOTS)
        ready++, offer(next), x_write(NIC_RDT, next);
    return next != first;
}

/* A flag in a static variable, or on the heap, that is quiet at both ends of a run: `poll` runs. Wrong: it is cleared
 * after the last look at the ring, so the handler doesn't schedule `poll` for a frame that comes in between. */

static bool is_scheduled, static_busy, *busy;

static void schedule(void)
{
    x_read(NIC_ICR);
    if (!*busy)
        is_scheduled = true;
}

static void poll(void)
{
    unsigned first = next;

    is_scheduled = false, *busy = true;
    for (; status_of(next) & NIC_RXD_DD; next = (next + 1) % SLOTS)
        ready++, offer(next);
    *busy = is_wrong;
    if (next != first)
        x_write(NIC_RDT, (next + SLOTS - 1) % SLOTS);
    *busy = false;
}

static const char *polls(void)
{
    begin(SLOTS, SLOTS - 1), x_write(NIC_IMS, NIC_RXT0);
    x_handler(schedule);
    for (unsigned n = 0; n < 6; n += 2) {
        arrive(), arrive();
        do
            while (is_scheduled)
                poll();
        while (x_settle() || is_scheduled);
        if (ready != n + 2)
            return "a frame was never received";
    }
    return NULL;
}

static const char *flag(void)
{
    busy = &static_busy;
    return polls();
}

static const char *heap(void)
{
    const char *fault;

    busy = calloc(1, sizeof *busy);
    fault = polls();
    free(busy);
    return fault;
}

/* Wrong: the driver believes RDH, takes the slot back, and offers it again with another buffer. The adapter has moved
 * the frame to the first one. */
static const char *dead(void)
{
    uint8_t marker = 42, byte = 0;

    x_store(OTHER + 14, &marker, 1);
    x_store(RING, (uint64_t[]){ BUFFERS, 0 }, 16), x_store(RING + 16, (uint64_t[]){ OTHER, 0 }, 16);
    x_write(NIC_RDBAL, RING), x_write(NIC_RDLEN, 16 * SLOTS), x_write(NIC_RDT, 2);
    x_write(NIC_RCTL, NIC_RCTL_EN | NIC_RCTL_BAM);
    arrive();
    x_read(NIC_STATUS);
    if (is_wrong ? x_read(NIC_RDH) == 1 : status_of(0) & NIC_RXD_DD) {
        x_write(NIC_RDT, 1);
        if (!(status_of(0) & NIC_RXD_DD)) {
            x_store(RING, (uint64_t[]){ OTHER, 0 }, 16);
            x_settle();
            if (status_of(0) & NIC_RXD_DD)
                x_load(OTHER + 14, &byte, 1);
        }
    }
    x_settle();
    return byte == marker ? "an old frame was taken" : NULL;
}

/* The driver sees no frame, masks, looks at ICR, and sleeps. Wrong: a frame that the handler has taken before the mask,
 * so that ICR is clear, isn't seen. */

static void acknowledge_and_take(void)
{
    x_read(NIC_ICR);
    take();
}

static bool sleeps(void)
{
    if (status_of(next) & NIC_RXD_DD)
        return false;
    x_write(NIC_IMC, NIC_RXT0);
    if (x_read(NIC_ICR) & NIC_RXT0) {
        x_write(NIC_ICS, NIC_RXT0);
        return false;
    }
    return is_wrong || ready == taken;
}

static const char *prompt(void)
{
    begin(SLOTS, SLOTS - 1), x_write(NIC_IMS, NIC_RXT0);
    x_handler(acknowledge_and_take);
    for (unsigned n = 0; n < 3; n++) {
        arrive();
        if (ready == taken && sleeps() && ready > taken)
            return "the driver sleeps, and a frame is ready";
        x_write(NIC_IMS, NIC_RXT0);
        while (x_settle())
            ;
        taken = ready;
        if (taken != n + 1)
            return "a frame was lost";
    }
    return NULL;
}

/* A frame is taken by the driver itself, which then clears ICR. Wrong: the handler, called late, finds ICR 0, and takes
 * the device for dead. */

static bool is_dead;

static void check_cause(void)
{
    if (x_read(NIC_ICR) == 0)
        is_dead = is_wrong;
    take();
}

static const char *late(void)
{
    begin(SLOTS, SLOTS - 1), x_write(NIC_IMS, NIC_RXT0);
    x_handler(check_cause);
    for (unsigned n = 0; n < 3; n++) {
        arrive();
        x_read(NIC_STATUS);
        x_interrupts(false);
        x_read(NIC_ICR);
        take();
        x_interrupts(true);
        while (x_settle())
            ;
        if (is_dead)
            return "the driver takes the device for dead";
        if (ready != n + 1)
            return "a frame was lost";
    }
    return NULL;
}

/* Wrong: the handler takes frames, and then reads ICR. All work is done in one x_settle. */

static void take_and_acknowledge(void)
{
    take();
    x_read(NIC_ICR);
}

static const char *settle(void)
{
    x_handler(is_wrong ? take_and_acknowledge : acknowledge_and_take);
    begin(SLOTS, 0), x_write(NIC_IMS, NIC_RXT0);
    for (unsigned n = 0; n < 4; n++)
        arrive();
    x_write(NIC_RDT, SLOTS - 1);
    while (x_settle())
        ;
    return ready == 4 ? NULL : "a frame was never received";
}

/* A driver that polls the line. Wrong: it looks at the line once more, masks, and forgets what it has seen. */
static const char *line(void)
{
    begin(SLOTS, SLOTS - 1), x_write(NIC_IMS, NIC_RXT0);
    for (unsigned n = 0; n < 4; n += 2) {
        bool is_pending;
        arrive(), arrive(), x_step(NIC_RXDATA), x_step(NIC_RXDONE);
        acknowledge_and_take();
        is_pending = x_line();
        x_write(NIC_IMC, NIC_RXT0);
        if (is_pending && !is_wrong)
            acknowledge_and_take();
        if (is_pending && ready < n + 2 && is_wrong)
            return "the driver masks and forgets a frame";
        x_write(NIC_IMS, NIC_RXT0);
        x_settle();
        while (x_line())
            acknowledge_and_take();
        if (ready != n + 2)
            return "a frame was lost";
    }
    return NULL;
}

/* The link is up before the driver waits for it. Wrong: it looks, clears ICR, and unmasks. */
static const char *link_up(void)
{
    bool is_up = false;

    x_write(NIC_CTRL, NIC_CTRL_SLU);
    x_write(NIC_MDIC, 1u << 26 | 1u << 21 | 0x1200); /* begins negotiation */
    if (is_wrong)
        is_up = x_read(NIC_STATUS) & NIC_STATUS_LU;
    x_read(NIC_ICR);
    if (!is_wrong)
        is_up = x_read(NIC_STATUS) & NIC_STATUS_LU;
    x_write(NIC_IMS, NIC_LSC);
    for (int n = 0; n < 8; n++)
        x_settle();
    return is_up || x_read(NIC_ICR) & NIC_LSC ? NULL : "the driver never learns that the link is up";
}

/* Only x_choose finds it. Wrong: the driver is closed, and a frame that arrives afterwards is counted as lost. */
static const char *chooses(void)
{
    unsigned arrived = 0;

    begin(SLOTS, SLOTS - 1);
    for (unsigned n = 0; n < 3; n++) {
        if (x_choose(3) == 2) {
            x_write(NIC_RCTL, 0);
            if (is_wrong)
                arrived++;
        }
        arrive();
        if (x_read(NIC_RCTL) & NIC_RCTL_EN)
            arrived++;
        x_settle();
        take();
    }
    return ready == arrived ? NULL : "a frame was lost";
}

/* The handler calls x_choose, too, and may cut in before the driver's x_choose. Wrong: the driver is closed with a frame
 * that the handler has taken. */

static void take_or_wait(void)
{
    x_read(NIC_ICR);
    if (x_choose(2) == 0)
        take();
}

static const char *nested(void)
{
    begin(SLOTS, SLOTS - 1), x_write(NIC_IMS, NIC_RXT0);
    x_handler(take_or_wait);
    arrive();
    return x_choose(2) && ready && is_wrong ? "the driver is closed with a frame" : NULL;
}

/* The driver looks at what the handler has counted, and then keeps it out, or removes it. Wrong: it doesn't look again. */

static void mask(void)
{
    x_interrupts(false);
}

static void remove_handler(void)
{
    x_handler(NULL);
}

static const char *stops(void (*stop)(void))
{
    unsigned seen;

    begin(SLOTS, SLOTS - 1), x_write(NIC_IMS, NIC_RXT0);
    x_handler(acknowledge_and_take);
    arrive();
    seen = ready;
    stop();
    if (!is_wrong)
        seen = ready;
    return seen == ready ? NULL : "the driver hasn't seen a frame";
}

static const char *masked(void)
{
    return stops(mask);
}

static const char *removed(void)
{
    return stops(remove_handler);
}

/* The driver sleeps, and lets the handler in, or gives it. Wrong: it sleeps only afterwards, when the handler may have
 * woken it. */

static bool is_asleep;

static void wake(void)
{
    acknowledge_and_take();
    is_asleep = false;
}

static void unmask(void)
{
    x_interrupts(true);
}

static void give_handler(void)
{
    x_handler(wake);
}

static const char *starts(void (*start)(void))
{
    begin(SLOTS, SLOTS - 1), x_write(NIC_IMS, NIC_RXT0);
    arrive();
    is_asleep = !is_wrong;
    start();
    is_asleep |= is_wrong;
    while (x_settle())
        ;
    return is_asleep ? "the driver sleeps for ever" : NULL;
}

static const char *unmasked(void)
{
    x_interrupts(false);
    x_handler(wake);
    return starts(unmask);
}

static const char *given(void)
{
    return starts(give_handler);
}

/* Wrong: the driver takes a frame at once only if it has also taken the one before it at once. */

static bool was_early;

static const char *order(void)
{
    begin(SLOTS, SLOTS - 1);
    for (unsigned n = 0; n < 2; n++) {
        bool is_early;
        arrive();
        is_early = status_of(n) & NIC_RXD_DD;
        if (is_wrong && n == 1 && is_early && !was_early)
            return "the second frame is early, and the first one wasn't";
        was_early = is_early, is_early = false;
        x_settle();
    }
    return NULL;
}

/* Four frames of which the packet buffer has no room for all. The handler counts the frames that were missed, and gives
 * all slots back. Nothing is wrong: `while (x_settle());` must not end before all was received. */

static unsigned missed;

static void count_missed(void)
{
    if (x_read(NIC_ICR) & NIC_RXO)
        missed += x_read(NIC_MPC);
    for (; status_of(next) & NIC_RXD_DD; next = (next + 1) % SLOTS)
        ready++, offer(next), x_write(NIC_RDT, (next + 4) % SLOTS);
}

static const char *overrun(void)
{
    uint8_t frame[1000] = { 255, 255, 255, 255, 255, 255 }, byte;
    unsigned wanted = 0, count = 0;

    x_write(NIC_PBA, 2);
    begin(SLOTS, 3), x_write(NIC_IMS, NIC_RXT0 | NIC_RXO);
    x_handler(count_missed);
    for (unsigned n = 0; n < 4; n++)
        x_offer(frame, sizeof frame);
    while (x_settle())
        ;
    for (unsigned n = 0; n < x_arrived_count(); n++) {
        uint32_t fate;
        x_arrived(n, &fate, &byte, 1);
        wanted += fate == NIC_STORED, count += fate == NIC_MISSED;
    }
    return ready != wanted ? "a stored frame wasn't received" : missed != count ? "the number of missed frames is wrong" : NULL;
}

static const struct {
    const char *name;
    const char *(*test)(void);
} tests[] = { { "flag", flag }, { "heap", heap }, { "dead", dead }, { "prompt", prompt }, { "late", late },
              { "settle", settle }, { "line", line }, { "link", link_up }, { "choose", chooses }, { "nested", nested },
              { "masked", masked }, { "removed", removed }, { "unmasked", unmasked }, { "given", given },
              { "order", order }, { "overrun", overrun } };

static const char *test(void *word)
{
    for (size_t n = 0; n < sizeof tests / sizeof *tests; n++)
        if (!strcmp(word, tests[n].name))
            return tests[n].test();
    return "there is no such test";
}

int main(int count, char **words)
{
    static char none[] = "";

    is_wrong = count > 2 && !strcmp(words[2], "wrong");
    x_options.link = 6;
    return nic82540em_explore(count, words, test, count > 1 ? words[1] : none);
}
