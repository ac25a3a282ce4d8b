/* Tests of U-Boot's driver e1000, whose schedules the explorer searches.
 *
 * usage: test [TEST [FRAMES.. [BYTES]]] [OPTION..]
 */
#include "uboot.h"
#include <nic82540em_explore.h>
#include <stdlib.h>
#undef printf

enum { CHECKSUM = 4, LEAST_BYTES = 60, MOST_BYTES = 1514, MOST = 16, AT_ONCE = 32, ARRIVES = 0xA0, LEAVES = 0x50 };
static unsigned receives = 1, sends = 1, bytes = LEAST_BYTES;
static unsigned offered, received, sent, compared; /* `compared`: frames that were sent, and compared */
static bool may_lose; /* frames that were on their way when the interface was stopped */
static struct udevice device;
static uint8_t *packet; /* all frames are sent from the same buffer */
static const char *wrong;

static const struct eth_ops *ops(void)
{
    return uboot_driver.ops;
}

static const char *fault(void)
{
    return wrong ? wrong : uboot_fault[0] ? uboot_fault : NULL;
}

static void fill(uint8_t *frame, uint8_t kind, unsigned number)
{
    static const uint8_t begin[] = { 2, 0, 0, 0, 0, 1, 2, 0, 0, 0, 0, 9, 0x88, 0xB5 };

    memcpy(frame, begin, sizeof begin);
    for (unsigned n = sizeof begin; n < bytes; n++)
        frame[n] = (uint8_t)(kind + 7 * number + n);
    frame[14] = (uint8_t)number, frame[15] = kind;
}

/* Whether these are the bytes of the next frame. If frames may be lost, it may be a later one. */
static bool is_next(const uint8_t *at, size_t count, uint8_t kind, unsigned *next, unsigned end)
{
    uint8_t frame[MOST_BYTES + CHECKSUM] = { 0 };
    size_t size = kind == ARRIVES ? bytes + CHECKSUM : bytes; /* U-Boot doesn't cut off a checksum */

    do
        fill(frame, kind, (*next)++);
    while (may_lose && *next < end && memcmp(at, frame, size) != 0);
    return *next <= end && count == size && memcmp(at, frame, size) == 0;
}

static void offer(void)
{
    uint8_t frame[MOST_BYTES + CHECKSUM] = { 0 };

    fill(frame, ARRIVES, offered++);
    x_offer(frame, bytes + CHECKSUM);
}

static void offers(void)
{
    for (unsigned n = 0; n < receives; n++)
        offer();
}

/* U-Boot's network loop: looks for at most 32 frames. Returns whether it has found one. */
static bool looks(void)
{
    int count, n = 0;
    uchar *at = NULL;

    do {
        count = ops()->recv(&device, n == 0, &at);
        if (count > 0) {
            x_touch(false, virt_to_phys(at)); /* the loop reads the frame */
            if (!is_next(at, (size_t)count, ARRIVES, &received, offered))
                wrong = "a frame was received twice, with wrong bytes, or in another order";
        }
        if (count >= 0)
            ops()->free_pkt(&device, at, count);
    } while (count > 0 && !fault() && ++n < AT_ONCE);
    return n != 0;
}

static void sends_one(void)
{
    uint8_t frame[MOST_BYTES];

    fill(frame, LEAVES, sent++);
    memcpy(packet, frame, bytes);
    if (ops()->send(&device, packet, (int)bytes))
        wrong = "a frame isn't sent in time";
}

static const char *compare_sent(void)
{
    uint8_t frame[MOST_BYTES] = { 0 };

    for (unsigned n = 0; n < x_put_count(); n++)
        if (!is_next(frame, x_put(n, frame, sizeof frame), LEAVES, &compared, sent))
            return "a frame was sent twice, with wrong bytes, or in another order";
    return may_lose || compared == sent ? NULL : "a frame was never sent";
}

/* Looks until nothing arrives any more. Then all frames were received and sent, unless they may be lost. */
static const char *check(void)
{
    bool goes_on;
    u32 fate;

    do
        goes_on = x_settle() != 0, goes_on |= looks();
    while (goes_on && !fault());
    for (unsigned n = 0; n < x_arrived_count() && !fault(); n++)
        if (x_arrived(n, &fate, NULL, 0), fate != NIC_STORED && !may_lose)
            wrong = "a frame was missed";
    if (!fault() && received != offered && !may_lose)
        wrong = "a frame was never received";
    if (!fault())
        wrong = compare_sent();
    received = offered, compared = sent;
    x_forget();
    return fault();
}

/* Frames arrive while U-Boot looks for them, and between its looks, frames are sent. */
static const char *both(void)
{
    offers();
    for (unsigned n = 0; (n < sends || n < receives) && !fault(); n++) {
        if (n < sends)
            sends_one();
        if (!fault())
            looks();
    }
    return fault() ? fault() : check();
}

/* The interface is stopped while frames arrive, and started again, as between two commands of a user. */
static const char *restart(void)
{
    bool is_right;

    offers();
    may_lose = true, uboot_is_open = false;
    ops()->stop(&device), is_right = ops()->start(&device) == 0;
    uboot_is_open = true;
    if (!is_right || check())
        return fault() ? fault() : "start fails";
    may_lose = false;
    return both();
}

static const char *receive(void)
{
    sends = 0;
    return both();
}

static const char *sending(void)
{
    receives = 0;
    return both();
}

/* The tests, each with the numbers that follow its name */
static const struct test { const char *name; const char *(*test)(void); unsigned *numbers[3]; } tests[] = {
    { "both", both, { &receives, &sends, &bytes } }, { "receive", receive, { &receives, &bytes } },
    { "send", sending, { &sends, &bytes } }, { "restart", restart, { &receives, &sends, &bytes } }
};
enum { TESTS = sizeof tests / sizeof *tests };
static const struct test *chosen = tests;

static const char *play(void *unused)
{
    (void)unused;
    uboot_begin(&device), packet = uboot_memory(MOST_BYTES, ARCH_DMA_MINALIGN);
    if (uboot_driver.bind(&device) || uboot_driver.probe(&device) || ops()->start(&device))
        return fault() ? fault() : "probe or start fails";
    uboot_is_open = true;
    return fault() ? fault() : chosen->test();
}

static int usage(void)
{
    fprintf(stderr, "usage: test [both|restart [RECEIVED [SENT [BYTES]]]] [OPTION..]\n");
    fprintf(stderr, "       test receive|send [FRAMES [BYTES]] [OPTION..]\n");
    fprintf(stderr, "RECEIVED, SENT and FRAMES are at most 16, BYTES from 60 to 1514.\n");
    return 2;
}

/* Reads a number of the test. Returns whether it is one from `least` to `most`. */
static bool number(const char *text, unsigned least, unsigned most, unsigned *into)
{
    char *end;
    unsigned long value = strtoul(text, &end, 10);

    *into = (unsigned)value;
    return *text >= '0' && *text <= '9' && !*end && value >= least && value <= most;
}

static bool words(int count, char **given)
{
    bool is_right = count < 2 || given[1][0] == '-';

    for (unsigned n = 0; n < TESTS && !is_right; n++)
        if (!strcmp(given[1], tests[n].name))
            chosen = &tests[n], is_right = true;
    for (int n = 2; is_right && n < count && n < 5 && given[n][0] != '-'; n++) {
        unsigned *into = chosen->numbers[n - 2];
        bool is_size = into == &bytes;
        is_right = into && number(given[n], is_size ? LEAST_BYTES : 0, is_size ? MOST_BYTES : MOST, into);
    }
    return is_right;
}

int main(int count, char **given)
{
    return words(count, given) ? nic82540em_explore(count, given, play, NULL) : usage();
}
