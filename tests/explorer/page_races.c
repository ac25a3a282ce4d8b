/* A driver that receives and sends, with races that a page of a run must explain. explorer_pages.py uses it.
 *
 * usage: page_races RACE [OPTION..]
 */
#include <nic82540em_explore.h>
#include <string.h>

enum { RX_RING = 0x1000, TX_RING = 0x2000, RX_BUFFERS = 0x10000, TX_BUFFERS = 0x20000, RX_SIZE = 256, TX_SIZE = 2048,
       SLOTS = 8, FRAMES = 12, FEWEST = 2, LONG = 300, SHORT = 60, PATIENCE = 20, FEW = 2 };

/* `free` are transmit slots, `held` receive buffers that receivers hold. */
static struct {
    const char *race;
    unsigned frames, rx, tx, free, count, held, answers, offered, buffers[SLOTS];
    uint8_t got[64], copy[RX_SIZE];
    bool is_bad;
} *my;

static bool is(const char *race)
{
    return !strcmp(my->race, race);
}

/* A driver with few offered slots has its buffers in turn. */
static bool offers_few(void)
{
    return is("lap") || is("kept") || is("kept-right") || is("lap-right");
}

static void store(unsigned slot)
{
    uint64_t words[2] = { my->buffers[slot], 0 };

    x_store(RX_RING + 16 * slot, words, is("dd") ? 8 : 16);
}

/* Offers one more slot, with a buffer. */
static void offer(unsigned buffer)
{
    unsigned slot = my->offered % SLOTS;

    my->buffers[slot] = buffer;
    my->offered++;
    if (is("lap") || is("rdt"))
        x_write(NIC_RDT, my->offered % SLOTS);
    store(slot);
    if (!is("lap") && !is("rdt"))
        x_write(NIC_RDT, my->offered % SLOTS);
}

static void bring_up(void)
{
    unsigned count = offers_few() ? FEW : SLOTS - !is("full");

    x_write(NIC_RDBAL, RX_RING), x_write(NIC_RDLEN, 16 * SLOTS);
    x_write(NIC_TDBAL, TX_RING), x_write(NIC_TDLEN, 16 * SLOTS);
    for (unsigned slot = 0; slot < count; slot++)
        my->buffers[slot] = RX_BUFFERS + RX_SIZE * slot, store(slot);
    my->offered = count;
    x_write(NIC_RDT, count % SLOTS);
    x_write(NIC_RCTL, NIC_RCTL_EN | NIC_RCTL_BAM | 3 << 16), x_write(NIC_TCTL, NIC_TCTL_EN);
    x_write(NIC_IMS, NIC_RXT0);
    my->free = SLOTS - 1;
}

/* Receiving */

static bool is_finished(unsigned slot, unsigned *length)
{
    unsigned at = RX_RING + 16 * slot;
    bool is_passed = is("head") && slot != x_read(NIC_RDH);
    uint8_t part[5] = { 0 };

    if (is("buffer"))
        x_load(my->buffers[slot], my->copy, SHORT);
    if (is("length"))
        x_load(at + 8, part, 2), x_load(at + 12, part + 4, 1);
    else
        x_load(at + 8, part, 5);
    *length = part[0] | (unsigned)part[1] << 8;
    if (!is("part") && !is("head") && (part[4] & 3) == NIC_RXD_DD)
        my->is_bad = true; /* this driver takes no frames in several buffers */
    return is("head") ? is_passed : part[4] & NIC_RXD_DD;
}

static void deliver(unsigned length)
{
    for (unsigned n = 15; n < length && n < SHORT; n++)
        my->is_bad |= my->copy[n] != my->copy[14];
    my->is_bad |= length != SHORT;
    my->got[my->count++ % sizeof my->got] = my->copy[14];
}

static bool send(uint8_t number);

static void receive(void)
{
    unsigned length;

    while (my->count < sizeof my->got && is_finished(my->rx, &length)) {
        unsigned buffer = my->buffers[my->rx];
        my->rx = (my->rx + 1) % SLOTS;
        if (is("held")) {
            my->held++, my->got[my->count] = (uint8_t)my->count, my->count++;
            continue;
        }
        if (is("kept"))
            offer(buffer);
        if (!is("buffer"))
            x_load(buffer, my->copy, SHORT);
        deliver(length);
        if (!is("kept"))
            offer(buffer);
        if (is("nested") || is("nested-right"))
            my->answers++, send((uint8_t)(100 + my->answers));
    }
}

static void interrupt(void)
{
    bool is_late = is("late");

    if (is_late)
        receive();
    x_read(NIC_ICR);
    if (!is_late)
        receive();
    if (is("ics"))
        x_write(NIC_ICS, NIC_RXT0);
}

/* Sending */

static bool is_sent(unsigned slot)
{
    uint8_t status;

    if (is("freed"))
        return slot != x_read(NIC_TDH);
    x_load(TX_RING + 16 * slot + 12, &status, 1);
    return status & NIC_TXD_DD;
}

static unsigned make(uint8_t *frame, uint8_t number, unsigned length)
{
    memset(frame, number, length), memset(frame, 255, 6);
    return length;
}

/* Returns whether the frame is in the ring. */
static bool send(uint8_t number)
{
    bool before = is("nested") || x_interrupts(false);
    uint8_t frame[SHORT];
    uint64_t words[2];
    unsigned slot;

    while (my->free < SLOTS - 1 && is_sent((my->tx + 1 + my->free) % SLOTS))
        my->free++;
    if (!my->free) {
        x_interrupts(before);
        return false;
    }
    slot = my->tx;
    words[0] = TX_BUFFERS + TX_SIZE * slot, words[1] = SHORT | NIC_TXD_EOP << 24 | NIC_TXD_RS << 24;
    my->free--;
    x_store(words[0], frame, make(frame, number, SHORT));
    if (!is("tdt"))
        x_store(TX_RING + 16 * slot, words, 16);
    my->tx = (slot + 1) % SLOTS;
    x_write(NIC_TDT, my->tx);
    if (is("tdt"))
        x_store(TX_RING + 16 * slot, words, 16);
    if (!is("nested"))
        x_interrupts(before);
    return true;
}

/* The test */

static void send_at_last(uint8_t number)
{
    for (int n = 0; n < PATIENCE && !send(number); n++)
        x_step(NIC_TXTAKE), x_step(NIC_TXPUT);
}

static void settle(void)
{
    if (!is("ics")) {
        while (x_settle())
            ;
        return;
    }
    for (int n = 0; n < PATIENCE && !my->is_bad; n++) {
        x_settle();
        if (!x_line())
            return;
        interrupt();
    }
    my->is_bad = true;
}

static const char *compare(void)
{
    uint8_t frame[SHORT];
    unsigned sent = 0;

    if (my->is_bad)
        return "a frame has wrong bytes, a wrong length, or no end";
    for (unsigned n = 0; n < my->frames; n++)
        if (my->count != my->frames || my->got[n] != n)
            return "a frame wasn't received, or twice, or in another order";
    for (unsigned n = 0; n < x_put_count(); n++)
        if (x_put(n, frame, sizeof frame) && frame[14] < 100 && frame[14] != sent++)
            return "a frame wasn't sent, or twice, or in another order";
    if (sent != my->frames || x_put_count() != my->frames + my->answers)
        return "a frame wasn't sent";
    return NULL;
}

static const char *test(void *word)
{
    uint8_t frame[LONG];
    unsigned group;

    my = x_memory(sizeof *my);
    my->race = word;
    group = offers_few() ? 3 : is("rdt") || is("freed") ? FRAMES : 2;
    bring_up();
    if (!is("ics"))
        x_handler(interrupt);
    my->frames = is("late") ? FEWEST : FRAMES; /* only the last frame is forgotten */
    for (unsigned n = 0; n < my->frames && !my->is_bad; n += group) {
        for (unsigned m = n; m < n + group; m++)
            x_arrive(frame, make(frame, (uint8_t)m, is("part") ? LONG : SHORT));
        if (group == 2) /* the handler cuts in while a frame is in the packet buffer */
            x_step(NIC_RXDATA), x_step(NIC_RXDONE);
        for (unsigned m = n; m < n + group; m++)
            send_at_last((uint8_t)m);
        settle();
    }
    return compare();
}

int main(int count, char **words)
{
    static char right[] = "right";

    return nic82540em_explore(count, words, test, count > 1 && words[1][0] != '-' ? words[1] : right);
}
