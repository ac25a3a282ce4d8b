/* A template: a small driver, which receives by interrupts and sends, and its test. Put in your driver and your frames.
 *
 *     cc $(pkg-config --variable=explore_cflags nic82540em_explore) -o my_test my_test.c \
 *         $(pkg-config --cflags --libs nic82540em_explore) && ./my_test --explore every
 */
#include <nic82540em_explore.h>
#include <string.h>

enum { RX_RING = 0x1000, TX_RING = 0x2000, RX_BUFFERS = 0x10000, TX_BUFFERS = 0x20000, SIZE = 2048, SLOTS = 8, FRAMES = 4 };

/* All that changes: the next slots, and the numbers of the received frames. It is in x_memory, so it is saved. */
static struct { unsigned rx, tx, count; uint8_t got[FRAMES]; } *my;

static void offer(unsigned slot) /* a receive descriptor with its buffer, DD is clear */
{
    x_store(RX_RING + 16 * slot, (uint64_t[]){ RX_BUFFERS + SIZE * slot, 0 }, 16);
}

static void bring_up(void) /* all registers that must be written. RDBAH, RDH, TDBAH, TDH and TDT are 0; no link is needed */
{
    for (unsigned slot = 0; slot < SLOTS; slot++)
        offer(slot);
    x_write(NIC_RDBAL, RX_RING), x_write(NIC_RDLEN, 16 * SLOTS), x_write(NIC_RDT, SLOTS - 1);
    x_write(NIC_TDBAL, TX_RING), x_write(NIC_TDLEN, 16 * SLOTS);
    x_write(NIC_RCTL, NIC_RCTL_EN | NIC_RCTL_BAM), x_write(NIC_TCTL, NIC_TCTL_EN);
    x_write(NIC_IMS, NIC_RXT0);
}

static void interrupt(void)
{
    uint8_t status, number;

    x_read(NIC_ICR); /* first: a frame that is finished later raises the line again */
    for (;; my->rx = (my->rx + 1) % SLOTS) {
        x_load(RX_RING + 16 * my->rx + 12, &status, 1);
        if (!(status & NIC_RXD_DD))
            break;
        x_load(RX_BUFFERS + SIZE * my->rx + 14, &number, 1);
        my->got[my->count++ % FRAMES] = number;
        offer(my->rx), x_write(NIC_RDT, my->rx);
    }
}

static void send(const uint8_t *frame, unsigned length) /* fewer than SLOTS frames, so a slot is free */
{
    unsigned at = TX_BUFFERS + SIZE * my->tx;

    x_store(at, frame, length);
    x_store(TX_RING + 16 * my->tx, (uint64_t[]){ at, length | NIC_TXD_EOP << 24 | NIC_TXD_RS << 24 }, 16);
    my->tx = (my->tx + 1) % SLOTS;
    x_write(NIC_TDT, my->tx);
}

static unsigned make(uint8_t *frame, uint8_t number) /* to all; byte 14 is the number of the frame */
{
    memset(frame, 0, 60), memset(frame, 255, 6), frame[14] = number;
    return 60;
}

static const char *test(void *word) /* it runs again and again. Returns NULL, or what is wrong */
{
    uint8_t frame[60];

    (void)word;
    my = x_memory(sizeof *my);
    bring_up();
    x_handler(interrupt); /* from here on, it cuts in after each access and request while the line is asserted */
    for (uint8_t n = 0; n < FRAMES; n += 2) {
        x_arrive(frame, make(frame, n)), x_arrive(frame, make(frame, n + 1));
        send(frame, make(frame, n)), send(frame, make(frame, n + 1));
        while (x_settle())
            ;
    }
    for (uint8_t n = 0; n < FRAMES; n++)
        if (my->count != FRAMES || my->got[n] != n)
            return "a frame wasn't received, or twice, or in another order";
        else if (x_put_count() != FRAMES || !x_put(n, frame, sizeof frame) || frame[14] != n)
            return "a frame wasn't sent, or twice, or in another order";
    return NULL;
}

int main(int count, char **words)
{
    return nic82540em_explore(count, words, test, NULL);
}
