/* Explores the schedules of a student's driver.
 *
 * usage: lab [send | receive] [OPTION..]: the options of the explorer, such as --explore every and --json
 *
 * With `send` or `receive`, only this half is tested.
 */
#include "e1000.h"
#include <nic82540em_explore.h>
#include <string.h>

enum { RX_RING = 0x1000, TX_RING = 0x2000, BUFFERS = 0x10000, SIZE = 2048, COUNT = 64, FRAME = 60, HELD = 4,
       ROUNDS = 3, BURST = 20, PATIENCE = 1000 };

static struct all {
    struct e1000 e1000;
    const char *fault;
    uint8_t *memory, *held[HELD]; /* the last received buffers, which nobody may change */
    unsigned held_number[HELD];
    int owner[COUNT]; /* of each buffer: 0 if it is free, -1 if it is taken, else 1 + the number of the frame to be sent */
    unsigned arrived, received, sent;
} *t;

uint32_t reg_read(uint32_t offset)
{
    return x_read(offset);
}

void reg_write(uint32_t offset, uint32_t value)
{
    x_write(offset, value);
}

static void fail(const char *fault)
{
    if (!t->fault)
        t->fault = fault;
}

uint64_t address_of(const uint8_t *buffer)
{
    return (uint64_t)(buffer - t->memory);
}

static unsigned number_of(const uint8_t *buffer)
{
    return (unsigned)((address_of(buffer) - BUFFERS) / SIZE % COUNT);
}

uint8_t *buffer_alloc(void)
{
    for (int n = 0; n < COUNT; n++)
        if (!t->owner[n]) {
            t->owner[n] = -1;
            return t->memory + BUFFERS + SIZE * n;
        }
    fail("no buffer is free: some are never freed");
    return t->memory + BUFFERS;
}

void buffer_free(uint8_t *buffer)
{
    int *owner = &t->owner[number_of(buffer)];

    if (*owner == 0)
        fail("a buffer was freed twice");
    if (*owner > 0 && x_put_count() < (unsigned)*owner)
        fail("the buffer of a frame was freed before the frame was on the wire");
    *owner = 0;
}

static void make(uint8_t *frame, unsigned number, bool is_received)
{
    memset(frame, (int)number + 1, FRAME);
    memcpy(frame, is_received ? "\2\0\0\0\0\1\2\0\0\0\0\11\x88\xB5" : "\2\0\0\0\0\11\2\0\0\0\0\1\x88\xB5", 14);
}

static bool is_frame(const uint8_t *got, unsigned number, bool is_received)
{
    uint8_t frame[FRAME];

    make(frame, number, is_received);
    return memcmp(frame, got, FRAME) == 0;
}

/* Holds the last buffers, which must not change, and then frees them. */
void net_rx(uint8_t *buffer, unsigned length)
{
    unsigned number = t->received++, at = number % HELD;

    if (length != FRAME || !is_frame(buffer, number, true))
        fail("a frame was received with wrong bytes, or twice, or in another order");
    if (t->held[at] && !is_frame(t->held[at], t->held_number[at], true))
        fail("a buffer was changed after net_rx took it over");
    if (t->held[at])
        buffer_free(t->held[at]);
    t->held[at] = buffer, t->held_number[at] = number;
}

static void handle(void)
{
    for (int n = 0; n < PATIENCE && !t->fault; n++) {
        if (!x_line())
            return;
        e1000_interrupt(&t->e1000);
    }
    fail("the line stays asserted");
}

static void settle(void)
{
    handle();
    for (int n = 0; n < PATIENCE && !t->fault; n++) {
        if (x_settle() == 0 && !x_line())
            return;
        handle();
    }
}

static void arrive(void)
{
    uint8_t frame[FRAME];

    make(frame, t->arrived, true);
    if (x_arrive(frame, FRAME) == NIC_STORED)
        t->arrived++;
}

static void check_received(void)
{
    settle();
    if (t->received != t->arrived)
        fail("a frame was never received");
}

static void send_one(void)
{
    uint8_t *buffer = buffer_alloc();

    make(buffer, t->sent, false);
    for (int n = 0; n < PATIENCE && !t->fault; n++) {
        t->owner[number_of(buffer)] = (int)t->sent + 1;
        if (e1000_transmit(&t->e1000, buffer, FRAME) == 0) {
            t->sent++;
            return;
        }
        if (x_settle() == 0 && n > 0)
            break;
        handle();
    }
    fail("the transmit ring stays full");
}

static void check_sent(void)
{
    uint8_t frame[1518];

    settle();
    if (x_put_count() != t->sent)
        fail("a frame was never sent");
    for (unsigned n = 0; n < t->sent && !t->fault; n++)
        if (x_put(n, frame, sizeof frame) != FRAME || !is_frame(frame, n, false))
            fail("a frame was sent with wrong bytes");
}

static void begin(void)
{
    static const uint32_t writes[][2] = { { NIC_RDBAL, RX_RING }, { NIC_RDLEN, 16 * RX_SIZE }, { NIC_RDT, RX_SIZE - 1 },
        { NIC_RCTL, NIC_RCTL_EN | NIC_RCTL_UPE }, { NIC_TDBAL, TX_RING }, { NIC_TDLEN, 16 * TX_SIZE },
        { NIC_TCTL, NIC_TCTL_EN | NIC_TCTL_PSP }, { NIC_IMS, NIC_RXT0 } };
    uint64_t size;

    t = x_memory(sizeof *t);
    t->memory = x_host(&size);
    t->e1000.rx_ring = (volatile struct rx_descriptor *)(t->memory + RX_RING);
    t->e1000.tx_ring = (volatile struct tx_descriptor *)(t->memory + TX_RING);
    for (int n = 0; n < RX_SIZE; n++) {
        t->e1000.rx_buffers[n] = buffer_alloc();
        t->e1000.rx_ring[n].address = address_of(t->e1000.rx_buffers[n]);
    }
    for (int n = 0; n < TX_SIZE; n++)
        t->e1000.tx_ring[n].status = TX_DD;
    for (unsigned n = 0; n < sizeof writes / sizeof *writes; n++)
        x_write(writes[n][0], writes[n][1]);
}

static void receive(void)
{
    for (int round = 0; round < ROUNDS && !t->fault; round++) {
        arrive(), arrive();
        x_step(NIC_RXDATA), x_step(NIC_RXDONE);
        check_received();
    }
    for (int n = 0; n < BURST && !t->fault; n++) /* more than the ring takes, so the others wait in the packet buffer */
        arrive();
    check_received();
}

static void send(void)
{
    for (int n = 0; n < BURST && !t->fault; n++)
        send_one();
    check_sent();
}

static bool is(const char *word, const char *half)
{
    return !word || strcmp(word, half) == 0;
}

static const char *lab(void *half)
{
    begin();
    if (is(half, "receive"))
        receive();
    if (is(half, "send"))
        send();
    return t->fault;
}

int main(int count, char **words)
{
    char *half = count > 1 && words[1][0] != '-' ? words[1] : NULL;

    if (half && !is(half, "receive") && !is(half, "send")) {
        fprintf(stderr, "lab: %s is neither receive nor send\n", half);
        return 2;
    }
    return nic82540em_explore(count, words, lab, half);
}
