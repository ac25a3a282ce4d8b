/* A right solution; and with -DWRONG=1 to 10, one with a bug (README.md). */
#include "e1000.h"
#ifndef WRONG
#define WRONG 0
#endif

enum { USUAL = 1, LATE, ONE_FRAME, LENGTH_FIRST, TDT_EARLY, STATUS_LATE, FREED_BY_HEAD, DD_KEPT, BUFFER_KEPT, RDT_WRONG };

static bool is_done(struct e1000 *e1000, unsigned slot)
{
    if (WRONG == FREED_BY_HEAD)
        return !e1000->tx_buffers[slot] || reg_read(TDH) != slot;
    return e1000->tx_ring[slot].status & TX_DD;
}

int e1000_transmit(struct e1000 *e1000, uint8_t *buffer, unsigned length)
{
    unsigned slot = reg_read(TDT), next = (slot + 1) % TX_SIZE;
    volatile struct tx_descriptor *descriptor = &e1000->tx_ring[slot];

    if (!is_done(e1000, slot))
        return -1;
    if (WRONG != USUAL && !is_done(e1000, next)) /* or TDT meets TDH, and the ring looks empty */
        return -1;
    if (e1000->tx_buffers[slot])
        buffer_free(e1000->tx_buffers[slot]);
    e1000->tx_buffers[slot] = buffer;
    if (WRONG == TDT_EARLY)
        reg_write(TDT, next);
    descriptor->address = address_of(buffer);
    descriptor->length = (uint16_t)length;
    descriptor->command = TX_EOP | TX_RS;
    if (WRONG != STATUS_LATE)
        descriptor->status = 0;
    if (WRONG != TDT_EARLY)
        reg_write(TDT, next);
    if (WRONG == STATUS_LATE)
        descriptor->status = 0;
    return 0;
}

static void offer(struct e1000 *e1000, unsigned slot)
{
    if (WRONG != BUFFER_KEPT)
        e1000->rx_buffers[slot] = buffer_alloc();
    e1000->rx_ring[slot].address = address_of(e1000->rx_buffers[slot]);
    if (WRONG != DD_KEPT)
        e1000->rx_ring[slot].status = 0;
    if (WRONG == RDT_WRONG)
        reg_write(RDT, (slot + 1) % RX_SIZE);
    else
        reg_write(RDT, slot);
}

void e1000_recv(struct e1000 *e1000)
{
    for (;;) {
        unsigned slot = (reg_read(RDT) + 1) % RX_SIZE, length = e1000->rx_ring[slot].length;
        if (!(e1000->rx_ring[slot].status & RX_DD))
            return;
        if (WRONG != LENGTH_FIRST)
            length = e1000->rx_ring[slot].length;
        net_rx(e1000->rx_buffers[slot], length);
        offer(e1000, slot);
        if (WRONG == ONE_FRAME)
            return;
    }
}

void e1000_interrupt(struct e1000 *e1000)
{
    if (WRONG != LATE)
        reg_read(ICR);
    e1000_recv(e1000);
    if (WRONG == LATE)
        reg_read(ICR);
}
