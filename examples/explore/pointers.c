/* A small receive driver whose ring and buffers are pointers, as in most drivers. Nothing in it is made for the
 * explorer. */
#include "pointers.h"
#include <string.h>

enum { RING = 0x1000, BUFFERS = 0x10000, DD = 1, ICR = 0xC0, IMS = 0xD0, RCTL = 0x100, RDBAL = 0x2800, RDLEN = 0x2808,
       RDT = 0x2818 };

void receiver_begin(struct receiver *receiver, uint8_t *memory)
{
    receiver->ring = (volatile struct receive_descriptor *)(memory + RING);
    receiver->buffers = memory + BUFFERS;
    receiver->next = 0;
    for (int n = 0; n < RECEIVE_SLOTS; n++)
        receiver->ring[n].address = BUFFERS + RECEIVE_BUFFER * n;
    register_write(RDBAL, RING);
    register_write(RDLEN, 16 * RECEIVE_SLOTS);
    register_write(RDT, RECEIVE_SLOTS - 1);
    register_write(RCTL, 0x8002);
    register_write(IMS, 0x80);
}

static void take(struct receiver *receiver)
{
    while (receiver->ring[receiver->next].status & DD) {
        unsigned length = receiver->ring[receiver->next].length;
        uint8_t frame[RECEIVE_BUFFER];
        memcpy(frame, receiver->buffers + RECEIVE_BUFFER * receiver->next, length);
        receiver->deliver(frame, length);
        receiver->ring[receiver->next].status = 0;
        register_write(RDT, receiver->next);
        receiver->next = (receiver->next + 1) % RECEIVE_SLOTS;
    }
}

void receiver_interrupt(struct receiver *receiver)
{
    if (!receiver->is_late)
        register_read(ICR);
    take(receiver);
    if (receiver->is_late)
        register_read(ICR);
}
