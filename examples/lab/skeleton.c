/* Your driver: write the three functions. e1000.h describes them, and all that they may use. */
#include "e1000.h"

/* Puts a frame of `length` bytes in the transmit ring. Returns 0, or -1 if the ring is full. */
int e1000_transmit(struct e1000 *e1000, uint8_t *buffer, unsigned length)
{
    (void)e1000, (void)buffer, (void)length;
    /* 1. TDT is the index of the next slot. Is this slot done? May it be used, or would the ring then look empty?
     * 2. Free the buffer of the frame that was sent from this slot, and note the new one.
     * 3. Fill in the descriptor: address, length, and the commands EOP and RS.
     * 4. Give the slot to the adapter. */
    return -1;
}

/* Passes each received frame to net_rx, and gives each slot a new buffer. */
void e1000_recv(struct e1000 *e1000)
{
    (void)e1000;
    /* 1. The slot after RDT is the next one. Is it done?
     * 2. Pass its buffer with its length to net_rx, which takes the buffer over.
     * 3. Put a new buffer in the descriptor, and give the slot back to the adapter.
     * 4. Are there more frames? */
}

/* Handles an interrupt: a frame was received. */
void e1000_interrupt(struct e1000 *e1000)
{
    (void)e1000;
    /* Reading ICR acknowledges the interrupt. When must this be done: before or after the frames are taken? */
}
