/* The adapter's accesses to the guest's memory. The adapter works on memory of its own: what a step reads is copied
 * there before the step, and what it wrote is copied to the guest after the step. */
#ifndef DMA_H
#define DMA_H

#include <stdbool.h>
#include <stdint.h>

#include "adapter.h"

struct dma_counts {
    uint64_t taken, put, pieces, done, faults[2]; /* faults of the receive engine, and of the transmit engine */
    uint64_t fates[FATES], simplified;
    uint64_t transmit_bytes, receive_bytes;
};

extern struct dma_counts dma_counts;

/* Plays a step. Returns its outcome. */
enum outcome dma_step(enum kind kind);

/* Lets a frame arrive. Returns its fate. */
enum fate dma_arrive(const uint8_t *frame, uint32_t size);

/* The number of frames in the receive packet buffer. */
uint32_t dma_waiting(void);

/* The slot of a ring that the last step used. */
uint32_t dma_slot(void);

/* Which engines a fault has stopped: bit 0 receive, bit 1 transmit. */
uint32_t dma_stopped(void);

/* After a reset of the adapter: forgets its frames, its piece in progress and its stopped engines. Reads the rings. */
void dma_reset(void);

#endif
