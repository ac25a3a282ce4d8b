/* What the board knows of the adapter's rings: the values that it last read from their registers, RCTL and TCTL. */
#ifndef RINGS_H
#define RINGS_H

#include <stdbool.h>
#include <stdint.h>

enum { DESCRIPTOR_BYTES = 16 };

struct ring {
    uint64_t base;
    uint32_t bytes, head, tail;
    bool enabled;
};

extern struct ring receive_ring, transmit_ring;

/* The size of a receive buffer in bytes (RCTL.BSIZE). */
extern uint32_t receive_buffer_bytes;

/* Reads all these registers. */
void rings_refresh(void);

/* After a write of the register at an offset: reads the register if it is one of these. */
void rings_written(uint32_t offset);

/* After a step that has moved the head of a ring: reads the head. */
void rings_advance(struct ring *ring);

/* Whether the ring offers a descriptor to an engine that is enabled. */
bool ring_offers(const struct ring *ring);

/* The address of the descriptor at the head. */
uint64_t ring_head_address(const struct ring *ring);

#endif
