#include "rings.h"

#include "adapter.h"

struct ring receive_ring, transmit_ring;
uint32_t receive_buffer_bytes;

/* The distance from a register of the receive ring to that of the transmit ring, such as from RDBAL to TDBAL */
enum { TO_TRANSMIT = TDBAL - RDBAL };

static void refresh_control(void)
{
    uint32_t control = adapter_read(RCTL);

    receive_ring.enabled = control & ENABLE;
    receive_buffer_bytes = 2048u >> (control >> 16 & 3);
    transmit_ring.enabled = adapter_read(TCTL) & ENABLE;
}

static void refresh_register(struct ring *ring, uint32_t offset, uint32_t value)
{
    switch (offset) {
    case RDBAL:
        ring->base = (ring->base & ~0xFFFFFFFFull) | value;
        break;
    case RDBAH:
        ring->base = (ring->base & 0xFFFFFFFFull) | (uint64_t)value << 32;
        break;
    case RDLEN:
        ring->bytes = value;
        break;
    case RDH:
        ring->head = value;
        break;
    case RDT:
        ring->tail = value;
        break;
    }
}

void rings_written(uint32_t offset)
{
    if (offset >= RDBAL && offset <= RDT)
        refresh_register(&receive_ring, offset, adapter_read(offset));
    else if (offset >= TDBAL && offset <= TDT)
        refresh_register(&transmit_ring, offset - TO_TRANSMIT, adapter_read(offset));
    else if (offset == RCTL || offset == TCTL)
        refresh_control();
}

void rings_refresh(void)
{
    static const uint32_t offsets[] = { RDBAL, RDBAH, RDLEN, RDH, RDT };

    for (unsigned place = 0; place < sizeof offsets / sizeof *offsets; place++) {
        rings_written(offsets[place]);
        rings_written(offsets[place] + TO_TRANSMIT);
    }
    refresh_control();
}

void rings_advance(struct ring *ring)
{
    rings_written(ring == &receive_ring ? RDH : TDH);
}

bool ring_offers(const struct ring *ring)
{
    return ring->enabled && ring->head != ring->tail;
}

uint64_t ring_head_address(const struct ring *ring)
{
    return ring->base + (uint64_t)DESCRIPTOR_BYTES * ring->head;
}
