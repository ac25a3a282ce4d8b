#include "dma.h"

#include <string.h>

#include "guest_memory.h"
#include "report.h"
#include "rings.h"

enum {
    TAKEN_ROOM = 4,      /* frames in the transmit packet buffer */
    STORED_ROOM = 614,   /* frames in the receive packet buffer, at most */
    COMMAND_EOP = 1 << 0, /* of a transmit descriptor */
    COMMAND_TSE = 1 << 2,
    COMMAND_RS = 1 << 3,
    COMMAND_DEXT = 1 << 5,
    COMMAND_VLE = 1 << 6,
    TYPE = 10, /* and the upper bits of the length */
    DATA_TYPE = 1 << 4,
    COMMAND = 11,
    STATUS = 12,
    OPTIONS = 13
};

struct dma_counts dma_counts;

/* The frames in the transmit packet buffer, each with its descriptor. */
static struct taken {
    uint64_t descriptor;
    uint32_t slot;
    bool wants_status;
} taken[TAKEN_ROOM];
static unsigned taken_first, taken_count;

/* The sizes of the frames in the receive packet buffer; of the first one, the bytes that are left. */
static uint32_t stored[STORED_ROOM];
static unsigned stored_first, stored_count;

/* The piece in progress. */
static bool has_piece;
static uint64_t piece_descriptor;
static uint32_t piece_slot;

static uint32_t stopped, last_slot;

static uint32_t number_at(const uint8_t *bytes, unsigned size)
{
    uint32_t number = 0;

    while (size-- > 0)
        number = number << 8 | bytes[size];
    return number;
}

static uint64_t address_in(const uint8_t *descriptor)
{
    return number_at(descriptor, 4) | (uint64_t)number_at(descriptor + 4, 4) << 32;
}

/* Copies bytes of the guest to the adapter's memory, through a copy that the guest can't change. If the guest or the
 * adapter doesn't have all of them, none is copied: the adapter's step decides what follows. */
static void copy_in(uint64_t address, uint32_t size, uint8_t *copy)
{
    const uint8_t *bytes = guest_at(address, size);

    if (bytes == NULL || !adapter_holds(address, size))
        return;
    memcpy(copy, bytes, size);
    adapter_store(address, copy, size);
}

/* Copies to the guest the bytes that a step wrote. If the guest doesn't have all of them, none is copied. */
static void copy_out(uint64_t address, uint32_t size)
{
    uint8_t copy[FRAME_BYTES];
    uint8_t *bytes = guest_at(address, size);

    if (bytes == NULL || size > sizeof copy)
        return;
    adapter_load(address, copy, size);
    memcpy(bytes, copy, size);
}

static void report_fault(const char *engine, const struct ring *ring, const uint8_t *descriptor)
{
    report("%s engine: fault at descriptor %u of %u, tail %u: address 0x%llx, length %u, command 0x%02x%s", engine,
           ring->head, ring->bytes / DESCRIPTOR_BYTES, ring->tail, (unsigned long long)address_in(descriptor),
           number_at(descriptor + 8, 2), descriptor[COMMAND], descriptor[COMMAND] & COMMAND_DEXT ? " DEXT" : "");
}

static void note_taken(uint64_t address, const uint8_t *descriptor)
{
    taken[(taken_first + taken_count++) % TAKEN_ROOM] = (struct taken){ address, transmit_ring.head,
                                                                        descriptor[COMMAND] & COMMAND_RS };
    last_slot = transmit_ring.head;
    rings_advance(&transmit_ring);
    dma_counts.taken++;
    dma_counts.transmit_bytes += number_at(descriptor + 8, 2);
}

/* A data descriptor (3.3.7) that is a complete frame and asks for no offload means the same as a legacy one. The model
 * has legacy ones only, so the adapter's copy becomes one. */
static void simplify(uint64_t address, uint8_t *descriptor)
{
    uint8_t command = descriptor[COMMAND];

    if (!(command & COMMAND_DEXT) || !(command & COMMAND_EOP) || command & (COMMAND_TSE | COMMAND_VLE) ||
        descriptor[TYPE] != DATA_TYPE || descriptor[OPTIONS] != 0 || !adapter_holds(address, DESCRIPTOR_BYTES))
        return;
    descriptor[TYPE] = 0;
    descriptor[COMMAND] &= (uint8_t)~COMMAND_DEXT;
    adapter_store(address, descriptor, DESCRIPTOR_BYTES);
    dma_counts.simplified++;
}

static enum outcome step_txtake(void)
{
    uint64_t address = ring_head_address(&transmit_ring);
    uint8_t descriptor[DESCRIPTOR_BYTES] = { 0 }, data[FRAME_BYTES];
    enum outcome outcome;
    uint32_t length;

    if (!ring_offers(&transmit_ring) || taken_count == TAKEN_ROOM || stopped & 2)
        return NOTHING;
    copy_in(address, sizeof descriptor, descriptor);
    simplify(address, descriptor);
    length = number_at(descriptor + 8, 2);
    if (length <= sizeof data)
        copy_in(address_in(descriptor), length, data);
    outcome = adapter_step(TXTAKE);
    if (outcome == TOOK)
        note_taken(address, descriptor);
    if (outcome == FAULT) {
        stopped |= 2;
        dma_counts.faults[1]++;
        report_fault("transmit", &transmit_ring, descriptor);
    }
    return outcome;
}

static enum outcome step_txput(void)
{
    struct taken *oldest = &taken[taken_first];

    if (taken_count == 0 || adapter_step(TXPUT) != PUT)
        return NOTHING;
    if (oldest->wants_status)
        copy_out(oldest->descriptor + STATUS, 1);
    last_slot = oldest->slot;
    taken_first = (taken_first + 1) % TAKEN_ROOM;
    taken_count--;
    dma_counts.put++;
    return PUT;
}

/* Copies a piece of the oldest frame to the guest. */
static void note_piece(enum outcome outcome, uint64_t address)
{
    uint32_t size = stored[stored_first] < receive_buffer_bytes ? stored[stored_first] : receive_buffer_bytes;

    copy_out(address, size);
    stored[stored_first] -= size;
    if (outcome == MOVED) {
        stored_first = (stored_first + 1) % STORED_ROOM;
        stored_count--;
    }
    has_piece = true;
    piece_descriptor = ring_head_address(&receive_ring);
    piece_slot = last_slot = receive_ring.head;
    rings_advance(&receive_ring);
    dma_counts.pieces++;
    dma_counts.receive_bytes += size;
}

static enum outcome step_rxdata(void)
{
    uint64_t address = ring_head_address(&receive_ring);
    uint8_t descriptor[DESCRIPTOR_BYTES] = { 0 };
    enum outcome outcome;

    if (!ring_offers(&receive_ring) || has_piece || stored_count == 0 || stopped & 1)
        return NOTHING;
    copy_in(address, sizeof descriptor, descriptor);
    outcome = adapter_step(RXDATA);
    if (outcome == PART || outcome == MOVED)
        note_piece(outcome, address_in(descriptor));
    if (outcome == FAULT) {
        stopped |= 1;
        dma_counts.faults[0]++;
        report_fault("receive", &receive_ring, descriptor);
    }
    return outcome;
}

static enum outcome step_rxdone(void)
{
    uint64_t *status = (uint64_t *)guest_at(piece_descriptor + 8, 8), copy;

    if (!has_piece || adapter_step(RXDONE) != DONE)
        return NOTHING;
    has_piece = false;
    last_slot = piece_slot;
    dma_counts.done++;
    if (status != NULL) {
        adapter_load(piece_descriptor + 8, &copy, sizeof copy);
        __atomic_store_n(status, copy, __ATOMIC_RELEASE); /* with DD, after the piece */
    }
    return DONE;
}

enum outcome dma_step(enum kind kind)
{
    switch (kind) {
    case TXTAKE:
        return step_txtake();
    case TXPUT:
        return step_txput();
    case RXDATA:
        return step_rxdata();
    case RXDONE:
        return step_rxdone();
    default:
        return adapter_step(kind);
    }
}

enum fate dma_arrive(const uint8_t *frame, uint32_t size)
{
    enum fate fate = adapter_arrive(frame, size);

    if (fate == STORED)
        stored[(stored_first + stored_count++) % STORED_ROOM] = size;
    dma_counts.fates[fate]++;
    return fate;
}

uint32_t dma_waiting(void)
{
    return stored_count;
}

uint32_t dma_slot(void)
{
    return last_slot;
}

uint32_t dma_stopped(void)
{
    return stopped;
}

void dma_reset(void)
{
    taken_first = taken_count = stored_first = stored_count = 0;
    has_piece = false;
    stopped = 0;
    rings_refresh();
}
