#include "wire.h"

#include <string.h>

#include "adapter.h"
#include "dma.h"
#include "frame_check.h"
#include "trace.h"

enum { QUEUE = 512, SHORTEST = 60, LONGEST = FRAME_BYTES - FRAME_CHECK_BYTES };

struct wire_counts wire_counts;

static struct waiting {
    uint32_t size, number;
    uint8_t bytes[FRAME_BYTES];
} queue[QUEUE];
static uint32_t first, count;
static wire_end *other_end;

void wire_start(wire_end *end)
{
    other_end = end;
}

void wire_receive(const uint8_t *frame, uint32_t size, uint32_t number)
{
    struct waiting *last = &queue[(first + count) % QUEUE];

    if (size > LONGEST || count == QUEUE) {
        wire_counts.dropped++;
        return;
    }
    memset(last->bytes, 0, SHORTEST);
    memcpy(last->bytes, frame, size);
    last->size = size < SHORTEST ? SHORTEST : size;
    last->number = number;
    count++;
}

uint32_t wire_waiting(void)
{
    return count;
}

bool wire_arrive(void)
{
    struct waiting *oldest = &queue[first];

    if (count == 0)
        return false;
    oldest->size = frame_check_add(oldest->bytes, oldest->size);
    trace_arrival(dma_arrive(oldest->bytes, oldest->size), oldest->number, oldest->bytes, oldest->size);
    first = (first + 1) % QUEUE;
    count--;
    wire_counts.arrived++;
    return true;
}

void wire_send(void)
{
    uint8_t frame[FRAME_BYTES];
    uint32_t size;

    while ((size = adapter_take_sent(frame)) > 0) {
        bool is_right = other_end(frame, size);

        trace_sent(frame, size, is_right);
        wire_counts.sent++;
        wire_counts.wrong += !is_right;
    }
}
