/* The frames between the adapter and the wire's other end. */
#ifndef WIRE_H
#define WIRE_H

#include <stdbool.h>
#include <stdint.h>

struct wire_counts {
    uint64_t arrived, sent, dropped, wrong;
};

extern struct wire_counts wire_counts;

/* What is done with each frame that the adapter sends. Returns whether it may be a frame of the guest. */
typedef bool wire_end(const uint8_t *frame, uint32_t size);
void wire_start(wire_end *end);

/* Takes a frame, without FCS, from the other end. The frame waits until it arrives at the adapter. It is dropped if it
 * is too long or too many frames wait. `number` is shown in traces. */
void wire_receive(const uint8_t *frame, uint32_t size, uint32_t number);

/* The number of frames that wait. */
uint32_t wire_waiting(void);

/* Lets the oldest of these frames arrive at the adapter. Returns false if no frame waits. */
bool wire_arrive(void);

/* Passes to the other end the frames that the adapter has sent. */
void wire_send(void);

#endif
