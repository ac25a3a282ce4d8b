/* The wire's other end in the board: a host at 10.0.0.2 that answers ARP, echoes ping and UDP, and plays rounds. */
#ifndef RESPONDER_H
#define RESPONDER_H

#include <stdbool.h>
#include <stdint.h>

/* Answers a frame. Returns false if it has a size or a type that the guest doesn't use, or is a request of a round
 * whose checksums or bytes are wrong. */
bool responder_answer(const uint8_t *frame, uint32_t size);

#endif
