/* What the board and the guest's test program share in rounds of a sweep: the board's own registers, and the contents
 * of requests and replies, which round and number determine. */
#ifndef ROUNDS_H
#define ROUNDS_H

#include <stdint.h>

/* The board's registers, from this offset of BAR 0 on. The adapter has no registers there. */
#define BOARD_REGISTERS 0x1FF00u

enum {
    BOARD_ROUND = 0x00,   /* write: the round that begins, or 0 at the end of a round; read: the seed */
    BOARD_POKE = 0x04,    /* read: steps may be played; the number of frames that wait to arrive */
    BOARD_MISSED = 0x08,  /* read: frames of this round that the adapter missed, that came while it was off, or that
                             the wire dropped */
    BOARD_WRONG = 0x0C,   /* read: requests of this round that were wrong on the wire */
    BOARD_STOPPED = 0x10, /* read: engines that a fault has stopped: bit 0 receive, bit 1 transmit */
    BOARD_LOST = 0x14,    /* write: the number of a reply that is missing, before the verdict */
    BOARD_VERDICT = 0x18, /* write: what was wrong in the round, 0 if nothing was */
    BOARD_DRAWS = 0x1C    /* read: 1 if steps are drawn, 0 if each step is played at once */
};

/* What can be wrong in a round. */
enum verdict {
    VERDICT_LATE = 1 << 0,    /* replies that came only after the driver's watchdog */
    VERDICT_LOST = 1 << 1,    /* replies that never came, and weren't counted as missed */
    VERDICT_BYTES = 1 << 2,   /* replies with other bytes */
    VERDICT_TWICE = 1 << 3,   /* replies that came twice */
    VERDICT_REQUEST = 1 << 4, /* requests with other bytes on the wire */
    VERDICT_FAULT = 1 << 5,   /* an engine of the adapter has stopped */
    VERDICT_KERNEL = 1 << 6   /* a warning or an error in the kernel's log */
};

enum {
    ROUND_PORT = 9,         /* of UDP, at the wire's other end */
    FIRST_REQUEST = 100000, /* the number of a round's first request; replies have numbers from 0 on */
    MOST_REPLIES = 1024,    /* of a round */
    LEAST_DATA = 16,        /* the header */
    MOST_DATA = 1472        /* of a UDP datagram in one frame */
};

/* The first bytes of each request and each reply. */
struct round_header {
    uint32_t round, number;
    uint32_t first, replies; /* of a request: the numbers of the replies that it asks for */
};

/* A number that looks random, from two others. */
static inline uint32_t mixed(uint32_t one, uint32_t other)
{
    uint64_t word = ((uint64_t)one << 32 | other) + 0x9E3779B97F4A7C15ull;

    word = (word ^ word >> 30) * 0xBF58476D1CE4E5B9ull;
    word = (word ^ word >> 27) * 0x94D049BB133111EBull;
    return (uint32_t)(word >> 32);
}

/* The size of a request or a reply in bytes: half of them are small. */
static inline uint32_t data_size(uint32_t round, uint32_t number)
{
    uint32_t drawn = mixed(round, number), span = drawn & 1 ? 128 : MOST_DATA - LEAST_DATA + 1;

    return LEAST_DATA + (drawn >> 8) % span;
}

/* A byte after the header. */
static inline uint8_t data_byte(uint32_t round, uint32_t number, uint32_t place)
{
    return (uint8_t)(place * 7 + (place >> 8) * 13 + number * 29 + round * 101);
}

#endif
