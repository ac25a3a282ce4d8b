/* The driver of examples/drivers/driver.py in C, access by access, with most of its bugs. */
#ifndef DRIVER_H
#define DRIVER_H

#include <nic82540em_explore.h>

enum bug { RIGHT, MASKS, POOL, LATE, HEAD, LENGTH, PART, FREED, RDT_EARLY, TDT_EARLY, MASKS_LATE, EERD_ONCE, CUTS,
           RXO_CLEARED, BUGS };
enum { SLOTS = 8, RX_BUFFER = 256, SPARE = 4, MOST_SLOTS = 6, MOST = 64, PATIENCE = 1000, LONGEST_FRAME = 1518 };

/* What a test knows of a frame. */
struct known {
    uint32_t length;
    uint64_t hash;
};

/* All that the driver and the tests keep, in memory of x_memory. The members up to `receiver` are the driver's. */
struct all {
    enum bug bug;
    const char *fault;
    unsigned receive_at, transmit_at, free, missed, buffers[SLOTS], pool[SPARE];
    int sent; /* frames whose slots are free again, of those that the test hasn't forgotten */
    void (*receiver)(uint8_t *frame, unsigned length);
    unsigned number, came_count, received_count, sent_count, answer_count;
    struct known came[MOST], received[MOST], out[MOST], answers[MOST];
    char text[96];
};
extern struct all *t;

extern const char *const driver_names[BUGS];
void bring_up(void);
void interrupt(void);
bool send(const void *frame, unsigned length); /* whether the frame is in the ring */
struct known known_of(const void *bytes, uint32_t length);

#endif
