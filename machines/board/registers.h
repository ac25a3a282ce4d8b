/* The registers as the guest sees them: the adapter's, EECD, those of kept.h, and the board's own. */
#ifndef REGISTERS_H
#define REGISTERS_H

#include <stdint.h>

/* Offsets are multiples of 4 below REGISTER_BYTES. */
uint32_t registers_read(uint32_t offset);
void registers_write(uint32_t offset, uint32_t value);

/* Lets the PHY negotiate. Then the link is up. */
void registers_negotiate(void);

/* Does what happens when the machine resets the function: resets the adapter, and lets its PHY negotiate. */
void registers_reset(void);

struct register_counts {
    uint64_t reads, writes, different;
};

extern struct register_counts register_counts;

#endif
