/* The driver's accesses, as `nicbench drive` asks for them. In its address space, memory begins at 0. */
#ifndef ACCESSES_H
#define ACCESSES_H

#include <stdint.h>

struct access_options {
    int wait;   /* the most milliseconds that a read of ICR waits for an interrupt, if the last read found no cause */
    int settle; /* milliseconds to wait after the receiver was enabled. QEMU's e1000 receives only a second later */
    int offers; /* a file that gets a letter at each write of RDT: 'A' for no new descriptor, 'B' for one; or -1 */
};

void accesses_start(const struct access_options *options);

uint32_t access_readl(uint32_t offset);
void access_writel(uint32_t offset, uint32_t value);

/* The bytes must be in the memory. */
void access_read(uint64_t address, uint8_t *into, uint64_t size);
void access_write(uint64_t address, uint8_t *bytes, uint64_t size);

/* How often the interrupt was waited for, and how often it came. */
extern uint64_t interrupt_waits, interrupts;

#endif
