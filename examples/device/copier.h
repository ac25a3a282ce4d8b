/* A device that copies memory: its registers, its descriptors, and the model of it for the explorer.
 *
 * A ring of descriptors is in the host's memory. The device takes those from HEAD up to, but not including, TAIL. It
 * fetches a descriptor, copies the bytes, writes the descriptor's status, and raises the cause DONE. The interrupt line is
 * asserted while a cause is set that isn't masked.
 */
#ifndef COPIER_H
#define COPIER_H

#include <nic82540em_explore.h>

/* Registers, each of 32 bits. A write of CONTROL with RESET sets all registers to 0. */
enum {
    COPIER_BASE = 0x00,    /* the address of the ring: a multiple of 16 */
    COPIER_SLOTS = 0x04,   /* the number of its slots */
    COPIER_HEAD = 0x08,    /* the slot that the device fetches next; it can't be written */
    COPIER_TAIL = 0x0C,    /* the slot after the last one that the driver has offered */
    COPIER_CONTROL = 0x10, /* ENABLE, RESET */
    COPIER_CAUSE = 0x14,   /* DONE, BAD; a read sets it to 0 */
    COPIER_MASK = 0x18     /* causes that assert the line */
};
enum { COPIER_ENABLE = 1, COPIER_RESET = 2 }; /* bits of CONTROL */
enum { COPIER_DONE = 1, COPIER_BAD = 2 };     /* bits of CAUSE, MASK and of a descriptor's status */

struct copier_descriptor {
    uint32_t from, to, length, status; /* addresses and bytes; the status is 0 when the driver offers the descriptor */
};

enum { COPIER_RING = 0x1000 }; /* where drivers put the ring, so that schedules name its slots */

extern const struct x_device copier;

#endif
