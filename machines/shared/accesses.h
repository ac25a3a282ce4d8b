/* Memory that the board shares with the plugin. In it the plugin reports the driver's accesses to the rings. A step of
 * the adapter uses only the rings, and the buffers of offered slots. No steps are played between two accesses of the
 * driver to memory outside of the rings.
 */
#ifndef ACCESSES_H
#define ACCESSES_H

#include <stdint.h>

/* A load or a store of the driver in a ring. */
struct access_record {
    uint64_t instruction; /* the address of the instruction */
    uint64_t address;     /* in the guest's physical memory */
    uint64_t value;       /* after the access; 0 if it isn't known */
    uint32_t size;        /* in bytes */
    uint32_t is_store;
};

enum { ACCESS_ROOM = 1 << 16, ACCESS_RINGS = 2 };

struct access_log {
    volatile int32_t countdown; /* after this number of accesses, the plugin asks the board; 0: it doesn't ask */
    volatile uint32_t is_on;    /* whether accesses are recorded */
    volatile struct {
        uint64_t begin, size; /* in the guest's physical memory */
    } rings[ACCESS_RINGS];
    volatile uint64_t written; /* the number of records so far; record N is at N % ACCESS_ROOM */
    struct access_record records[ACCESS_ROOM];
};

#endif
