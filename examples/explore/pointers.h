/* A small receive driver with pointers, and the registers that it uses. */
#ifndef POINTERS_H
#define POINTERS_H
#include <stdbool.h>
#include <stdint.h>

enum { RECEIVE_SLOTS = 8, RECEIVE_BUFFER = 2048 };

struct receive_descriptor {
    uint64_t address;
    uint16_t length, checksum;
    uint8_t status, errors;
    uint16_t special;
};

struct receiver {
    volatile struct receive_descriptor *ring;
    uint8_t *buffers;
    unsigned next;
    bool is_late;
    void (*deliver)(const uint8_t *frame, unsigned length);
};

/* `memory` is the host's memory: the ring is at 0x1000, and the buffers are at 0x10000. */
void receiver_begin(struct receiver *receiver, uint8_t *memory);
void receiver_interrupt(struct receiver *receiver);

/* The test defines these. */
uint32_t register_read(uint32_t offset);
void register_write(uint32_t offset, uint32_t value);

#endif
