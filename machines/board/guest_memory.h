/* The guest's memory, as QEMU shares it. */
#ifndef GUEST_MEMORY_H
#define GUEST_MEMORY_H

#include <stdbool.h>
#include <stdint.h>

/* Forgets all areas. */
void guest_memory_clear(void);

/* Adds an area of the guest's memory: its address and size, the file that it is in, and its place in the file. */
void guest_memory_add(uint64_t address, uint64_t size, int file, uint64_t offset);

/* Whether QEMU has shared the guest's memory. */
bool guest_memory_is_known(void);

/* The bytes at an address of the guest, or NULL if some of them aren't in its memory. The guest may write them at any
 * time, so read each of them once. */
uint8_t *guest_at(uint64_t address, uint64_t size);

#endif
