/* Registers of the part that the model doesn't have: the board keeps what a driver writes, and nothing else happens.
 * The table is in kept.c. */
#ifndef KEPT_H
#define KEPT_H

#include <stdbool.h>
#include <stdint.h>

/* Whether the board keeps the register at an offset. */
bool kept_has(uint32_t offset);

uint32_t kept_read(uint32_t offset);
void kept_write(uint32_t offset, uint32_t value);

/* Sets the registers to their values after a reset of the adapter. */
void kept_reset(void);

/* Prints which of the registers were accessed, and how often. */
void kept_end(void);

#endif
