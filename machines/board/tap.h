/* The wire's other end on this host: a TAP device, whose address is 10.0.0.2/24. */
#ifndef TAP_H
#define TAP_H

#include <stdbool.h>
#include <stdint.h>

/* Makes the device and sets its address. The caller must be in a network namespace of its own. */
void tap_start(const char *name);

/* The descriptor of the device, or -1. */
int tap_descriptor(void);

/* Reads one frame of the host. Returns false if there is none. */
bool tap_read(void);

/* Passes a frame to the host. Returns true. */
bool tap_write(const uint8_t *frame, uint32_t size);

#endif
