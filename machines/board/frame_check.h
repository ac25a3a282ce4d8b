/* The FCS of frames. While RCTL.SECRC is clear, an 82540EM passes the FCS on to memory (13.4.22 of the manual); the
 * model has no FCS. */
#ifndef FRAME_CHECK_H
#define FRAME_CHECK_H

#include <stdint.h>

enum { FRAME_CHECK_BYTES = 4 };

/* The FCS of a frame (CRC-32 of IEEE 802.3). */
uint32_t frame_check(const uint8_t *bytes, uint32_t size);

/* Adds the FCS to a frame that is about to arrive, if the adapter passes it on. Returns the size of the frame. */
uint32_t frame_check_add(uint8_t *bytes, uint32_t size);

#endif
