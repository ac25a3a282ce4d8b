#ifndef INTERNET_CHECKSUM_H
#define INTERNET_CHECKSUM_H

#include <stdint.h>

/* The Internet checksum (RFC 1071) of these bytes. `sum` is the sum of the words before them that it covers, or 0. */
uint16_t internet_checksum(const uint8_t *bytes, uint32_t size, uint32_t sum);

#endif
