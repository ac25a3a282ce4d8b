#include "internet_checksum.h"

uint16_t internet_checksum(const uint8_t *bytes, uint32_t size, uint32_t sum)
{
    for (uint32_t at = 0; at + 1 < size; at += 2)
        sum += (uint32_t)bytes[at] << 8 | bytes[at + 1];
    if (size & 1)
        sum += (uint32_t)bytes[size - 1] << 8;
    sum = (sum & 0xFFFF) + (sum >> 16);
    sum = (sum & 0xFFFF) + (sum >> 16);
    return (uint16_t)~sum;
}
