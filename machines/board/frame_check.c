#include "frame_check.h"

#include <string.h>

#include "adapter.h"

static uint32_t table[256];

static uint32_t shifted(uint32_t value)
{
    for (int bit = 0; bit < 8; bit++)
        value = value >> 1 ^ (value & 1 ? 0xEDB88320u : 0);
    return value;
}

static void fill_table(void)
{
    for (uint32_t byte = 0; byte < 256; byte++)
        table[byte] = shifted(byte);
}

uint32_t frame_check(const uint8_t *bytes, uint32_t size)
{
    uint32_t value = ~0u;

    if (table[1] == 0)
        fill_table();
    for (uint32_t at = 0; at < size; at++)
        value = value >> 8 ^ table[(value ^ bytes[at]) & 255];
    return ~value;
}

uint32_t frame_check_add(uint8_t *bytes, uint32_t size)
{
    uint32_t check = frame_check(bytes, size);

    if (adapter_read(RCTL) & RCTL_SECRC)
        return size;
    memcpy(bytes + size, &check, FRAME_CHECK_BYTES);
    return size + FRAME_CHECK_BYTES;
}
