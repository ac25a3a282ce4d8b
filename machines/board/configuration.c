#include "configuration.h"

#include <stdbool.h>
#include <string.h>

#include "adapter.h"
#include "io_window.h"

enum {
    SPACE = 256,
    COMMAND_REGISTER = 0x04,
    LINE_SIZE = 0x0C,
    LATENCY = 0x0D,
    BAR_REGISTERS = 0x10,
    BAR_WINDOW = 0x14,
    BAR_ROM = 0x30,
    STATUS_REGISTER = 0x06,
    STATUS_INTERRUPT = 1 << 3,
    NO_INTERRUPT = 1 << 2, /* in the second byte of the command */
    ROM_ENABLE = 1,
    LEAST_ROM = 2048,
    SUBSYSTEM = 0x2C,
    INTERRUPT_LINE = 0x3C,
    INTERRUPT_PIN = 0x3D,
    IS_WINDOW = 1 /* the lowest bit of a BAR of I/O */
};

static uint8_t space[SPACE];
static uint8_t writable[SPACE]; /* the bits that a write changes */

static void put(uint8_t *bytes, uint32_t value)
{
    for (int number = 0; number < 4; number++)
        bytes[number] = (uint8_t)(value >> 8 * number);
}

static uint32_t word_at(uint32_t offset)
{
    return configuration_read(offset, 4);
}

void configuration_start(uint64_t rom)
{
    uint32_t size = LEAST_ROM;

    for (; rom > 0 && size < rom; size *= 2)
        ;
    if (rom > 0)
        put(writable + BAR_ROM, ~(size - 1) | ROM_ENABLE);
    put(space, 0x100E8086);
    put(space + 0x08, 0x02000002); /* an Ethernet controller, revision 2 */
    put(space + SUBSYSTEM, 0x001E8086);
    space[INTERRUPT_PIN] = 1;
    space[BAR_WINDOW] = IS_WINDOW;
    memset(writable + COMMAND_REGISTER, 0xFF, 2);
    writable[LINE_SIZE] = writable[LATENCY] = writable[INTERRUPT_LINE] = 0xFF;
    put(writable + BAR_REGISTERS, ~(REGISTER_BYTES - 1u));
    put(writable + BAR_WINDOW, ~(WINDOW_BYTES - 1u));
}

uint32_t configuration_read(uint32_t offset, uint32_t size)
{
    uint32_t value = 0;

    for (uint32_t number = 0; number < size && number < 4; number++)
        if (offset < SPACE - number)
            value |= (uint32_t)space[offset + number] << 8 * number;
    return value;
}

void configuration_write(uint32_t offset, uint32_t value, uint32_t size)
{
    for (uint32_t number = 0; number < size && number < 4 && offset < SPACE - number; number++) {
        uint8_t mask = writable[offset + number], byte = (uint8_t)(value >> 8 * number);

        space[offset + number] = (space[offset + number] & ~mask) | (byte & mask);
    }
}

uint32_t configuration_registers(void)
{
    return word_at(BAR_REGISTERS);
}

uint32_t configuration_window(void)
{
    return word_at(BAR_WINDOW) & ~3u;
}

bool configuration_disables_interrupt(void)
{
    return space[COMMAND_REGISTER + 1] & NO_INTERRUPT;
}

void configuration_set_interrupt(bool level)
{
    space[STATUS_REGISTER] = level ? STATUS_INTERRUPT : 0;
}

uint32_t configuration_interrupt(void)
{
    return space[INTERRUPT_LINE];
}
