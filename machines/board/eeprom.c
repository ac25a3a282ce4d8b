#include "eeprom.h"

#include <stdbool.h>

#include "adapter.h"
#include "report.h"

enum {
    CLOCK = 1 << 0, /* SK, CS, DI, DO */
    SELECT = 1 << 1,
    DATA_IN = 1 << 2,
    DATA_OUT = 1 << 3,
    REQUEST = 1 << 6,
    GRANT = 1 << 7,
    PRESENT = 1 << 8,
    EERD_START = 1 << 0,
    EERD_DONE = 1 << 4,
    WORDS = 64,
    ADDRESS_BITS = 6,
    READ_COMMAND = 6, /* the start bit, and the operation 10 */
    COMMAND_BITS = 3 + ADDRESS_BITS
};

static uint16_t words[WORDS];
static uint32_t written;       /* the bits of EECD that are kept */
static unsigned command, bits; /* what was shifted in */
static bool is_reading, output;
static uint16_t shifted_out;

static uint16_t word_of(unsigned number)
{
    adapter_write(EERD, number << 8 | EERD_START);
    adapter_step(EEPROM);
    uint32_t value = adapter_read(EERD);
    if (!(value & EERD_DONE))
        fail("the adapter's EEPROM doesn't answer");
    return (uint16_t)(value >> 16);
}

void eeprom_start(void)
{
    for (unsigned number = 0; number < WORDS; number++)
        words[number] = word_of(number);
    adapter_write(CTRL, CTRL_RST);
}

/* At a rising edge of the clock: shifts a bit of the command in, or the next bit of the word out. */
static void shift(bool bit)
{
    if (is_reading) {
        output = shifted_out >> 15;
        shifted_out <<= 1;
        return;
    }
    if (bits == 0 && !bit)
        return; /* before the start bit */
    command = command << 1 | bit;
    if (++bits < COMMAND_BITS)
        return;
    is_reading = command >> ADDRESS_BITS == READ_COMMAND;
    shifted_out = words[command % WORDS];
    output = false; /* a 0 comes before the word */
    command = bits = 0;
}

void eecd_write(uint32_t value)
{
    uint32_t before = written;

    written = value & (CLOCK | SELECT | DATA_IN | REQUEST);
    if (!(written & SELECT) || !(before & SELECT)) {
        command = bits = 0;
        is_reading = false;
    }
    if (written & SELECT && written & CLOCK && !(before & CLOCK))
        shift(written & DATA_IN);
}

uint32_t eecd_read(void)
{
    uint32_t granted = written & REQUEST ? GRANT : 0, data = !is_reading || output ? DATA_OUT : 0;

    return written | PRESENT | granted | data;
}
