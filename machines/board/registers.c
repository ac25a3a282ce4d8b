#include "registers.h"

#include "../shared/rounds.h"
#include "adapter.h"
#include "dma.h"
#include "driver_accesses.h"
#include "echo_rounds.h"
#include "eeprom.h"
#include "kept.h"
#include "rings.h"
#include "steps.h"
#include "sweep.h"

#define CTRL_PHY_RST (1u << 31)
#define NEGOTIATE 0x04201200u /* MDIC: a write of register 0, with autonegotiation enabled and restarted */

struct register_counts register_counts;

/* The part's PHY negotiates by itself after power-on and after a reset of the PHY. The model's PHY waits for a
 * driver. */
void registers_negotiate(void)
{
    adapter_write(MDIC, NEGOTIATE);
    while (adapter_step(PHY) != NOTHING)
        ;
}

/* Counts an access, and the register if this is its first access. */
static void count(uint64_t *accesses, uint32_t offset)
{
    static bool seen[REGISTER_BYTES / 4];

    ++*accesses;
    register_counts.different += !seen[offset / 4];
    seen[offset / 4] = true;
}

static uint32_t read_register(uint32_t offset)
{
    if (offset == EECD)
        return eecd_read();
    return kept_has(offset) ? kept_read(offset) : adapter_read(offset);
}

uint32_t registers_read(uint32_t offset)
{
    uint32_t value;

    if (offset >= BOARD_REGISTERS)
        return sweep_read(offset);
    sweep_point(AT_REGISTER);
    steps_tick();
    value = read_register(offset);
    count(&register_counts.reads, offset);
    accesses_register(false, offset, value);
    sweep_point(AT_REGISTER);
    echo_point(AT_ECHO_REGISTER);
    return value;
}

static void write_register(uint32_t offset, uint32_t value)
{
    adapter_write(offset, value);
    if (offset == CTRL && value & CTRL_PHY_RST)
        registers_negotiate();
    if (offset == CTRL && value & CTRL_RST) {
        dma_reset();
        kept_reset();
        echo_reset();
    } else {
        rings_written(offset);
    }
    steps_written(offset);
}

static void write_any(uint32_t offset, uint32_t value)
{
    if (offset == EECD)
        eecd_write(value);
    else if (kept_has(offset))
        kept_write(offset, value);
    else
        write_register(offset, value);
}

void registers_write(uint32_t offset, uint32_t value)
{
    if (offset >= BOARD_REGISTERS) {
        sweep_write(offset, value);
        return;
    }
    sweep_point(AT_REGISTER);
    steps_tick();
    write_any(offset, value);
    count(&register_counts.writes, offset);
    accesses_register(true, offset, value);
    sweep_point(AT_REGISTER);
    echo_point(AT_ECHO_REGISTER);
}

void registers_reset(void)
{
    write_register(CTRL, CTRL_RST);
    registers_negotiate();
}
