#include "mapped.h"
#include <adapter.h>
#include <report.h>
#include <nic82540em_explore.h>
#include <stdio.h>
#include <stdlib.h>

enum { SWSM = 0x5B50, SWSM_BITS = 3 };
static uint32_t window, semaphores; /* IOADDR; SWSM */

/* What the EEPROM of machines/board uses. Its step is taken before each access. */
enum outcome adapter_step(enum kind kind)
{
    (void)kind;
    return NOTHING;
}

void fail(const char *form, ...)
{
    fprintf(stderr, "%s\n", form);
    abort();
}

static uint32_t offset_of(const volatile void *at)
{
    return (uint32_t)((uintptr_t)at - (uintptr_t)MAPPED_REGISTERS);
}

uint32_t readl(const volatile void *at)
{
    if (offset_of(at) == SWSM)
        return semaphores;
    return offset_of(at) == EECD ? eecd_read() : x_read(offset_of(at));
}

void writel(uint32_t value, volatile void *at)
{
    if (offset_of(at) == EECD)
        eecd_write(value);
    else if (offset_of(at) == SWSM)
        semaphores = value & SWSM_BITS;
    else
        x_write(offset_of(at), value);
}

void outl(uint32_t value, unsigned long port)
{
    if (port & 4)
        writel(value, (uint8_t *)MAPPED_REGISTERS + window);
    else
        window = value;
}
