#include "kept.h"

#include <inttypes.h>
#include <stdio.h>

#include "report.h"

#define LEDS 0x07068302 /* what the four LEDs show after a reset */

enum { FIRST_STATISTIC = 0x4000, LAST_STATISTIC = 0x40FC, TEXT = 2048 };

/* A register: its bits that keep what was written, its value after a reset, its section of the manual, and the drivers
 * that access it: L Linux, I iPXE, U U-Boot, D DPDK. U-Boot must read SWSM as it wrote it; no driver needs the others
 * to be kept. */
static struct kept {
    uint32_t offset, bits, first;
    const char *name, *section, *drivers;
    uint32_t value;
    uint64_t reads, writes;
} registers[] = {
    { .offset = 0x0018, .bits = 0x00C2CFFF, .name = "CTRL_EXT", .section = "13.4.6", .drivers = "D" },
    { .offset = 0x0028, .bits = 0xFFFFFFFF, .name = "FCAL", .section = "13.4.8", .drivers = "L U D" },
    { .offset = 0x002C, .bits = 0x0000FFFF, .name = "FCAH", .section = "13.4.9", .drivers = "L U D" },
    { .offset = 0x0030, .bits = 0x0000FFFF, .name = "FCT", .section = "13.4.10", .drivers = "L U D" },
    { .offset = 0x0170, .bits = 0x0000FFFF, .name = "FCTTV", .section = "13.4.12", .drivers = "L U D" },
    { .offset = 0x0E00, .bits = 0x8F8F8F8F, .name = "LEDCTL", .section = "13.4.15", .drivers = "L D", .first = LEDS },
    { .offset = 0x00C4, .bits = 0x0000FFFF, .name = "ITR", .section = "13.4.18", .drivers = "L U D" },
    { .offset = 0x2160, .bits = 0x8000FFF8, .name = "FCRTL", .section = "13.4.23", .drivers = "L U D" },
    { .offset = 0x2168, .bits = 0x0000FFF8, .name = "FCRTH", .section = "13.4.24", .drivers = "L U D" },
    { .offset = 0x2820, .bits = 0x0000FFFF, .name = "RDTR", .section = "13.4.30", .drivers = "L" },
    { .offset = 0x282C, .bits = 0x0000FFFF, .name = "RADV", .section = "13.4.31", .drivers = "L" },
    { .offset = 0x0410, .bits = 0x3FFFFFFF, .name = "TIPG", .section = "13.4.34", .drivers = "L U" },
    { .offset = 0x0458, .bits = 0x0000FFFF, .name = "AIT", .section = "13.4.35", .drivers = "L" },
    { .offset = 0x3820, .bits = 0x0000FFFF, .name = "TIDV", .section = "13.4.41", .drivers = "L" },
    { .offset = 0x3828, .bits = 0xFF3F3F3F, .name = "TXDCTL", .section = "13.4.43", .drivers = "L I U D" },
    { .offset = 0x382C, .bits = 0x0000FFFF, .name = "TADV", .section = "13.4.44", .drivers = "L" },
    { .offset = 0x2828, .bits = 0x013F3F3F, .name = "RXDCTL", .section = "13.4.46", .drivers = "I D" },
    { .offset = 0x5000, .bits = 0x000007FF, .name = "RXCSUM", .section = "13.4.47", .drivers = "L D" },
    { .offset = 0x5800, .bits = 0x0000000B, .name = "WUC", .section = "13.6", .drivers = "L U D" },
    { .offset = 0x5808, .bits = 0x000F80FF, .name = "WUFC", .section = "13.6", .drivers = "L" },
    { .offset = 0x5820, .bits = 0xFFFFFFFF, .name = "MANC", .section = "13.6", .drivers = "L U D" },
    { .offset = 0x5B50, .bits = 0x00000003, .name = "SWSM", .section = "later parts", .drivers = "U" },
};

/* All statistics that the model doesn't count */
static struct kept statistics = { .name = "statistics", .section = "13.7", .drivers = "L D" };

enum { COUNT = sizeof registers / sizeof *registers };

/* Whether the model counts a statistic: MPC, GPRC, GPTC and RNBC. */
static bool is_counted(uint32_t offset)
{
    return offset == 0x4010 || offset == 0x4074 || offset == 0x4080 || offset == 0x40A0;
}

static struct kept *kept_at(uint32_t offset)
{
    for (int number = 0; number < COUNT; number++)
        if (registers[number].offset == offset)
            return &registers[number];
    return offset >= FIRST_STATISTIC && offset <= LAST_STATISTIC && !is_counted(offset) ? &statistics : NULL;
}

bool kept_has(uint32_t offset)
{
    return kept_at(offset) != NULL;
}

uint32_t kept_read(uint32_t offset)
{
    struct kept *kept = kept_at(offset);

    kept->reads++;
    return kept->value;
}

void kept_write(uint32_t offset, uint32_t value)
{
    struct kept *kept = kept_at(offset);

    kept->writes++;
    kept->value = value & kept->bits;
}

void kept_reset(void)
{
    for (int number = 0; number < COUNT; number++)
        registers[number].value = registers[number].first;
}

/* Adds a register to a text, if it was accessed: its name, its section of the manual, and its counts. Returns the
 * text's length. */
static size_t put(char *text, size_t used, const struct kept *kept)
{
    if (kept->reads + kept->writes == 0)
        return used;
    return used + (size_t)snprintf(text + used, TEXT - used, " %s (%s) %" PRIu64 "/%" PRIu64, kept->name,
                                   kept->section, kept->reads, kept->writes);
}

void kept_end(void)
{
    char text[TEXT] = "";
    size_t used = 0;

    for (int number = 0; number < COUNT; number++)
        used = put(text, used, &registers[number]);
    put(text, used, &statistics);
    report("registers outside of the model, reads/writes:%s", *text ? text : " none");
}
