#include "accesses.h"

#include <errno.h>
#include <stdbool.h>
#include <string.h>
#include <time.h>
#include <unistd.h>

#include "function.h"

enum {
    CTRL = 0x0000,
    MDIC = 0x0020,
    ICR = 0x00C0,
    RCTL = 0x0100,
    TIPG = 0x0410,
    RDBAL = 0x2800,
    RDBAH = 0x2804,
    RDLEN = 0x2808,
    RDT = 0x2818,
    TDBAL = 0x3800,
    TDBAH = 0x3804,
    TDLEN = 0x3808,
    RST = 1 << 26,
    ENABLE = 1 << 1,
    MDIC_READY = 1 << 28,
    LINK_UP = 1 << 2,
    PHY_STATUS = 1,
    DESCRIPTOR_BYTES = 16,
    RESET_MS = 10,
    LINK_MS = 5
};

/* The gaps between frames: IPGT 8, IPGR1 8 and IPGR2 6 (13.4.34), as Linux's driver sets them for copper. The proved
 * driver doesn't write TIPG, since the model has no time. */
#define GAPS (8u | 8u << 10 | 6u << 20)

static struct access_options options;
static struct ring {
    uint64_t begin, bytes; /* in the driver's address space */
} receive, transmit;
uint64_t interrupt_waits, interrupts;

void accesses_start(const struct access_options *given)
{
    options = *given;
}

static void pause_for(int milliseconds)
{
    struct timespec left = { milliseconds / 1000, milliseconds % 1000 * 1000000L };

    while (nanosleep(&left, &left) != 0 && errno == EINTR)
        ;
}

static uint32_t read_causes(void)
{
    static uint32_t last = 1;

    if (last == 0 && options.wait > 0) {
        interrupt_waits++;
        interrupts += function.await_interrupt(options.wait);
    }
    last = register_read(ICR);
    return last;
}

/* Whether this value of MDIC answers a read of the PHY's status, and the link is down. The driver doesn't wait between
 * its reads, and gives up after some of them; so the bridge waits. */
static bool is_link_down(uint32_t value)
{
    return (value >> 16 & 0x1F) == PHY_STATUS && value & MDIC_READY && !(value & LINK_UP);
}

uint32_t access_readl(uint32_t offset)
{
    uint32_t value = offset == ICR ? read_causes() : register_read(offset);

    if (offset == MDIC && is_link_down(value))
        pause_for(LINK_MS);
    if (offset == RDBAL || offset == TDBAL)
        return value - (uint32_t)function.bus_address;
    return offset == RDBAH || offset == TDBAH ? 0 : value;
}

/* Writes both registers of a ring's base. The address in the driver's memory becomes a bus address. */
static void write_base(struct ring *ring, uint32_t offset, uint32_t value)
{
    uint64_t base = function.bus_address + value;

    ring->begin = value;
    register_write(offset, (uint32_t)base);
    register_write(offset + 4, (uint32_t)(base >> 32));
}

static void write_tail(uint32_t value)
{
    static uint32_t tail;
    uint32_t count = (uint32_t)(receive.bytes / DESCRIPTOR_BYTES);
    char letter = (char)('A' + (count ? (value + count - tail) % count : 0));

    tail = value;
    register_write(RDT, value);
    if (options.offers >= 0 && write(options.offers, &letter, 1) != 1)
        fail("the number of new descriptors can't be written: %s", strerror(errno));
}

static void reset(uint32_t value)
{
    register_write(CTRL, value);
    pause_for(RESET_MS);
    register_write(TIPG, GAPS);
}

static void write_other(uint32_t offset, uint32_t value)
{
    if (offset == RDLEN)
        receive.bytes = value;
    if (offset == TDLEN)
        transmit.bytes = value;
    register_write(offset, value);
    if (offset == RCTL && value & ENABLE)
        pause_for(options.settle);
}

void access_writel(uint32_t offset, uint32_t value)
{
    __atomic_thread_fence(__ATOMIC_SEQ_CST); /* what was stored in memory is there before a tail */
    if (offset == RDBAL)
        write_base(&receive, offset, value);
    else if (offset == TDBAL)
        write_base(&transmit, offset, value);
    else if ((offset == RDBAH || offset == TDBAH) && value == 0)
        ; /* `write_base` wrote it */
    else if (offset == RDBAH || offset == TDBAH)
        fail("a ring at 0x%x00000000 isn't in the memory", value);
    else if (offset == RDT)
        write_tail(value);
    else if (offset == CTRL && value & RST)
        reset(value);
    else
        write_other(offset, value);
}

static bool is_in(const struct ring *ring, uint64_t address)
{
    return address - ring->begin < ring->bytes;
}

/* Adds `change` to the buffer's address in each complete descriptor of these bytes, up to the first 16 bytes outside
 * the rings. */
static void translate(uint64_t address, uint8_t *bytes, uint64_t size, uint64_t change)
{
    uint64_t buffer;

    for (uint64_t at = 0; change != 0 && at + DESCRIPTOR_BYTES <= size; at += DESCRIPTOR_BYTES) {
        if (!is_in(&receive, address + at) && !is_in(&transmit, address + at))
            return;
        memcpy(&buffer, bytes + at, sizeof buffer);
        buffer += change;
        memcpy(bytes + at, &buffer, sizeof buffer);
    }
}

void access_read(uint64_t address, uint8_t *into, uint64_t size)
{
    const uint8_t *from = function.memory + address;
    uint64_t status;

    if (size == DESCRIPTOR_BYTES && address % sizeof status == 0) {
        status = __atomic_load_n((const uint64_t *)(from + sizeof status), __ATOMIC_ACQUIRE); /* DD before the rest */
        memcpy(into, from, sizeof status);
        memcpy(into + sizeof status, &status, sizeof status);
    } else {
        memcpy(into, from, size);
        __atomic_thread_fence(__ATOMIC_ACQUIRE);
    }
    translate(address, into, size, -function.bus_address);
}

void access_write(uint64_t address, uint8_t *bytes, uint64_t size)
{
    translate(address, bytes, size, function.bus_address);
    memcpy(function.memory + address, bytes, size);
}
