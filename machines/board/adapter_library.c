/* The adapter in this process (docs/LIBRARY.md). */
#include "adapter.h"

#include <nic82540em.h>
#include <string.h>

#include "report.h"

_Static_assert((int)TXTAKE == (int)NIC_TXTAKE && (int)PHY == (int)NIC_PHY, "the numbers of steps");
_Static_assert((int)NOTHING == (int)NIC_NOTHING && (int)FAULT == (int)NIC_FAULT, "the numbers of outcomes");
_Static_assert((int)OFF == (int)NIC_OFF && (int)STORED == (int)NIC_STORED, "the numbers of fates");

static struct nic82540em nic = NIC82540EM_NONE;
static uint8_t *memory;
static uint64_t memory_size;

void adapter_start(const char *program, uint64_t size)
{
    struct nic82540em_options options = NIC82540EM_DEFAULTS;
    void *start = NULL;

    (void)program;
    options.memory = size;
    if (!nic82540em_new(&nic, &options))
        fail("the library refuses an adapter with %llu bytes of memory", (unsigned long long)size);
    memory_size = nic82540em_memory(&nic, &start);
    memory = start;
}

uint32_t adapter_read(uint32_t offset)
{
    return nic82540em_read(&nic, offset);
}

void adapter_write(uint32_t offset, uint32_t value)
{
    nic82540em_write(&nic, offset, value);
}

bool adapter_holds(uint64_t address, uint64_t size)
{
    return address <= memory_size && size <= memory_size - address;
}

void adapter_load(uint64_t address, void *into, uint32_t size)
{
    memcpy(into, memory + address, size);
}

void adapter_store(uint64_t address, const void *bytes, uint32_t size)
{
    memcpy(memory + address, bytes, size);
}

enum outcome adapter_step(enum kind kind)
{
    return (enum outcome)nic82540em_step(&nic, kind);
}

enum fate adapter_arrive(const uint8_t *frame, uint32_t size)
{
    return (enum fate)nic82540em_arrive(&nic, frame, size);
}

uint32_t adapter_take_sent(uint8_t *into)
{
    return (uint32_t)nic82540em_take_put(&nic, into, FRAME_BYTES);
}

bool adapter_line(void)
{
    return nic82540em_line(&nic);
}

uint64_t adapter_requests(void)
{
    return 0;
}
