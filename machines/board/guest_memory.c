#include "guest_memory.h"

#include <errno.h>
#include <string.h>
#include <sys/mman.h>

#include "report.h"

enum { MOST_AREAS = 8 }; /* of a message of QEMU */

static struct area {
    uint64_t address, size;
    uint8_t *bytes;
} areas[MOST_AREAS];
static int area_count;

void guest_memory_clear(void)
{
    while (area_count > 0) {
        area_count--;
        munmap(areas[area_count].bytes, areas[area_count].size);
    }
}

void guest_memory_add(uint64_t address, uint64_t size, int file, uint64_t offset)
{
    void *bytes;

    if (area_count == MOST_AREAS)
        fail("QEMU shares too many areas of memory");
    bytes = mmap(NULL, size, PROT_READ | PROT_WRITE, MAP_SHARED, file, (off_t)offset);
    if (bytes == MAP_FAILED)
        fail("the guest's memory at 0x%llx: %s", (unsigned long long)address, strerror(errno));
    areas[area_count++] = (struct area){ address, size, bytes };
}

bool guest_memory_is_known(void)
{
    return area_count > 0;
}

static bool is_inside(const struct area *area, uint64_t address, uint64_t size)
{
    uint64_t offset = address - area->address;

    return address >= area->address && offset <= area->size && size <= area->size - offset;
}

uint8_t *guest_at(uint64_t address, uint64_t size)
{
    for (int number = 0; number < area_count; number++)
        if (is_inside(&areas[number], address, size))
            return areas[number].bytes + (address - areas[number].address);
    return NULL;
}
