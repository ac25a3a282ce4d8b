#include "driver_accesses.h"

#include <errno.h>
#include <string.h>
#include <sys/mman.h>
#include <unistd.h>

#include "../shared/accesses.h"
#include "reached.h"
#include "report.h"
#include "rings.h"
#include "trace.h"

static struct access_log *shared;
static uint64_t collected;
static uint32_t count;

int accesses_start(void)
{
    int file = memfd_create("accesses", 0);

    if (file < 0 || ftruncate(file, sizeof *shared))
        fail("shared memory: %s", strerror(errno));
    shared = mmap(NULL, sizeof *shared, PROT_READ | PROT_WRITE, MAP_SHARED, file, 0);
    if (shared == MAP_FAILED)
        fail("shared memory: %s", strerror(errno));
    return file;
}

static void watch(int number, const struct ring *ring)
{
    shared->rings[number].begin = ring->base;
    shared->rings[number].size = ring->bytes;
}

void accesses_watch(void)
{
    watch(0, &receive_ring);
    watch(1, &transmit_ring);
    shared->is_on = 1;
}

void accesses_begin(void)
{
    accesses_watch();
    collected = shared->written;
    count = 0;
}

void accesses_end(void)
{
    accesses_collect();
    shared->countdown = 0;
    shared->is_on = 0;
}

void accesses_collect(void)
{
    if (shared->written - collected > ACCESS_ROOM)
        fail("the plugin has reported more accesses than there is room for");
    for (; collected < shared->written; collected++) {
        const struct access_record *record = &shared->records[collected % ACCESS_ROOM];

        count++;
        reached_access(site_of_memory(record->instruction));
        trace_memory(record);
    }
}

void accesses_register(bool is_write, uint32_t offset, uint32_t value)
{
    if (shared->is_on) {
        count++;
        reached_access(site_of_register(is_write, offset));
    }
    trace_register(is_write, offset, value);
}

uint32_t accesses_count(void)
{
    return count;
}

void accesses_ask_after(uint32_t further)
{
    shared->countdown = (int32_t)further;
}
