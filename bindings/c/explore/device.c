/* The device that is searched: the 82540EM (nic.c), or another one that the test gives (x_use). */
#include "inside.h"
#include <string.h>

#define S xi_state

enum { MOST_MEMORY = 1 << 24 };
const struct x_device *xi_device = &xi_nic;
unsigned xi_clocks, xi_clock[CLOCKS];

void x_use(const struct x_device *device)
{
    xi_device = device;
}

bool xi_is_nic(void)
{
    return xi_device == &xi_nic;
}

/* The two steps of a pair have one actor: else the search would leave something out. */
static void check_pair(const struct x_device *one, const struct x_pair *pair)
{
    if (!pair->name)
        return;
    if (pair->first >= one->kinds || pair->second >= one->kinds)
        xi_die("x_use: a pair of the device isn't one of its kinds of steps");
    if (one->engines[pair->first] != one->engines[pair->second] ||
        (one->clocks >> pair->first ^ one->clocks >> pair->second) & 1)
        xi_die("x_use: a pair of the device has steps of two engines, or one of a clock");
}

/* Ends the program if the description of the device is wrong. */
static void check(const struct x_device *one)
{
    unsigned clocks = 0;

    if (!one || !one->name || !one->steps || !one->engines || !one->reset || !one->possible || !one->step ||
        !one->read || !one->write || !one->line)
        xi_die("x_use: the device has no name, or one of its functions or lists isn't there");
    if (!one->kinds || one->kinds > X_KINDS || (one->kinds < X_KINDS && one->clocks >> one->kinds))
        xi_die("x_use: the device has no kinds of steps, more than 8, or clocks that aren't kinds of its steps");
    for (unsigned n = 0; n < one->kinds; n++)
        if (!one->steps[n] || one->engines[n] >= X_KINDS)
            xi_die("x_use: a kind of the device's steps has no name, or a number of an engine above 7");
        else
            clocks += one->clocks >> n & 1;
    if (clocks > CLOCKS)
        xi_die("x_use: the device has more than two clocks");
    if (one->memory > MOST_MEMORY)
        xi_die("x_use: the host has more than 16 MiB of memory");
    for (int n = 0; n < PAIRS; n++)
        check_pair(one, &one->pairs[n]);
}

/* Takes the actions from the device. */
void xi_know_device(void)
{
    check(xi_device);
    xi_clocks = 0;
    for (unsigned n = 0; n < xi_device->kinds; n++)
        if (xi_is_clock((int)n))
            xi_clock[xi_clocks++] = n;
    xi_know_actions();
}

/* Begins a run with the device as after power on, and memory of zeros. */
void xi_start_device(void)
{
    if (!xi_is_nic()) {
        struct tried memory = rattle_alloc(xi_device->memory, 4096);
        if (!memory.ok)
            xi_die("memory is refused");
        S->host = memset(memory.block, 0, xi_device->memory);
        xi_reads_dead = true; /* its rings aren't known */
    }
    xi_device->reset();
}

/* The digest of the device without the host's memory. The state of another device than the 82540EM is in memory that is
 * compared. */
struct digest xi_device_digest(void)
{
    if (!xi_is_nic())
        return (struct digest){ 0, 0 };
    return (struct digest){ nic82540em_state_digest(&S->nic, 1), nic82540em_state_digest(&S->nic, 2) };
}

uint8_t *xi_host(uint64_t *size)
{
    void *at = S->host;

    *size = xi_is_nic() ? nic82540em_memory(&S->nic, &at) : xi_device->memory;
    return at;
}

static bool has(uint64_t address, size_t count)
{
    return address <= xi_device->memory && count <= xi_device->memory - address;
}

bool xi_load(uint64_t address, void *into, size_t count)
{
    if (xi_is_nic())
        return nic82540em_load(&S->nic, address, into, count);
    if (has(address, count))
        memcpy(into, S->host + address, count);
    return has(address, count);
}

bool xi_store(uint64_t address, const void *bytes, size_t count)
{
    if (xi_is_nic())
        return nic82540em_store(&S->nic, address, bytes, count);
    if (has(address, count))
        memcpy(S->host + address, bytes, count);
    return has(address, count);
}

/* The name of a register, such as ICR */
const char *xi_register(uint32_t offset)
{
    static char other[32];
    const char *name = xi_device->name_of ? xi_device->name_of(offset) : NULL;

    if (name)
        return name;
    snprintf(other, sizeof other, "register[%#x]", offset);
    return other;
}

/* The device's name of bytes of memory, or NULL */
const char *xi_memory_name(uint64_t address)
{
    return xi_device->name_memory ? xi_device->name_memory(address) : NULL;
}
