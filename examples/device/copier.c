/* The model of the device: what the search needs to know. All its state is in static variables: the explorer saves and
 * compares them, as it does those of the test. */
#include "copier.h"
#include <stdio.h>
#include <string.h>

enum { MEMORY = 1 << 16, MOST_BYTES = 4096 };
enum { FETCH, COPY, FINISH, STEPS };
static const char *const steps[STEPS] = { "fetch", "copy", "finish" };
static const unsigned engines[STEPS] = { 0, 0, 0 }; /* one engine takes all steps */

static struct {
    uint32_t base, slots, head, tail, control, cause, mask;
    struct copier_descriptor work; /* the descriptor that was fetched */
    uint32_t at;                   /* its slot */
    bool has_work, is_copied;
} now;

static void reset(void)
{
    memset(&now, 0, sizeof now);
}

/* The bytes of the host's memory, or NULL if some of them are outside of it */
static uint8_t *host(uint64_t address, uint64_t count)
{
    uint64_t size;
    uint8_t *all = x_host(&size);

    return address <= size && count <= size - address ? all + address : NULL;
}

static unsigned possible(void)
{
    if (!(now.control & COPIER_ENABLE))
        return 0;
    if (now.has_work)
        return now.is_copied ? 1u << FINISH : 1u << COPY;
    return now.slots && now.head != now.tail ? 1u << FETCH : 0;
}

static const char *fetch(void)
{
    const uint8_t *bytes = host(now.base + (uint64_t)now.head * sizeof now.work, sizeof now.work);

    if (!bytes) {
        now.cause |= COPIER_BAD, now.control &= ~(uint32_t)COPIER_ENABLE;
        return "bad ring";
    }
    memcpy(&now.work, bytes, sizeof now.work);
    now.at = now.head, now.head = (now.head + 1) % now.slots;
    now.has_work = true, now.is_copied = false;
    return "fetched";
}

static const char *copy(void)
{
    const uint8_t *from = host(now.work.from, now.work.length);
    uint8_t *to = host(now.work.to, now.work.length);

    now.is_copied = true;
    if (!from || !to || now.work.length > MOST_BYTES) {
        now.work.status = COPIER_BAD;
        return "bad descriptor";
    }
    memmove(to, from, now.work.length);
    now.work.status = COPIER_DONE;
    return "copied";
}

static const char *finish(void)
{
    uint8_t *bytes = host(now.base + (uint64_t)now.at * sizeof now.work, sizeof now.work);

    if (bytes)
        memcpy(bytes + offsetof(struct copier_descriptor, status), &now.work.status, sizeof now.work.status);
    now.cause |= now.work.status;
    now.has_work = false, memset(&now.work, 0, sizeof now.work), now.at = 0;
    return "finished";
}

static const char *step(unsigned kind)
{
    return kind == FETCH ? fetch() : kind == COPY ? copy() : finish();
}

static uint32_t *stored(uint32_t offset)
{
    switch (offset) {
    case COPIER_BASE:
        return &now.base;
    case COPIER_SLOTS:
        return &now.slots;
    case COPIER_HEAD:
        return &now.head;
    case COPIER_TAIL:
        return &now.tail;
    case COPIER_CONTROL:
        return &now.control;
    case COPIER_CAUSE:
        return &now.cause;
    case COPIER_MASK:
        return &now.mask;
    default:
        return NULL;
    }
}

static uint32_t read_register(uint32_t offset)
{
    uint32_t *at = stored(offset), value = at ? *at : 0;

    if (offset == COPIER_CAUSE)
        now.cause = 0;
    return value;
}

static void write_register(uint32_t offset, uint32_t value)
{
    uint32_t *at = stored(offset);

    if (offset == COPIER_CONTROL && value & COPIER_RESET)
        reset();
    else if (at && offset != COPIER_HEAD && offset != COPIER_CAUSE)
        *at = value;
}

/* The slots of the ring, if the driver puts it at RING */
static const char *name_memory(uint64_t address)
{
    static char name[24];
    uint64_t from = address - COPIER_RING;

    if (address < COPIER_RING || from >= 16 * sizeof now.work)
        return NULL;
    snprintf(name, sizeof name, from % 16 ? "ring[%u]+%u" : "ring[%u]", (unsigned)(from / 16), (unsigned)(from % 16));
    return name;
}

static bool line(void)
{
    return now.cause & now.mask;
}

static const char *name(uint32_t offset)
{
    static const char *const names[] = { "BASE", "SLOTS", "HEAD", "TAIL", "CONTROL", "CAUSE", "MASK" };

    return offset % 4 == 0 && offset / 4 < sizeof names / sizeof *names ? names[offset / 4] : NULL;
}

const struct x_device copier = {
    .name = "copier", .memory = MEMORY, .kinds = STEPS, .steps = steps, .engines = engines, .reset = reset,
    .possible = possible, .step = step, .read = read_register, .write = write_register, .line = line, .name_of = name,
    .name_memory = name_memory
};
