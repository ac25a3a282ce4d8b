/* Clears what a run leaves behind and nobody should use again: states that differ only in such bytes become the same.
 *
 * A search sets to 0 the counters of frames, and the buffers of offered receive descriptors. It also sets to 0 the
 * transmit descriptors that are done, but for their addresses and statuses, and the buffers of their frames. The search
 * notes where the bytes are. If a run reads a counter, or a noted byte that wasn't written since, this counter or byte
 * is used: xi_dead_used counts such events. The search begins again, and no longer clears the counter, nor bytes at the
 * same offset of any slot or buffer of the ring. If x_host is called, or there is no room for what is used,
 * xi_reads_dead becomes true, and nothing is cleared. So in a search that doesn't begin again, each run has gone as it
 * would without this file.
 *
 * The adapter reads the host's memory in two steps only: txtake reads the descriptor at TDH and its frame, and rxdata
 * the descriptor at RDH.
 */
#include "inside.h"
#include <string.h>

#define B xi_book
#define S xi_state

enum { MOST_SLOTS = 32, LARGEST_BUFFER = 2048, DESCRIPTOR = 16, STATUS = 12, MOST_USED = 512, COUNTERS = 3 };
bool xi_reads_dead, xi_searches;
unsigned xi_dead_used;
static uint32_t at_head; /* the address of the descriptor from which a step takes its work, or 0 */
static uint64_t head_buffer; /* the address in this descriptor */
static const uint32_t counters[COUNTERS] = { NIC_GPRC, NIC_GPTC, NIC_RNBC };
static bool is_counter_used[COUNTERS];
static struct area used[MOST_USED]; /* bytes that runs have read, and that aren't cleared */
static unsigned used_count;

/* The bytes of an area, or NULL if some are outside of memory */
static uint8_t *bytes_at(uint64_t address, uint64_t count)
{
    uint64_t size;
    uint8_t *all = xi_host(&size);

    return address < size && count <= size - address ? all + address : NULL;
}

static uint32_t peek(uint32_t offset)
{
    uint32_t value = 0;

    nic82540em_peek(&S->nic, offset, &value);
    return value;
}

/* Areas that are noted */

static bool meets(const struct area *area, uint64_t address, uint64_t count)
{
    return address < (uint64_t)area->at + area->size && area->at < address + count;
}

static void remove_area(unsigned n)
{
    memmove(S->dead + n, S->dead + n + 1, (--S->dead_count - n) * sizeof *S->dead);
    S->dead[S->dead_count] = (struct area){ 0, 0 };
}

static void insert_area(unsigned n, uint64_t from, uint64_t to)
{
    memmove(S->dead + n + 1, S->dead + n, (S->dead_count++ - n) * sizeof *S->dead);
    S->dead[n] = (struct area){ (uint32_t)from, (uint32_t)(to - from) };
}

/* Removes written bytes from the noted areas. If the table has no room to split an area, the whole area remains noted.
 */
void xi_dead_written(uint64_t address, uint64_t count)
{
    uint64_t end = address + count;

    for (unsigned n = S->dead_count; n-- > 0;) {
        uint64_t from = S->dead[n].at, to = from + S->dead[n].size;
        bool is_split = from < address && end < to;
        if (!meets(&S->dead[n], address, count) || (is_split && S->dead_count == MOST_AREAS))
            continue;
        remove_area(n);
        if (end < to)
            insert_area(n, end, to);
        if (from < address)
            insert_area(n, from, address);
    }
}

static bool is_noted(uint64_t address)
{
    for (unsigned n = 0; n < S->dead_count; n++)
        if (meets(&S->dead[n], address, 1))
            return true;
    return false;
}

/* Sets unused bytes to 0, and notes them. Areas that touch become one. */
static void note_unused(uint64_t from, uint64_t to)
{
    unsigned at = 0;

    if (from >= to || S->dead_count == MOST_AREAS)
        return;
    for (unsigned n = S->dead_count; n-- > 0;) {
        uint64_t begin = S->dead[n].at, end = begin + S->dead[n].size;
        if (begin <= from && to <= end)
            return;
    }
    memset(bytes_at(from, to - from), 0, to - from);
    for (unsigned n = S->dead_count; n-- > 0;) {
        uint64_t begin = S->dead[n].at, end = begin + S->dead[n].size;
        if (begin <= to && from <= end) {
            from = begin < from ? begin : from, to = end > to ? end : to;
            remove_area(n);
        }
    }
    while (at < S->dead_count && S->dead[at].at < from)
        at++;
    insert_area(at, from, to);
}

/* Nobody should read these bytes before they are written: sets them to 0, and notes them, except those that are used.
 * Does nothing if some of the bytes are outside memory, or are those of a piece whose descriptor isn't written back. */
static void note(uint64_t address, uint64_t count)
{
    uint64_t end = address + count;

    if (!bytes_at(address, count) || (S->filling && address < S->filled + LARGEST_BUFFER && S->filled < end))
        return;
    while (address < end) {
        uint64_t to = end, next = end;
        for (unsigned n = 0; n < used_count; n++)
            if (meets(&used[n], address, to - address)) {
                uint64_t begin = used[n].at, after = begin + used[n].size;
                to = begin > address ? begin : address, next = after;
            }
        note_unused(address, to);
        address = next > to ? next : to;
    }
}

/* Rings */

struct ring {
    uint64_t at;
    unsigned slots, head, tail;
};

static struct ring ring_of(bool sends)
{
    uint32_t from = sends ? NIC_TDBAL - NIC_RDBAL : 0; /* the registers of both rings have the same order */
    uint64_t at = peek(from + NIC_RDBAL) | (uint64_t)peek(from + NIC_RDBAH) << 32;

    return (struct ring){ at, peek(from + NIC_RDLEN) / DESCRIPTOR, peek(from + NIC_RDH), peek(from + NIC_RDT) };
}

static bool is_small(const struct ring *ring)
{
    return ring->slots && ring->slots <= MOST_SLOTS && ring->head < ring->slots && ring->tail < ring->slots;
}

static bool is_offered(const struct ring *ring, unsigned slot)
{
    return (slot + ring->slots - ring->head) % ring->slots < (ring->tail + ring->slots - ring->head) % ring->slots;
}

static uint64_t address_in(const uint8_t *descriptor)
{
    uint64_t address;

    memcpy(&address, descriptor, sizeof address);
    return address;
}

static unsigned length_in(const uint8_t *descriptor)
{
    return descriptor[8] | (unsigned)descriptor[9] << 8;
}

/* The end of a buffer at an address: the least higher address in a descriptor of this ring, but at most `end` */
static uint64_t end_of_buffer(const struct ring *ring, uint64_t address, uint64_t end)
{
    for (unsigned slot = 0; slot < ring->slots; slot++) {
        const uint8_t *descriptor = bytes_at(ring->at + DESCRIPTOR * slot, DESCRIPTOR);
        uint64_t other = descriptor ? address_in(descriptor) : 0;
        if (address < other && other < end)
            end = other;
    }
    return end;
}

/* Whether an offered descriptor of this transmit ring names this address */
static bool is_to_be_sent(const struct ring *ring, uint64_t address)
{
    for (unsigned slot = 0; slot < ring->slots; slot++) {
        const uint8_t *descriptor = bytes_at(ring->at + DESCRIPTOR * slot, DESCRIPTOR);
        if (descriptor && is_offered(ring, slot) && address_in(descriptor) == address)
            return true;
    }
    return false;
}

/* Notes the descriptors that are done, but for their addresses and statuses, and up to 1,518 bytes of the buffers of
 * their frames */
static void note_transmit(void)
{
    struct ring ring = ring_of(true);

    for (unsigned slot = 0; is_small(&ring) && slot < ring.slots; slot++) {
        uint64_t at = ring.at + DESCRIPTOR * slot, address;
        const uint8_t *descriptor = bytes_at(at, DESCRIPTOR);
        if (!descriptor || is_offered(&ring, slot) || !(descriptor[STATUS] & NIC_TXD_DD) || is_noted(at + 8))
            continue; /* if it is noted already, the driver may fill the buffer again */
        address = address_in(descriptor);
        if (!is_to_be_sent(&ring, address))
            note(address, end_of_buffer(&ring, address, address + LONGEST) - address);
        note(at + 8, STATUS - 8), note(at + STATUS + 1, DESCRIPTOR - STATUS - 1);
    }
}

/* Notes the buffers of the offered receive descriptors. */
static void note_receive(void)
{
    struct ring ring = ring_of(false);
    uint64_t size = 2048 >> (peek(NIC_RCTL) >> 16 & 3);

    for (unsigned slot = 0; is_small(&ring) && slot < ring.slots; slot++) {
        const uint8_t *descriptor = bytes_at(ring.at + DESCRIPTOR * slot, DESCRIPTOR);
        if (descriptor && is_offered(&ring, slot))
            note(address_in(descriptor), size);
    }
}

/* Sets what nobody should use again to 0, in a search, unless a run has read it. */
void xi_clear_dead(void)
{
    uint64_t accesses = nic82540em_accesses(&S->nic);

    if (xi_reads_dead || !xi_searches)
        return;
    for (size_t n = 0; !B->knows_digest && n < COUNTERS; n++)
        if (!is_counter_used[n])
            nic82540em_read(&S->nic, counters[n]);
    nic82540em_recount(&S->nic, accesses);
    note_transmit(), note_receive();
}

/* What runs read and write */

/* From now on, searches don't clear these bytes. */
static void use(uint64_t address, uint64_t count)
{
    for (unsigned n = 0; n < used_count; n++)
        if (used[n].at <= address && address + count <= (uint64_t)used[n].at + used[n].size)
            return;
    if (!bytes_at(address, count))
        return;
    if (used_count == MOST_USED)
        xi_reads_dead = true;
    else
        used[used_count++] = (struct area){ (uint32_t)address, (uint32_t)count };
    xi_dead_used++;
}

/* The address of the buffer of this ring that has a byte; 0 if there is none */
static uint64_t buffer_with(const struct ring *ring, uint64_t address)
{
    uint64_t found = 0;

    for (unsigned slot = 0; slot < ring->slots; slot++) {
        const uint8_t *descriptor = bytes_at(ring->at + DESCRIPTOR * slot, DESCRIPTOR);
        uint64_t at = descriptor ? address_in(descriptor) : 0;
        if (at <= address && address - at < LARGEST_BUFFER && at > found)
            found = at;
    }
    return found;
}

/* A run has read noted bytes: from now on, these aren't cleared, nor those at the same offset of other slots or
 * buffers. */
static void use_alike(uint64_t address, uint64_t count)
{
    use(address, count);
    for (int sends = 0; sends < 2; sends++) {
        struct ring ring = ring_of(sends);
        uint64_t buffer, size = (uint64_t)ring.slots * DESCRIPTOR;
        if (!is_small(&ring))
            continue;
        buffer = buffer_with(&ring, address);
        for (unsigned slot = 0; slot < ring.slots; slot++) {
            const uint8_t *descriptor = bytes_at(ring.at + DESCRIPTOR * slot, DESCRIPTOR);
            if (address - ring.at < size)
                use(ring.at + DESCRIPTOR * slot + (address - ring.at) % DESCRIPTOR, count);
            else if (descriptor && buffer)
                use(address_in(descriptor) + (address - buffer), count);
        }
    }
}

/* The driver or the adapter reads bytes. */
void xi_dead_read(uint64_t address, uint64_t count)
{
    for (unsigned n = 0; n < S->dead_count; n++)
        if (meets(&S->dead[n], address, count)) {
            uint64_t begin = S->dead[n].at, end = begin + S->dead[n].size;
            uint64_t from = begin > address ? begin : address, to = end < address + count ? end : address + count;
            use_alike(from, to - from);
        }
}

void xi_dead_register(uint32_t offset)
{
    for (size_t n = 0; n < COUNTERS; n++)
        if (offset == counters[n] && !is_counter_used[n])
            is_counter_used[n] = true, xi_dead_used++;
}

/* Before a step: notes what the step reads. */
void xi_dead_before(uint32_t kind)
{
    struct ring ring;
    const uint8_t *descriptor;
    uint64_t at;

    at_head = 0;
    if (kind != NIC_TXTAKE && kind != NIC_RXDATA)
        return;
    ring = ring_of(kind == NIC_TXTAKE), at = ring.at + DESCRIPTOR * (uint64_t)ring.head;
    descriptor = bytes_at(at, DESCRIPTOR);
    if (!descriptor || ring.head == ring.tail)
        return;
    xi_dead_read(at, DESCRIPTOR);
    if (kind == NIC_TXTAKE)
        xi_dead_read(address_in(descriptor), length_in(descriptor));
    at_head = (uint32_t)at, head_buffer = address_in(descriptor);
}

/* After a step. The bytes of a piece count as written when the piece's descriptor, which then has its length, is
 * written back. Their address is that of the descriptor when the piece was moved: the driver may change it later. */
void xi_dead_after(uint32_t kind, uint32_t outcome)
{
    const uint8_t *descriptor = S->filling ? bytes_at(S->filling - 1, DESCRIPTOR) : NULL;

    if (kind == NIC_RXDATA && (outcome == NIC_PART || outcome == NIC_MOVED))
        S->filling = at_head + 1, S->filled = head_buffer;
    if (kind == NIC_RXDONE && descriptor) {
        xi_dead_written(S->filled, length_in(descriptor));
        S->filling = 0, S->filled = 0;
    }
}
