/* The driver: it initializes the adapter, receives frames by interrupts, and sends frames. */
#include "driver.h"
#include <string.h>

enum { RX_RING = 0x1000, TX_RING = 0x2000, RX_BUFFERS = 0x10000, TX_BUFFERS = 0x20000, TX_BUFFER = 2048,
       CAUSES = NIC_TXDW | NIC_RXDMT0 | NIC_RXO | NIC_RXT0 };

struct all *t;
const char *const driver_names[BUGS] = { "right", "masks", "pool", "late", "head", "length", "part", "freed", "rdt",
                                         "tdt", "masks-late", "eerd", "cuts", "rxo" };

/* Initialization */

static uint32_t wait_for(uint32_t offset, uint32_t bit)
{
    for (int n = 0; n < PATIENCE; n++) {
        uint32_t word = x_read(offset);
        if (word & bit)
            return word;
    }
    t->fault = "a register never has a bit";
    return 0;
}

static bool has_buffers_of_pool(void)
{
    return t->bug == POOL || t->bug == RDT_EARLY;
}

static unsigned buffer_of(unsigned slot)
{
    return RX_BUFFERS + RX_BUFFER * (has_buffers_of_pool() ? t->buffers[slot] : slot);
}

static void offer(unsigned slot)
{
    uint64_t words[2] = { buffer_of(slot), 0 };

    x_store(RX_RING + 16 * slot, words, 16);
}

static void read_image(uint32_t *image)
{
    uint32_t sum = 0;

    for (uint32_t n = 0; n < 64; n++) {
        x_write(NIC_EERD, NIC_EERD_ADDR(n) | NIC_EERD_START);
        image[n] = NIC_EERD_DATA(t->bug == EERD_ONCE ? x_read(NIC_EERD) : wait_for(NIC_EERD, NIC_EERD_DONE));
        sum += image[n];
    }
    if ((sum & 0xFFFF) != 0xBABA)
        t->fault = "the sum of the EEPROM is wrong";
}

static void wait_for_link(void)
{
    x_write(NIC_MDIC, 0x04201200);
    wait_for(NIC_MDIC, NIC_MDIC_R);
    for (int n = 0; n < PATIENCE; n++) {
        x_write(NIC_MDIC, 0x08210000);
        if (wait_for(NIC_MDIC, NIC_MDIC_R) & 4)
            return;
    }
    t->fault = "there is no link";
}

static void write_all(const uint32_t (*pairs)[2], int count)
{
    for (int n = 0; n < count; n++)
        x_write(pairs[n][0], pairs[n][1]);
}

static void write_filter(const uint32_t *image)
{
    for (uint32_t n = 0; n < 128; n++)
        x_write(NIC_MTA + 4 * n, 0);
    for (uint32_t n = 0; n < 128; n++)
        x_write(NIC_VFTA + 4 * n, 0);
    x_write(NIC_RAL, image[0] | image[1] << 16);
    x_write(NIC_RAH, image[2] | NIC_RAH_AV);
    for (uint32_t n = 2; n < 32; n++)
        x_write(NIC_RAL + 4 * n, 0);
}

void bring_up(void)
{
    static const uint32_t receive[][2] = { { NIC_RDBAL, RX_RING }, { NIC_RDBAH, 0 }, { NIC_RDLEN, 128 },
                                           { NIC_RDH, 0 }, { NIC_RDT, 0 } };
    static const uint32_t transmit[][2] = { { NIC_TDBAL, TX_RING }, { NIC_TDBAH, 0 }, { NIC_TDLEN, 128 },
                                            { NIC_TDH, 0 }, { NIC_TDT, 0 } };
    static const char zeros[128];
    uint32_t image[64];

    x_write(NIC_CTRL, NIC_CTRL_RST);
    x_write(NIC_IMC, 0xFFFFFFFF);
    x_read(NIC_ICR);
    read_image(image);
    if (t->fault)
        return;
    x_write(NIC_PBA, 48);
    x_write(NIC_CTRL, NIC_CTRL_SLU | NIC_CTRL_ASDE);
    wait_for_link();
    write_filter(image);
    write_all(receive, 5);
    for (unsigned n = 0; n < SLOTS; n++)
        offer(n);
    x_write(NIC_RDT, SLOTS - 1);
    x_write(NIC_RCTL, 0x04038002);
    write_all(transmit, 5);
    x_store(TX_RING, zeros, sizeof zeros);
    x_write(NIC_TCTL, 0x000400FA);
    x_write(NIC_IMS, CAUSES);
}

/* Receiving */

static bool finished(unsigned slot, unsigned *length, bool *ends)
{
    unsigned at = RX_RING + 16 * slot, status;
    bool is_passed = t->bug == HEAD && slot != x_read(NIC_RDH);
    uint8_t part[5] = { 0 };

    if (t->bug == LENGTH) {
        x_load(at + 8, part, 2);
        x_load(at + 12, part + 4, 1);
    } else
        x_load(at + 8, part, 5);
    *length = part[0] | (unsigned)part[1] << 8, status = part[4];
    *ends = t->bug == PART || (status & (NIC_RXD_DD | NIC_RXD_EOP)) != NIC_RXD_DD;
    return t->bug == HEAD ? is_passed : status & NIC_RXD_DD;
}

/* The number of slots of the next frame, or 0 if its last one isn't finished. */
static int next_frame(unsigned lengths[MOST_SLOTS])
{
    for (int n = 0; n < MOST_SLOTS; n++) {
        bool ends;
        if (!finished((t->receive_at + (unsigned)n) % SLOTS, &lengths[n], &ends))
            return 0;
        if (ends)
            return n + 1;
    }
    t->fault = "a frame takes more than 6 slots";
    return 0;
}

/* Offers the slot before one that was taken, with the buffer that has been free longest. */
static void offer_before(unsigned slot)
{
    unsigned before = (slot + SLOTS - 1) % SLOTS, first = t->pool[0];

    memmove(t->pool, t->pool + 1, sizeof t->pool - sizeof *t->pool);
    t->pool[SPARE - 1] = t->buffers[before];
    t->buffers[before] = first;
    if (t->bug == RDT_EARLY)
        x_write(NIC_RDT, slot);
    offer(before);
    if (t->bug == POOL)
        x_write(NIC_RDT, slot);
}

static unsigned take(unsigned slot, unsigned length, uint8_t *into)
{
    x_load(buffer_of(slot), into, length);
    if (has_buffers_of_pool())
        offer_before(slot);
    else {
        offer(slot);
        x_write(NIC_RDT, slot);
    }
    t->receive_at = (slot + 1) % SLOTS;
    return length;
}

static void receive(void)
{
    unsigned lengths[MOST_SLOTS];
    int count;

    while (!t->fault && (count = next_frame(lengths))) {
        uint8_t frame[MOST_SLOTS * RX_BUFFER];
        unsigned size = 0, first = t->receive_at;
        for (int n = 0; n < count; n++)
            size += take((first + (unsigned)n) % SLOTS, lengths[n] > RX_BUFFER ? RX_BUFFER : lengths[n], frame + size);
        t->received[t->received_count++ % MOST] = known_of(frame, size);
        if (t->receiver)
            t->receiver(frame, size);
    }
}

static void read_causes(void)
{
    if (x_read(NIC_ICR) & NIC_RXO) {
        t->missed += x_read(NIC_MPC);
        if (t->bug == RXO_CLEARED)
            x_write(NIC_ICR, NIC_RXO);
    }
}

void interrupt(void)
{
    bool masks = t->bug == MASKS || t->bug == MASKS_LATE, late = t->bug == LATE || t->bug == MASKS_LATE;

    if (masks)
        x_write(NIC_IMC, CAUSES);
    if (late)
        receive();
    read_causes();
    if (!late)
        receive();
    if (masks)
        x_write(NIC_IMS, CAUSES);
}

/* Sending */

static bool is_sent(unsigned slot)
{
    uint8_t status;

    if (t->bug == FREED)
        return slot != x_read(NIC_TDH);
    x_load(TX_RING + 16 * slot + 12, &status, 1);
    return status & NIC_TXD_DD;
}

static bool put_into_ring(const void *frame, unsigned length)
{
    while (t->free < SLOTS - 1 && is_sent((t->transmit_at + 1 + t->free) % SLOTS))
        t->free++, t->sent++;
    if (t->free == 0)
        return false;
    unsigned slot = t->transmit_at, buffer = TX_BUFFERS + TX_BUFFER * slot;
    uint64_t words[2] = { buffer, length | 9u << 24 };
    t->free--;
    x_store(buffer, frame, length);
    if (t->bug != TDT_EARLY)
        x_store(TX_RING + 16 * slot, words, 16);
    t->transmit_at = (slot + 1) % SLOTS;
    x_write(NIC_TDT, t->transmit_at);
    if (t->bug == TDT_EARLY)
        x_store(TX_RING + 16 * slot, words, 16);
    return true;
}

bool send(const void *frame, unsigned length)
{
    bool before = t->bug == CUTS || x_interrupts(false), is_put = put_into_ring(frame, length);

    if (t->bug != CUTS)
        x_interrupts(before);
    return is_put;
}

struct known known_of(const void *bytes, uint32_t length)
{
    const uint8_t *at = bytes;
    uint64_t hash = 14695981039346656037u ^ length, words[4];
    uint32_t n = 0;

    for (; n + 32 <= length; n += 32) {
        memcpy(words, at + n, 32);
        hash = (hash ^ words[0]) * 0x9E3779B97F4A7C15u + (words[1] ^ words[2] >> 31) * 0xBF58476D1CE4E5B9u
               + (words[2] ^ words[3] >> 29) * 0x94D049BB133111EBu + words[3];
        hash ^= hash >> 29;
    }
    for (; n < length; n++)
        hash = (hash ^ at[n]) * 1099511628211u;
    return (struct known){ length, hash };
}
