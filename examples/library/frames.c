/* Receives a frame and sends one, by descriptors in the host's memory. Uses most calls, also on a handle without an
 * adapter, and with numbers out of range. */
#include <inttypes.h>
#include <nic82540em.h>
#include <stdio.h>
#include <string.h>

enum { RECEIVE_RING = 0x1000, RECEIVE_BUFFER = 0x2000, TRANSMIT_RING = 0x3000, TRANSMIT_BUFFER = 0x4000 };
enum { RING_BYTES = 128, FRAME_BYTES = 60 };

static const char *const outcomes[] = { "nothing", "took", "put", "wirefull", "part", "moved", "done", "ticked", "fault" };
static const char *const fates[] = { "off", "illegal", "filtered", "missed", "stored" };

/* Stores a descriptor with this address, length and command. */
static void store_descriptor(struct nic82540em *nic, uint64_t at, uint32_t address, uint16_t length, uint8_t command)
{
    const uint8_t bytes[16] = {
        address & 0xFF, address >> 8 & 0xFF, address >> 16 & 0xFF, address >> 24, 0, 0, 0, 0,
        length & 0xFF, length >> 8, 0, command,
    };

    nic82540em_store(nic, at, bytes, sizeof bytes);
}

static void receive(struct nic82540em *nic)
{
    uint8_t frame[FRAME_BYTES], back[FRAME_BYTES], descriptor[16];

    memset(frame, 0xFF, sizeof frame);
    store_descriptor(nic, RECEIVE_RING, RECEIVE_BUFFER, 0, 0);
    nic82540em_write(nic, NIC_RDBAL, RECEIVE_RING);
    nic82540em_write(nic, NIC_RDLEN, RING_BYTES);
    nic82540em_write(nic, NIC_RCTL, NIC_RCTL_EN | NIC_RCTL_BAM);
    nic82540em_write(nic, NIC_RDT, 1);
    printf("arrive %s\n", fates[nic82540em_arrive(nic, frame, sizeof frame)]);
    printf("rxdata %s\n", outcomes[nic82540em_step(nic, NIC_RXDATA)]);
    printf("rxdone %s\n", outcomes[nic82540em_step(nic, NIC_RXDONE)]);
    nic82540em_load(nic, RECEIVE_RING, descriptor, sizeof descriptor);
    nic82540em_load(nic, RECEIVE_BUFFER, back, sizeof back);
    printf("received %d bytes, status %02x, %s\n", descriptor[8], descriptor[12],
           memcmp(frame, back, sizeof frame) == 0 ? "the same bytes" : "other bytes");
}

static void send(struct nic82540em *nic)
{
    uint8_t frame[FRAME_BYTES], out[1518];

    memset(frame, 0x55, sizeof frame);
    nic82540em_store(nic, TRANSMIT_BUFFER, frame, sizeof frame);
    store_descriptor(nic, TRANSMIT_RING, TRANSMIT_BUFFER, sizeof frame, NIC_TXD_EOP | NIC_TXD_IFCS | NIC_TXD_RS);
    nic82540em_write(nic, NIC_TDBAL, TRANSMIT_RING);
    nic82540em_write(nic, NIC_TDLEN, RING_BYTES);
    nic82540em_write(nic, NIC_TCTL, NIC_TCTL_EN | NIC_TCTL_PSP);
    nic82540em_write(nic, NIC_TDT, 1);
    printf("settle: %" PRIu64 " steps\n", nic82540em_settle(nic));
    printf("too little room: %zu bytes wait\n", nic82540em_take_put(nic, out, 10));
    printf("taken: %zu bytes\n", nic82540em_take_put(nic, out, sizeof out));
    printf("the wire is empty: %zu\n", nic82540em_take_put(nic, out, sizeof out));
}

/* Uses the host's memory by a pointer, a step before an access, and a register without a read. */
static void more(struct nic82540em *nic)
{
    uint8_t byte = 0;
    uint32_t causes = 0;
    void *memory = NULL;

    printf("memory: %" PRIu64 " bytes\n", nic82540em_memory(nic, &memory));
    ((uint8_t *)memory)[0x5000] = 0x5A;
    nic82540em_load(nic, 0x5000, &byte, 1);
    printf("stored by the pointer: %02x\n", byte);
    nic82540em_write(nic, NIC_EERD, NIC_EERD_START | NIC_EERD_ADDR(2));
    printf("scheduled: %d\n", nic82540em_schedule(nic, nic82540em_accesses(nic) + 1, NIC_EEPROM));
    printf("EERD: %08" PRIx32, nic82540em_read(nic, NIC_EERD));
    printf(", and after the step %08" PRIx32 "\n", nic82540em_read(nic, NIC_EERD));
    nic82540em_peek(nic, NIC_ICR, &causes);
    printf("ICR: %08" PRIx32 ", the same when read: %d", causes, nic82540em_read(nic, NIC_ICR) == causes);
    printf(", and then %08" PRIx32 "\n", nic82540em_read(nic, NIC_ICR));
}

/* Uses a copy of the adapter, the steps that are possible, and ticks. */
static void copy(struct nic82540em *nic)
{
    struct nic82540em other = NIC82540EM_NONE;

    printf("copied: %d", nic82540em_copy(nic, &other));
    printf(", again: %d\n", nic82540em_copy(nic, &other));
    printf("the same digest: %d", nic82540em_digest(nic) == nic82540em_digest(&other));
    nic82540em_write(&other, NIC_EERD, NIC_EERD_START | NIC_EERD_ADDR(2));
    printf(", and after an access %d", nic82540em_digest(nic) == nic82540em_digest(&other));
    printf(", of the state %d\n", nic82540em_state_digest(nic, 1) == nic82540em_state_digest(&other, 1));
    printf("possible: %02" PRIx32 ", of the copy %02" PRIx32, nic82540em_possible(nic), nic82540em_possible(&other));
    nic82540em_ticks(&other, true);
    printf(", EERD by ticks %08" PRIx32 "\n", nic82540em_read(&other, NIC_EERD));
    nic82540em_recount(&other, 7);
    printf("accesses: %" PRIu64 ", of the copy %" PRIu64 "\n", nic82540em_accesses(nic), nic82540em_accesses(&other));
    nic82540em_free(&other);
}

/* An EEPROM read ends at once if cycles of steps come after each access. */
static void pace(struct nic82540em *nic)
{
    printf("cycles: %d", nic82540em_pace(nic, 65535));
    nic82540em_write(nic, NIC_EERD, NIC_EERD_START | NIC_EERD_ADDR(2));
    printf(", EERD: %08" PRIx32, nic82540em_read(nic, NIC_EERD));
    printf(", too many: %d, none: %d\n", nic82540em_pace(nic, 65536), nic82540em_pace(nic, 0));
}

/* What each call returns if the handle has no adapter. */
static void without(struct nic82540em *nic)
{
    struct nic82540em other = NIC82540EM_NONE;
    uint8_t bytes[4] = { 1, 2, 3, 4 };
    uint32_t value = 5;
    void *memory = bytes;

    nic82540em_write(nic, NIC_IMS, 1);
    nic82540em_ticks(nic, true);
    nic82540em_recount(nic, 5);
    nic82540em_free(nic);
    printf("no adapter: %" PRIx32 " %d %d %" PRIx32 " %" PRIx32 " %zu %d %" PRIu64 " %d %" PRIu64,
           nic82540em_read(nic, NIC_VET), nic82540em_load(nic, 0, bytes, 4), nic82540em_store(nic, 0, bytes, 4),
           nic82540em_step(nic, NIC_PHY), nic82540em_arrive(nic, bytes, 4), nic82540em_take_put(nic, bytes, 4),
           nic82540em_line(nic), nic82540em_settle(nic), nic82540em_interleave(nic, 1, 1), nic82540em_accesses(nic));
    printf(" %d %d %" PRIu64, nic82540em_schedule(nic, 0, NIC_PHY), nic82540em_peek(nic, NIC_VET, &value),
           nic82540em_memory(nic, &memory));
    printf(" %" PRIx32 " %" PRIu32 " %" PRIu64 " %" PRIu64 " %d", nic82540em_possible(nic), nic82540em_choose(nic, 7),
           nic82540em_digest(nic), nic82540em_state_digest(nic, 1), nic82540em_copy(nic, &other));
    printf(" %d", nic82540em_pace(nic, 1));
    printf(", %s\n", bytes[0] == 1 && value == 5 && memory == bytes ? "and nothing changed" : "and something changed");
}

static void refusals(struct nic82540em *nic)
{
    struct nic82540em_options options = NIC82540EM_DEFAULTS;
    uint8_t bytes[4] = { 1, 2, 3, 4 };

    printf("a second adapter: %d\n", nic82540em_new(nic, &options));
    printf("outside memory: %d %d\n", nic82540em_load(nic, (1 << 20) - 3, bytes, 4),
           nic82540em_store(nic, UINT64_MAX, bytes, 4));
    printf("no such step: %" PRIx32 "\n", nic82540em_step(nic, 6));
    printf("too many steps: %d\n", nic82540em_interleave(nic, 65536, 1));
    printf("no such step in a schedule: %d\n", nic82540em_schedule(nic, 0, 6));
    printf("accesses: %" PRIu64 "\n", nic82540em_accesses(nic));
    nic82540em_free(nic);
    options.link = 65536;
    printf("link: %d\n", nic82540em_new(nic, &options));
    options.link = 0;
    options.rxa = 49;
    printf("rxa: %d\n", nic82540em_new(nic, &options));
    options.rxa = 48;
    options.memory = UINT64_MAX / 2;
    printf("memory: %d\n", nic82540em_new(nic, &options));
    options.memory = 0;
    printf("no memory: %d\n", nic82540em_new(nic, &options));
    nic82540em_free(nic);
}

int main(void)
{
    struct nic82540em nic = NIC82540EM_NONE;
    const struct nic82540em_options options = NIC82540EM_DEFAULTS;

    without(&nic);
    if (!nic82540em_new(&nic, &options))
        return 1;
    receive(&nic);
    send(&nic);
    more(&nic);
    copy(&nic);
    pace(&nic);
    printf("choice: %" PRIu32, nic82540em_choose(&nic, 7));
    nic82540em_interleave(&nic, 3, 7);
    printf(", with random steps below 7: %d\n", nic82540em_choose(&nic, 7) < 7);
    printf("read with steps before it: %08" PRIx32 "\n", nic82540em_read(&nic, NIC_PBA));
    refusals(&nic);
    without(&nic);
    return 0;
}
