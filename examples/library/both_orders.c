/* Finds whether the order of a step and an access of the driver matters. Tries both orders in copies of the adapter,
 * and prints what differs: the value that the driver reads, the adapter's state, or only the host's memory. */
#include <nic82540em.h>
#include <stdio.h>
#include <stdlib.h>

enum { RECEIVE_RING = 0x1000, TRANSMIT_RING = 0x2000, BUFFER = 0x4000, STATUS = 12, ACCESSES = 4, KINDS = 6 };

static const char *const kinds[] = { "txtake", "txput", "rxdata", "rxdone", "eeprom", "phy" };
static const char *const accesses[] = { "read ICR", "load status", "write RCTL", "store in buffer" };

/* Makes an access of the driver. Returns the value that it reads, or 0 if it reads none. */
static uint32_t make_access(struct nic82540em *nic, int number)
{
    static const uint8_t stored = 0x55;
    uint8_t status = 0;
    bool is_done = true;

    switch (number) {
    case 0: return nic82540em_read(nic, NIC_ICR);
    case 1: is_done = nic82540em_load(nic, TRANSMIT_RING + STATUS, &status, 1); break;
    case 2: nic82540em_write(nic, NIC_RCTL, 0); break;
    case 3: is_done = nic82540em_store(nic, BUFFER, &stored, 1); break;
    }
    if (!is_done)
        abort();
    return status;
}

static const char *difference(struct nic82540em *nic, uint32_t kind, int number)
{
    struct nic82540em first = NIC82540EM_NONE, second = NIC82540EM_NONE;
    bool is_value_same, is_state_same, is_memory_same;

    if (!nic82540em_copy(nic, &first) || !nic82540em_copy(nic, &second))
        abort();
    nic82540em_step(&first, kind);
    is_value_same = make_access(&first, number) == make_access(&second, number);
    nic82540em_step(&second, kind);
    is_state_same = nic82540em_state_digest(&first, 0) == nic82540em_state_digest(&second, 0);
    is_memory_same = nic82540em_digest(&first) == nic82540em_digest(&second);
    nic82540em_free(&first);
    nic82540em_free(&second);
    return !is_value_same ? "value" : !is_state_same ? "state" : !is_memory_same ? "memory" : "nothing";
}

int main(void)
{
    struct nic82540em nic = NIC82540EM_NONE;
    const struct nic82540em_options options = NIC82540EM_DEFAULTS;
    static const uint8_t frame[60] = { 0xFF, 0xFF, 0xFF, 0xFF, 0xFF, 0xFF };
    static const uint8_t descriptor[16] = { [1] = BUFFER >> 8, [8] = sizeof frame, [11] = NIC_TXD_EOP | NIC_TXD_RS };
    static const uint32_t writes[][2] = {
        { NIC_RDBAL, RECEIVE_RING }, { NIC_RDLEN, 128 }, { NIC_RCTL, NIC_RCTL_EN | NIC_RCTL_BAM }, { NIC_RDT, 1 },
        { NIC_TDBAL, TRANSMIT_RING }, { NIC_TDLEN, 128 }, { NIC_TCTL, NIC_TCTL_EN }, { NIC_TDT, 2 },
    };

    if (!nic82540em_new(&nic, &options) || !nic82540em_store(&nic, RECEIVE_RING, descriptor, 16) ||
        !nic82540em_store(&nic, TRANSMIT_RING, descriptor, 16) ||
        !nic82540em_store(&nic, TRANSMIT_RING + 16, descriptor, 16))
        return 1;
    for (size_t place = 0; place < sizeof writes / sizeof *writes; place++)
        nic82540em_write(&nic, writes[place][0], writes[place][1]);
    nic82540em_arrive(&nic, frame, sizeof frame);
    nic82540em_step(&nic, NIC_TXTAKE);
    for (int number = 0; number < ACCESSES; number++)
        for (uint32_t kind = 0; kind < KINDS; kind++)
            if (nic82540em_possible(&nic) >> kind & 1)
                printf("%s, %s: %s differs\n", accesses[number], kinds[kind], difference(&nic, kind, number));
    nic82540em_free(&nic);
    return 0;
}
