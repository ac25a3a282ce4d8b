/* Back-pressure. While the wire is full, the transmit packet buffer keeps 4 frames, and the driver's other descriptors
 * wait. While no receive descriptor is offered, the receive packet buffer keeps frames until it has no room. */
#include <inttypes.h>
#include <nic82540em.h>
#include <stdio.h>
#include <string.h>

enum { RECEIVE_RING = 0x1000, TRANSMIT_RING = 0x2000, BUFFER = 0x4000, FRAME_BYTES = 60, FRAMES = 7, OFFERED = 27 };

/* Lets the adapter do its work, and prints where the frames are. */
static void settle(struct nic82540em *nic, const char *name)
{
    uint32_t head = 0, missed = 0;

    nic82540em_settle(nic);
    nic82540em_peek(nic, NIC_TDH, &head);
    nic82540em_peek(nic, NIC_MPC, &missed);
    printf("%s: TDH %" PRIu32 ", waiting %" PRIu32 " to be sent and %" PRIu32 " received, MPC %08" PRIx32 ", line %d\n",
           name, head, nic82540em_waiting_transmit(nic), nic82540em_waiting_received(nic), missed,
           nic82540em_line(nic));
}

int main(void)
{
    struct nic82540em nic = NIC82540EM_NONE;
    struct nic82540em_options options = NIC82540EM_DEFAULTS;
    static const uint8_t descriptor[16] = { [1] = BUFFER >> 8, [8] = FRAME_BYTES, [11] = NIC_TXD_EOP | NIC_TXD_RS };
    static const uint32_t writes[][2] = {
        { NIC_IMS, NIC_TXDW | NIC_RXO }, { NIC_RDBAL, RECEIVE_RING }, { NIC_RDLEN, 128 }, { NIC_TDBAL, TRANSMIT_RING },
        { NIC_TDLEN, 128 }, { NIC_RCTL, NIC_RCTL_EN | NIC_RCTL_BAM }, { NIC_TCTL, NIC_TCTL_EN }, { NIC_TDT, FRAMES },
    };
    uint8_t frame[1518];
    void *memory;
    int count = 0;

    options.rxa = 2;             /* the receive packet buffer has 2 KB */
    options.missed = 0xFFFFFFFE; /* MPC doesn't wrap */
    if (!nic82540em_new(&nic, &options) || !nic82540em_memory(&nic, &memory))
        return 1;
    for (int slot = 0; slot < FRAMES; slot++) {
        memcpy((uint8_t *)memory + RECEIVE_RING + 16 * slot, descriptor, sizeof descriptor);
        memcpy((uint8_t *)memory + TRANSMIT_RING + 16 * slot, descriptor, sizeof descriptor);
    }
    nic82540em_fill_wire(&nic, true);
    for (size_t place = 0; place < sizeof writes / sizeof *writes; place++)
        nic82540em_write(&nic, writes[place][0], writes[place][1]);
    settle(&nic, "full wire");
    nic82540em_fill_wire(&nic, false);
    settle(&nic, "free wire");
    while (nic82540em_take_put(&nic, frame, sizeof frame) != 0)
        count++;
    printf("taken off the wire: %d, ICR %08" PRIx32 "\n", count, nic82540em_read(&nic, NIC_ICR));
    memset(frame, 0xFF, sizeof frame);
    for (count = 0; count < OFFERED; count++)
        if (!nic82540em_offer(&nic, frame, FRAME_BYTES))
            return 1;
    settle(&nic, "no descriptors");
    nic82540em_write(&nic, NIC_RDT, FRAMES);
    settle(&nic, "descriptors");
    nic82540em_free(&nic);
    return 0;
}
