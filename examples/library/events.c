/* Prints what happened to an adapter: a frame that was offered, and a transmit descriptor without EOP. */
#include <inttypes.h>
#include <nic82540em.h>
#include <stdio.h>

enum { BUFFER = 0x800, SLOT = 16, FRAME_BYTES = 60 };

static const char *const kinds[] = { "txtake", "txput", "rxdata", "rxdone", "eeprom", "phy" };
static const char *const outcomes[] = { "nothing", "took", "put",    "wirefull", "part",
                                        "moved",   "done", "ticked", "fault" };
static const char *const fates[] = { "off", "illegal", "filtered", "missed", "stored" };
static const char *const reasons[] = { "no_fault", "ring", "descriptor", "dext", "eop", "length", "buffer", "bsex" };

static void print(const struct nic82540em_event *event)
{
    if (event->what == NIC_ARRIVED)
        printf("arrived %s\n", fates[event->value]);
    else if (event->what == NIC_LINE)
        printf("line %s\n", event->value ? "true" : "false");
    else if (event->reason != NIC_NO_FAULT)
        printf("fault %s %" PRIu32 " %s\n", kinds[event->kind], event->index, reasons[event->reason]);
    else
        printf("step %s %s\n", kinds[event->kind], outcomes[event->value]);
}

int main(void)
{
    struct nic82540em nic = NIC82540EM_NONE;
    const struct nic82540em_options options = NIC82540EM_DEFAULTS;
    struct nic82540em_event event;
    const uint8_t frame[FRAME_BYTES] = { 0xFF, 0xFF, 0xFF, 0xFF, 0xFF, 0xFF };
    uint8_t descriptor[SLOT] = { [1] = BUFFER >> 8, [8] = FRAME_BYTES, [11] = NIC_TXD_EOP | NIC_TXD_RS };

    if (!nic82540em_new(&nic, &options) || !nic82540em_store(&nic, 0, descriptor, SLOT))
        return 1;
    descriptor[11] = NIC_TXD_RS; /* EOP is missing */
    if (!nic82540em_store(&nic, SLOT, descriptor, SLOT) || !nic82540em_offer(&nic, frame, sizeof frame))
        return 1;
    nic82540em_events(&nic, true);
    nic82540em_write(&nic, NIC_IMS, NIC_TXDW);
    nic82540em_write(&nic, NIC_TDLEN, 128);
    nic82540em_write(&nic, NIC_TCTL, NIC_TCTL_EN);
    nic82540em_write(&nic, NIC_TDT, 2);
    nic82540em_settle(&nic);
    while (nic82540em_take_event(&nic, &event))
        print(&event);
    nic82540em_free(&nic);
    return 0;
}
