/* Prints the state of an adapter whose receiver is on, after a frame was received and another one has arrived. */
#include <nic82540em.h>
#include <stdio.h>

int main(void)
{
    struct nic82540em nic = NIC82540EM_NONE;
    const struct nic82540em_options options = NIC82540EM_DEFAULTS;
    static const uint8_t frame[60] = { 0xFF, 0xFF, 0xFF, 0xFF, 0xFF, 0xFF };
    char text[1024];

    if (!nic82540em_new(&nic, &options))
        return 1;
    nic82540em_write(&nic, NIC_RDBAL, 0x1000);
    nic82540em_write(&nic, NIC_RDLEN, 128);
    nic82540em_write(&nic, NIC_RCTL, NIC_RCTL_EN | NIC_RCTL_BAM);
    nic82540em_write(&nic, NIC_RDT, 7);
    nic82540em_write(&nic, NIC_IMS, NIC_RXT0);
    nic82540em_arrive(&nic, frame, sizeof frame);
    nic82540em_settle(&nic);
    nic82540em_arrive(&nic, frame, sizeof frame);
    nic82540em_print(&nic, text, sizeof text);
    fputs(text, stdout);
    nic82540em_free(&nic);
    return 0;
}
