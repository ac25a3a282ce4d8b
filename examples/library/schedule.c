/* Plays the same test without a schedule, with one that moves a frame to memory just before the test reads RDH, and
 * with a text that isn't a schedule. */
#include <nic82540em.h>
#include <stdio.h>
#include <string.h>

static unsigned head_after_arrival(const char *schedule)
{
    struct nic82540em nic = NIC82540EM_NONE;
    const struct nic82540em_options options = NIC82540EM_DEFAULTS;
    static const uint8_t frame[60] = { 0xFF, 0xFF, 0xFF, 0xFF, 0xFF, 0xFF };
    unsigned head, line;

    if (!nic82540em_new(&nic, &options))
        return NIC_REFUSED;
    line = schedule ? nic82540em_play(&nic, schedule, strlen(schedule)) : 0;
    if (line)
        printf("line %u of the schedule is faulty\n", line);
    nic82540em_write(&nic, NIC_RDBAL, 0x1000);
    nic82540em_write(&nic, NIC_RDLEN, 128);
    nic82540em_write(&nic, NIC_RCTL, NIC_RCTL_EN | NIC_RCTL_BAM);
    nic82540em_write(&nic, NIC_RDT, 7);
    nic82540em_begin_round(&nic, NIC_BY_ARRIVE);
    nic82540em_arrive(&nic, frame, sizeof frame);
    head = nic82540em_read(&nic, NIC_RDH);
    nic82540em_free(&nic);
    return head;
}

int main(void)
{
    printf("RDH %u\n", head_after_arrival(NULL));
    printf("RDH %u\n", head_after_arrival("1.1 rx before read RDH\n"));
    printf("RDH %u\n", head_after_arrival("# no action\n1.1 rxd before read RDH\n"));
    return 0;
}
