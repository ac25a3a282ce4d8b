/* A test without a handler that cuts in: its places are the same in process and over pipes, with --pipe. usage: polled
 * right|wrong|offers. `wrong` reads ICR after its last look for a frame; so does `offers`, whose second frame is
 * offered. */
#include <nic82540em_explore.h>
#include <string.h>

enum { RX = 0x1000, TX = 0x2000, IN = 0x10000, OUT = 0x20000, SIZE = 2048, SLOTS = 8, ROUNDS = 3 };
static struct { unsigned next, sent, count, wanted; uint8_t got[2 * ROUNDS]; } *my;

static void offer_slot(unsigned slot)
{
    x_store(RX + 16 * slot, (uint64_t[]){ IN + SIZE * slot, 0 }, 16);
}

static void take(void)
{
    uint8_t end[5], number;

    for (;; my->next = (my->next + 1) % SLOTS) {
        x_load(RX + 16 * my->next + 8, end, 5);
        if (!(end[4] & NIC_RXD_DD))
            return;
        x_load(IN + SIZE * my->next + 14, &number, 1);
        my->got[my->count++ % sizeof my->got] = number;
        offer_slot(my->next), x_write(NIC_RDT, my->next);
    }
}

static void handle(bool is_right)
{
    if (is_right && !(x_read(NIC_ICR) & NIC_RXT0))
        return;
    take();
    if (!is_right)
        x_read(NIC_ICR);
}

static void send(void)
{
    uint8_t frame[60] = { 255, 255, 255, 255, 255, 255 };

    frame[14] = (uint8_t)my->sent;
    x_store(OUT + SIZE * (my->sent % SLOTS), frame, sizeof frame);
    x_store(TX + 16 * (my->sent % SLOTS),
            (uint64_t[]){ OUT + SIZE * (my->sent % SLOTS), sizeof frame | (NIC_TXD_EOP | NIC_TXD_RS) << 24 }, 16);
    x_write(NIC_TDT, ++my->sent % SLOTS);
}

static void arrive(bool is_offered)
{
    uint8_t frame[60] = { 255, 255, 255, 255, 255, 255 };

    frame[14] = (uint8_t)my->wanted++;
    if (is_offered)
        x_offer(frame, sizeof frame);
    else
        x_arrive(frame, sizeof frame);
}

/* The handler is called while the line is asserted, as a register shows. */
static const char *finish(bool is_right)
{
    if (x_settle() && (is_right || x_read(NIC_RDH) == 0))
        handle(is_right);
    return my->count == my->wanted ? NULL : "a frame is left";
}

static const char *test(void *word)
{
    bool is_right = !strcmp(word, "right"), is_offered = !strcmp(word, "offers");
    const char *fault = NULL;

    my = x_memory(sizeof *my);
    for (unsigned slot = 0; slot < SLOTS; slot++)
        offer_slot(slot);
    x_write(NIC_RDBAL, RX), x_write(NIC_RDLEN, 16 * SLOTS), x_write(NIC_RDT, SLOTS - 1);
    x_write(NIC_TDBAL, TX), x_write(NIC_TDLEN, 16 * SLOTS);
    x_write(NIC_RCTL, NIC_RCTL_EN | NIC_RCTL_BAM), x_write(NIC_TCTL, NIC_TCTL_EN), x_write(NIC_IMS, NIC_RXT0);
    for (unsigned round = 0; round < ROUNDS && !fault; round++) {
        arrive(false);
        x_step(NIC_RXDATA), x_step(NIC_RXDONE);
        arrive(is_offered);
        handle(is_right);
        send();
        if (is_right)
            fault = finish(true);
        else if (x_settle(), x_read(NIC_ICR) & NIC_RXT0)
            take();
        if (!fault && my->count != my->wanted)
            fault = "a frame was lost";
        if (!fault && x_put_count() != my->sent)
            fault = "a frame wasn't sent";
    }
    return fault;
}

int main(int count, char **words)
{
    return nic82540em_explore(count, words, test, count > 1 ? words[1] : "");
}
