/* A random test: its number decides what the driver, its handler and the test do. It fails if its outcome, a number that
 * depends on all answers, is the wanted one.
 *
 * usage: random SEED WANTED [OPTION..]
 */
#include <nic82540em_explore.h>
#include <stdlib.h>
#include <string.h>

enum { RX_RING = 0x1000, TX_RING = 0x2000, BUFFERS = 0x10000, SLOTS = 8, OUTCOMES = 16, MOST_CALLS = 6 };

extern unsigned outcome;
static uint64_t seed;
static unsigned wanted;

/* All that the test changes */
static unsigned heard, rx, tx, sent, calls;
static uint32_t handlers_seed;

static uint32_t draw(uint32_t *state)
{
    *state = *state * 1664525 + 1013904223;
    return *state >> 16;
}

static void hear(uint32_t value)
{
    heard = (heard ^ value) * 2654435761u;
    heard ^= heard >> 15;
}

static void load_status(void)
{
    uint8_t status;

    x_load(RX_RING + 16 * rx + 12, &status, 1);
    hear(status);
    if (status & NIC_RXD_DD)
        rx = (rx + 1) % SLOTS;
}

static void send(void)
{
    x_store(TX_RING + 16 * tx, (uint64_t[]){ BUFFERS, 60 | 9u << 24 }, 16);
    tx = (tx + 1) % SLOTS;
    x_write(NIC_TDT, tx);
}

static void interrupt(void);

static void act(uint32_t what)
{
    static const uint8_t frame[60] = { 255, 255, 255, 255, 255, 255 };

    uint8_t byte;

    switch (what % 19) {
    case 0:
        hear(x_read(NIC_ICR));
        break;
    case 1: case 2:
        load_status();
        break;
    case 3:
        x_write(NIC_IMC, NIC_RXT0);
        break;
    case 4:
        x_write(NIC_IMS, NIC_RXT0 | NIC_TXDW);
        break;
    case 5:
        x_touch(false, 0), hear(calls);
        break;
    case 6:
        hear(x_line());
        break;
    case 7:
        send();
        break;
    case 8:
        hear(x_choose(2 + what / 19 % 2));
        break;
    case 9: case 16:
        hear(calls), hear(x_interrupts(what / 19 % 2)), hear(calls);
        break;
    case 17: /* the handler is removed, or given, perhaps again */
        hear(calls), x_handler(what / 19 % 3 ? interrupt : NULL), hear(calls);
        break;
    case 10:
        hear(x_read(NIC_RDH));
        break;
    case 11: /* what was left in a buffer */
        x_load(BUFFERS + 2048 * (what / 19 % 3) + 14, &byte, 1), hear(byte);
        break;
    case 12: /* the length in a transmit descriptor, which may be done */
        x_load(TX_RING + 16 * (what / 19 % 2) + 8, &byte, 1), hear(byte);
        break;
    case 13:
        hear(x_read(what / 19 % 2 ? NIC_GPRC : NIC_GPTC));
        break;
    case 14: /* another buffer for a slot that may be in progress */
        x_store(RX_RING, (uint64_t[]){ BUFFERS + 2048, 0 }, 16), rx = 0;
        break;
    case 18:
        hear(x_step(what / 19 % 4));
        break;
    default:
        hear(x_arrive(frame, sizeof frame));
    }
}

static void interrupt(void)
{
    if (++calls > MOST_CALLS) {
        x_write(NIC_IMC, ~0u);
        return;
    }
    if (handlers_seed & 1)
        load_status();
    hear(x_read(NIC_ICR));
    if (handlers_seed & 2)
        load_status();
}

static const char *test(void *word)
{
    static const uint8_t frame[60] = { 255, 255, 255, 255, 255, 255 };
    uint32_t state = (uint32_t)seed * 2654435761u + 1;

    (void)word;
    heard = rx = tx = sent = calls = 0, handlers_seed = draw(&state);
    for (uint8_t slot = 0; slot < 3; slot++)
        x_store(BUFFERS + 2048u * slot + 14, &(uint8_t){ (uint8_t)(42 + slot) }, 1);
    for (unsigned slot = 0; slot < SLOTS; slot++)
        x_store(RX_RING + 16 * slot, (uint64_t[]){ BUFFERS + 2048 * slot, 0 }, 16);
    x_write(NIC_RDBAL, RX_RING), x_write(NIC_RDLEN, 16 * SLOTS), x_write(NIC_RDT, SLOTS - 1);
    x_write(NIC_TDBAL, TX_RING), x_write(NIC_TDLEN, 16 * SLOTS), x_write(NIC_TCTL, NIC_TCTL_EN);
    x_write(NIC_RCTL, NIC_RCTL_EN | NIC_RCTL_BAM);
    if (draw(&state) % 4)
        x_write(NIC_IMS, NIC_RXT0 | NIC_TXDW), x_handler(interrupt);
    if (draw(&state) % 2)
        x_offer(frame, sizeof frame);
    else
        x_arrive(frame, sizeof frame);
    for (unsigned count = 1 + draw(&state) % 4; count--;)
        act(draw(&state));
    x_interrupts(true);
    hear((uint32_t)x_settle());
    load_status();
    act(11 + 19 * draw(&state)), act(11 + draw(&state) % 3);
    hear(x_put_count() + 16 * x_arrived_count());
    outcome = heard % OUTCOMES;
    return outcome == wanted ? "it has the wanted outcome" : NULL;
}

int main(int count, char **words)
{
    seed = count > 2 ? strtoull(words[1], NULL, 10) : 0, wanted = count > 2 ? (unsigned)atoi(words[2]) : OUTCOMES;
    return nic82540em_explore(count, words, test, NULL);
}
