/* The 82540EM as a device of the search. */
#include "inside.h"
#include <string.h>

#define B xi_book
#define S xi_state

struct nic82540em_options x_options = NIC82540EM_DEFAULTS;
uint32_t xi_outcome_of_step;
static void reset(void)
{
    if (!nic82540em_new(&S->nic, &x_options))
        xi_die("there is no adapter with these options");
}

static unsigned possible(void)
{
    return nic82540em_possible(&S->nic);
}

static const char *step(unsigned kind)
{
    uint8_t frame[LONGEST];
    uint32_t outcome;
    size_t count;

    xi_dead_before(kind);
    outcome = xi_outcome_of_step = nic82540em_step(&S->nic, kind);
    if (outcome == NIC_NOTHING)
        return NULL;
    xi_dead_after(kind, outcome);
    if (kind == NIC_TXTAKE || kind == NIC_RXDATA)
        xi_see_ring(kind == NIC_TXTAKE, true);
    while (outcome == NIC_PUT && (count = nic82540em_take_put(&S->nic, frame, sizeof frame)) != 0)
        xi_add_frame(&S->put, frame, count, 0);
    return xi_outcomes[outcome];
}

static uint32_t read_register(uint32_t offset)
{
    xi_dead_register(offset);
    return nic82540em_read(&S->nic, offset);
}

/* Keeps the base and the length of a ring that a write sets, for the names of places. A reset sets all to 0. */
static void know(uint32_t offset, uint32_t value)
{
    static const uint32_t kept[] = { 0xFFFFFFF0, 0xFFFFFFFF, 0x000FFF80 };

    if (offset == NIC_CTRL && value & NIC_CTRL_RST)
        memset(B->rings, 0, sizeof B->rings);
    for (int n = 0; n < 3; n++)
        if (offset == NIC_RDBAL + 4u * n || offset == NIC_TDBAL + 4u * n)
            B->rings[offset >= NIC_TDBAL][n] = value & kept[n];
}

static void write_register(uint32_t offset, uint32_t value)
{
    if (offset == NIC_CTRL && value & NIC_CTRL_RST)
        xi_clear_dead(); /* afterwards, the rings aren't known */
    nic82540em_write(&S->nic, offset, value);
    know(offset, value);
    if (offset == NIC_TDT)
        xi_see_ring(true, false), B->is_sending = false;
}

static bool line(void)
{
    return nic82540em_line(&S->nic);
}

static uint32_t arrive(const void *frame, size_t count)
{
    return nic82540em_arrive(&S->nic, frame, count);
}

enum { TRANSMIT, RECEIVE, CLOCK };
static const char *const steps[] = { "txtake", "txput", "rxdata", "rxdone", "eeprom", "phy" };
static const unsigned engines[] = { TRANSMIT, TRANSMIT, RECEIVE, RECEIVE, CLOCK, CLOCK };

const struct x_device xi_nic = {
    .name = "82540EM", .kinds = NIC_PHY + 1, .steps = steps, .engines = engines,
    .clocks = 1u << NIC_EEPROM | 1u << NIC_PHY,
    .pairs = { { "tx", NIC_TXTAKE, NIC_TXPUT }, { "rx", NIC_RXDATA, NIC_RXDONE } }, .reset = reset, .possible = possible,
    .step = step, .read = read_register, .write = write_register, .line = line, .name_of = xi_nic_register, .arrive = arrive
};
