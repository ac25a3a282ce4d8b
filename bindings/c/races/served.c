/* The adapter that answers the lines of COMMAND, as the device of the search. */
#include "races.h"
#include <string.h>

#define S xi_state

enum { OFFERS_WAIT = 31 };
struct nic82540em_options x_options = NIC82540EM_DEFAULTS;
struct nic82540em_server xr_server;
uint32_t xi_outcome_of_step;
static char told[1 << 20];

/* Answers a line. Returns the size of the answer, which xr_told returns. */
size_t xr_answer(const char *line, size_t size)
{
    size_t count = nic82540em_answer(&xr_server, line, size, told, sizeof told);

    if (!count)
        xi_die("memory is refused");
    if (count > sizeof told)
        xi_die("an answer has more than 1 MiB");
    return count;
}

const char *xr_told(void)
{
    return told;
}

/* Notes whether an offered frame waits. */
void xr_note_offers(void)
{
    S->offers.count = S->offered + (nic82540em_can(&xr_server) >> OFFERS_WAIT & 1);
}

static void reset(void)
{
    if (xr_server.held)
        nic82540em_close(&xr_server);
    if (!nic82540em_serve(&xr_server, &x_options, xr_given.registers, xr_given.seed))
        xi_die("there is no adapter with these options, or memory is refused");
    xr_begin_shown();
}

static unsigned possible(void)
{
    return xi_book->event == CHOOSE ? 0 : nic82540em_can(&xr_server) & ((1u << (NIC_PHY + 1)) - 1);
}

static const char *step(unsigned kind)
{
    if (!nic82540em_deviate(&xr_server, kind)) {
        if (!nic82540em_answers(&xr_server, 0))
            xi_die("memory is refused");
        return NULL;
    }
    xi_outcome_of_step = NIC_TICKED; /* something else than NIC_NOTHING */
    xr_note_offers();
    return xr_is_shown ? xr_show_step() : "done";
}

/* The oldest offered frame arrives. Returns its fate. */
const char *xi_deliver_offered(void)
{
    if (!nic82540em_deviate(&xr_server, NIC_OFFERED))
        xi_die("an offered frame doesn't arrive");
    S->offered++;
    xr_note_offers(), xi_change();
    return xr_is_shown ? xr_show_step() : "done";
}

/* The search knows registers by their names alone: COMMAND accesses them. */
static uint32_t read_register(uint32_t offset)
{
    (void)offset;
    return 0;
}

static void write_register(uint32_t offset, uint32_t value)
{
    (void)offset, (void)value;
}

static uint32_t arrive(const void *frame, size_t count)
{
    (void)frame, (void)count;
    return NIC_REFUSED;
}

enum { TRANSMIT, RECEIVE, CLOCK };
static const char *const steps[] = { "txtake", "txput", "rxdata", "rxdone", "eeprom", "phy" };
static const unsigned engines[] = { TRANSMIT, TRANSMIT, RECEIVE, RECEIVE, CLOCK, CLOCK };

const struct x_device xi_nic = {
    .name = "82540EM", .kinds = NIC_PHY + 1, .steps = steps, .engines = engines,
    .clocks = 1u << NIC_EEPROM | 1u << NIC_PHY,
    .pairs = { { "tx", NIC_TXTAKE, NIC_TXPUT }, { "rx", NIC_RXDATA, NIC_RXDONE } }, .reset = reset,
    .possible = possible,
    .step = step, .read = read_register, .write = write_register, .line = xr_is_raised, .name_of = xi_nic_register,
    .arrive = arrive
};
