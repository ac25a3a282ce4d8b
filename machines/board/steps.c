#include "steps.h"

#include "dma.h"
#include "trace.h"
#include "wire.h"

static bool eeprom_has_work, phy_has_work = true;

static bool play_step(enum kind kind)
{
    enum outcome outcome = dma_step(kind);

    if (outcome == NOTHING || outcome == WIREFULL)
        return false;
    trace_step(kind, outcome, dma_slot());
    return outcome != FAULT;
}

bool steps_play(enum action action)
{
    bool did = action == ACTION_ARRIVE ? wire_arrive() : play_step((enum kind)action);

    if (did && action == ACTION_TXPUT)
        wire_send();
    return did;
}

void steps_written(uint32_t offset)
{
    eeprom_has_work |= offset == EERD;
    phy_has_work |= offset == MDIC;
}

void steps_tick(void)
{
    if (eeprom_has_work)
        eeprom_has_work = dma_step(EEPROM) == TICKED;
    if (phy_has_work)
        phy_has_work = dma_step(PHY) == TICKED;
}

/* Plays one step of each kind, and one arrival if the receive packet buffer is empty. So frames wait on the wire and
 * aren't missed while the driver has offered no buffers. Returns whether something was done. */
static bool settle_once(void)
{
    bool did = steps_play(ACTION_TXTAKE);

    steps_tick();
    did |= steps_play(ACTION_TXPUT);
    if (dma_waiting() == 0)
        did |= steps_play(ACTION_ARRIVE);
    did |= steps_play(ACTION_RXDATA);
    did |= steps_play(ACTION_RXDONE);
    return did;
}

bool steps_settle(unsigned rounds)
{
    while (rounds-- > 0)
        if (!settle_once())
            return false;
    return true;
}
