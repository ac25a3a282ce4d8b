/* Steps of the adapter, and arrivals of frames. */
#ifndef STEPS_H
#define STEPS_H

#include <stdbool.h>
#include <stdint.h>

#include "adapter.h"

/* An action of a schedule: a step of an engine, or the arrival of the oldest frame that waits on the wire. */
enum action { ACTION_TXTAKE, ACTION_TXPUT, ACTION_RXDATA, ACTION_RXDONE, ACTION_ARRIVE, ACTIONS };

/* Plays an action. Passes to the wire's other end the frames that the adapter has sent. Returns whether the action did
 * something other than a fault. */
bool steps_play(enum action action);

/* Notes that the driver writes a register: the EEPROM or the PHY may have work. */
void steps_written(uint32_t offset);

/* Plays the steps of the EEPROM and the PHY, if they have work. */
void steps_tick(void);

/* Plays a step of each kind, and lets a frame arrive if the receive packet buffer is empty: again and again while this
 * does something, at most `rounds` times. Returns whether there may be more to do. */
bool steps_settle(unsigned rounds);

#endif
