/* The accesses of the driver in a round: of registers, and of rings as the plugin reports them. */
#ifndef DRIVER_ACCESSES_H
#define DRIVER_ACCESSES_H

#include <stdbool.h>
#include <stdint.h>

/* Makes the memory that is shared with the plugin. Returns its file. */
int accesses_start(void);

/* Begins a round, whose accesses are counted from 0. */
void accesses_begin(void);

/* Ends a round that was judged: the plugin reports no more accesses. */
void accesses_end(void);

/* Lets the plugin know where the rings are now, also outside of rounds. */
void accesses_watch(void);

/* Reads what the plugin has reported since the last call. */
void accesses_collect(void);

/* Notes an access of a register by the driver. */
void accesses_register(bool is_write, uint32_t offset, uint32_t value);

/* The number of the round's accesses that were collected so far. */
uint32_t accesses_count(void);

/* Lets the plugin ask the board after this number of further accesses of rings; with 0, the plugin doesn't ask. */
void accesses_ask_after(uint32_t count);

#endif
