/* The sweep. In a round, steps of the adapter and arrivals are drawn, from the seed and the number of the round, and
 * played between the driver's accesses. Outside of rounds, all steps are played at once. If steps are drawn, the
 * adapter works only while the guest waits for an answer of the board. So the board's speed doesn't matter. */
#ifndef SWEEP_H
#define SWEEP_H

#include <stdbool.h>
#include <stdint.h>

/* From now on, rounds may be played. If `drawn`, steps are drawn in them; otherwise each step is played at once.
 * `folder` gets the trace of the first round that fails, and what `sweep_end` writes. */
void sweep_start(uint32_t seed, const char *folder, bool drawn);

/* In this round, only the drawn actions with the numbers in the file `path` are played. The numbers count the round's
 * drawn actions from 1 (trace.h). Numbers from 65,536 on are ignored. */
void sweep_only(uint32_t round, const char *path);

/* Whether steps are drawn in rounds. */
bool sweep_draws(void);

/* Where the driver is: at an access of a register, after an access of a ring, or in a call of the test program. */
enum point { AT_REGISTER, AT_MEMORY, AT_POKE };

/* Plays steps at a point. */
void sweep_point(enum point point);

/* The board's own registers (shared/rounds.h). */
uint32_t sweep_read(uint32_t offset);
void sweep_write(uint32_t offset, uint32_t value);

/* If steps are drawn: writes what the rounds reached to the file `reached` of the folder, and prints the counts. If
 * the last round wasn't judged, it counts as failed, and its trace is written if no round failed before. */
void sweep_end(void);

#endif
