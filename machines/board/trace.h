/* The record of a round: accesses, steps, frames and the interrupt line, in order. Times aren't in it, so two runs
 * that do the same have the same trace. */
#ifndef TRACE_H
#define TRACE_H

#include <stdbool.h>
#include <stdint.h>
#include <stdio.h>

#include "../shared/accesses.h"
#include "adapter.h"

/* From now on, writes all that happens to this file, also outside of rounds. */
void trace_to(FILE *file);

/* Begins the record of a round, and drops what was recorded before. */
void trace_begin(uint32_t round, const char *settings);

/* Writes to a file what was recorded since the round began. */
void trace_write(const char *path);

/* Steps and arrivals after this call belong to the drawn action with this number in its round. If the number is 0, they
 * are played because the adapter has work. */
void trace_drawn(uint32_t number);

void trace_register(bool is_write, uint32_t offset, uint32_t value);
void trace_memory(const struct access_record *record);
void trace_poke(void);
void trace_step(enum kind kind, enum outcome outcome, uint32_t slot);
void trace_arrival(enum fate fate, uint32_t number, const uint8_t *frame, uint32_t size);
void trace_sent(const uint8_t *frame, uint32_t size, bool is_right);
void trace_line(bool level);

/* The test program's verdict on the round, after the replies that didn't come. */
void trace_lost(uint32_t number);
void trace_verdict(uint32_t verdict);

/* Writes the rest to the file of `trace_to`. */
void trace_end(void);

#endif
