/* Between which of the driver's accesses steps were played. */
#ifndef REACHED_H
#define REACHED_H

#include <stdbool.h>
#include <stdint.h>
#include <stdio.h>

/* The place of an access in the driver: an instruction, or a register. */
static inline uint64_t site_of_memory(uint64_t instruction)
{
    return instruction;
}

static inline uint64_t site_of_register(bool is_write, uint32_t offset)
{
    return (uint64_t)is_write << 32 | offset;
}

/* Begins a round: the next access follows no other. */
void reached_begin(void);

/* Notes an access of the driver. */
void reached_access(uint64_t site);

/* Notes that a step did something after the last access. */
void reached_step(void);

/* Writes each pair of consecutive accesses: the two sites, how often the pair was made, and how often with a step
 * between both. */
void reached_write(FILE *file);

#endif
