/* What the tests of the proved search share: comparisons, random numbers, and tables of actions. */
#ifndef SEARCH_MODEL_H
#define SEARCH_MODEL_H

#include "schedule_search.h"
#include <math.h>
#include <stdio.h>
#include <stdlib.h>
#include <string.h>

static uint64_t random_state = 1;
static struct schedule_action table[64];
static size_t table_size;

/* Prints the first difference, and ends the program. */
static inline void fail(const char *what, long got, long wanted)
{
    fprintf(stderr, "%s: %ld in place of %ld\n", what, got, wanted);
    exit(1);
}

static inline void same(const char *what, long got, long wanted)
{
    if (got != wanted)
        fail(what, got, wanted);
}

/* A count of `all` tries with this probability is within 5 standard deviations of its mean. */
static inline void near(const char *what, long got, long all, double chance)
{
    double mean = (double)all * chance, width = 5 * sqrt((double)all * chance * (1 - chance));

    if (fabs((double)got - mean) > width)
        fail(what, got, (long)mean);
}

static inline uint32_t below(uint32_t end)
{
    random_state = random_state * 2862933555777941757u + 3037000493u;
    return (uint32_t)((random_state >> 32) * end >> 32);
}

static inline void add(uint32_t actor, uint32_t drawn, uint32_t group)
{
    table[table_size++] = (struct schedule_action){ actor, SCHEDULE_NONE, SCHEDULE_NONE, drawn, group };
}

static inline void add_pair(uint32_t first, uint32_t second)
{
    table[table_size++] =
        (struct schedule_action){ table[first].actor, first, second, SCHEDULE_UNDRAWN, SCHEDULE_NONE };
}

static inline bool is_pair_of(size_t pair, uint32_t first, uint32_t second)
{
    return table[pair].first == first && table[pair].second == second;
}

#endif
