#include "reached.h"

#include <inttypes.h>

#include "report.h"

enum { ROOM = 1 << 16 };

static struct pair {
    uint64_t from, to, made, with_step;
} pairs[ROOM];
static unsigned pair_count;
static uint64_t last;
static bool had_step;

static unsigned place_of(uint64_t from, uint64_t to)
{
    return (unsigned)(((from * 31 + to) * 0x9E3779B97F4A7C15ull) >> 48);
}

static struct pair *pair_of(uint64_t from, uint64_t to)
{
    unsigned place = place_of(from, to);

    while (pairs[place].made && (pairs[place].from != from || pairs[place].to != to))
        place = (place + 1) % ROOM;
    if (pairs[place].made == 0) {
        if (++pair_count == ROOM)
            fail("there are too many pairs of accesses");
        pairs[place].from = from;
        pairs[place].to = to;
    }
    return &pairs[place];
}

void reached_begin(void)
{
    last = 0;
    had_step = false;
}

void reached_access(uint64_t site)
{
    struct pair *pair;

    if (last != 0) {
        pair = pair_of(last, site);
        pair->made++;
        pair->with_step += had_step;
    }
    last = site;
    had_step = false;
}

void reached_step(void)
{
    had_step = true;
}

void reached_write(FILE *file)
{
    for (unsigned place = 0; place < ROOM; place++)
        if (pairs[place].made)
            fprintf(file, "%" PRIx64 " %" PRIx64 " %" PRIu64 " %" PRIu64 "\n", pairs[place].from, pairs[place].to,
                    pairs[place].made, pairs[place].with_step);
}
