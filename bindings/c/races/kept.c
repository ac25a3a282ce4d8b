/* Names of places. Each is kept once, as long as the program runs: schedules point to them. */
#include "races.h"
#include <stdlib.h>
#include <string.h>

enum { FIRST_ROOM = 1024 };
static char **table;
static size_t room, count;

static size_t hash_of(const char *name)
{
    uint64_t hash = 0xcbf29ce484222325;

    while (*name)
        hash = (hash ^ (unsigned char)*name++) * 0x100000001B3;
    return (size_t)(hash ^ hash >> 32);
}

static char **entry_of(char **of, size_t size, const char *name)
{
    size_t at = hash_of(name) & (size - 1);

    while (of[at] && strcmp(of[at], name))
        at = (at + 1) & (size - 1);
    return &of[at];
}

static void enlarge(void)
{
    size_t size = room ? 2 * room : FIRST_ROOM;
    char **larger = calloc(size, sizeof *larger);

    if (!larger)
        xi_die("memory is refused");
    for (size_t n = 0; n < room; n++)
        if (table[n])
            *entry_of(larger, size, table[n]) = table[n];
    free(table);
    table = larger, room = size;
}

/* Returns the kept copy of a name. */
const char *xr_kept(const char *name)
{
    char **entry;

    if (2 * count >= room)
        enlarge();
    entry = entry_of(table, room, name);
    if (!*entry) {
        if (!(*entry = strdup(name)))
            xi_die("memory is refused");
        count++;
    }
    return *entry;
}
