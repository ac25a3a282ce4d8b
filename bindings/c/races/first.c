/* The runs without deviations: what COMMAND does by itself. A COMMAND whose lines differ from run to run can't be
 * searched, and the first line that differs is told. */
#include "races.h"
#include <stdlib.h>
#include <string.h>

#define B xi_book

enum { OFF, KEEP, COMPARE, MOST_SHOWN = 60, RUNS = 2, MOST_FIRST = 800 };
static int does;
static char *lines; /* of the first run, each with its size before it */
static size_t lines_end, lines_room, at;
static char difference[320];

static void keep(const char *line, size_t size)
{
    while (lines_end + sizeof size + size > lines_room) {
        lines_room = lines_room ? 2 * lines_room : 1 << 16;
        if (!(lines = realloc(lines, lines_room)))
            xi_die("memory is refused");
    }
    memcpy(lines + lines_end, &size, sizeof size);
    memcpy(lines + lines_end + sizeof size, line, size);
    lines_end += sizeof size + size;
}

static int shown(size_t size)
{
    return size < MOST_SHOWN ? (int)size : MOST_SHOWN;
}

/* Compares a line with that of the first run. NULL is the end of a run. */
static void compare(const char *line, size_t size)
{
    size_t first = 0;
    bool has_first = at < lines_end;

    if (difference[0])
        return;
    if (has_first)
        memcpy(&first, lines + at, sizeof first);
    if (has_first && line && first == size && !memcmp(lines + at + sizeof first, line, size)) {
        at += sizeof first + first;
        return;
    }
    if (!has_first && !line)
        return;
    snprintf(difference, sizeof difference, "after %u.%u, COMMAND %s%.*s%s in the first run, and %s%.*s%s then",
             B->round, B->access, has_first ? "sends `" : "ends", has_first ? shown(first) : 0,
             has_first ? lines + at + sizeof first : "", has_first ? "`" : "", line ? "sends `" : "ends",
             line ? shown(size) : 0, line ? line : "", line ? "`" : "");
}

/* Notes a line of the run, or its end if `line` is NULL. */
void xr_keep_line(const char *line, size_t size)
{
    if (does == KEEP && line)
        keep(line, size);
    else if (does == COMPARE)
        compare(line, size);
}

static struct outcome play(int as)
{
    does = as, at = 0;
    xi_replay(NULL, 0, true, NULL);
    xr_keep_line(NULL, 0);
    does = OFF;
    return xi_outcome();
}

/* The run without deviations isn't as before. Returns the exit status. */
static int unequal(const struct outcome *first, const struct outcome *then)
{
    if (difference[0])
        xi_say("%s\n", difference);
    else
        xi_say("the run without deviations %s%s, and then %s%s\n", first->fails ? "fails: " : "passes", first->fault,
               then->fails ? "fails: " : "passes", then->fault);
    return xi_unsaved("a second run isn't as the first one, without any deviation");
}

/* Plays the run without deviations three times, each in a process of its own. Returns the exit status if the run fails,
 * or if a later run isn't as the first one, or else -1. */
int xr_play_first(void)
{
    struct outcome first = play(KEEP), then;

    for (int n = 0; n < RUNS && !xi_stopped(); n++) {
        then = play(COMPARE);
        if (!xi_stopped() && (difference[0] || then.history != first.history))
            return unequal(&first, &then);
    }
    xi_is_first_short = xr_options <= MOST_FIRST;
    free(lines), lines = NULL;
    if (xi_stopped()) {
        xi_say("%s: nothing was searched yet\n", xi_why());
        return xi_finish("ended", 128 + xi_stopped());
    }
    if (!first.fails)
        return -1;
    xi_result.found.fails = true, memcpy(xi_result.found.fault, first.fault, sizeof first.fault);
    xi_say("without deviations: %s\n", first.fault);
    return xi_report(0);
}
