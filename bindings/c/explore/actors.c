/* The actors of the test: code that a schedule lets run before an access or another place. */
#include "inside.h"
#include <stdio.h>
#include <string.h>

#define B xi_book
#define S xi_state

enum { LONGEST_NAME = 24 };
static const struct x_actor *actors;
static unsigned actor_count;
uint64_t xi_impossible;

/* Whether a name can be read again from a line of a schedule */
static bool is_name(const char *name)
{
    size_t size = name ? strlen(name) : 0;

    return size && size <= LONGEST_NAME && strspn(name, "abcdefghijklmnopqrstuvwxyz0123456789_-") == size;
}

void x_actors(const struct x_actor *given, unsigned count)
{
    if (count > X_ACTORS || (count && !given))
        xi_die("x_actors: there are more than 8 actors, or no list of them");
    for (unsigned n = 0; n < count; n++)
        if (!is_name(given[n].name) || !given[n].ready || !given[n].run)
            xi_die("x_actors: an actor has no function, or no name of small letters, digits, _ and -, at most 24");
    actors = given, actor_count = count;
}

/* The name of an actor, or a blank if there is none of this number */
const char *xi_actor(unsigned number)
{
    return number < actor_count ? actors[number].name : " ";
}

/* Whether an actor can run before the place at which the run is */
bool xi_may_run(unsigned number)
{
    bool is_place = B->event != CALL && B->event != PAUSE && B->event != ENDED;

    return is_place && number < actor_count && !S->actor && !S->cuts_in && actors[number].ready();
}

static void tell(unsigned number, const char *what, bool is_deviation)
{
    char mark[LONGEST_NAME + 16];

    snprintf(mark, sizeof mark, "%s %s", actors[number].name, what);
    xi_log_mark(mark, is_deviation);
}

/* Chooses the actor that runs before the place at which the run is. Returns whether it can. */
bool xi_take_turn(unsigned number)
{
    bool can = xi_may_run(number);

    S->actor = can ? number + 1 : 0;
    return can;
}

/* Runs the actor that was chosen, on the stack of the test. */
void xi_run_actor(void)
{
    unsigned number = S->actor - 1, before = S->runs;

    S->actor = 0, S->runs = 2 + number;
    tell(number, "runs", true);
    xi_back();
    actors[number].run();
    xi_pause();
    S->runs = before;
    tell(number, "has run", false);
}

void x_impossible(void)
{
    if (xi_is_piped)
        xi_die("x_impossible: a test with actors has no --pipe");
    xi_impossible++;
    S->fault = NULL;
    for (;;)
        xi_leave(ENDED, 0);
}
