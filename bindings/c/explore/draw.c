/* Draws schedules: crates/search decides what is done at each place.
 *
 * By priorities (--pct), the handler is an actor, too: it can go when the line is asserted, and while it runs, the
 * driver can't go. If the driver has the higher priority at the end of an access, the handler is late: after one more
 * access, only the handler can go.
 */
#include "inside.h"
#include <stdlib.h>

#define B xi_book
#define S xi_state
#define BIT(action) ((uint64_t)1 << (action))

enum { SCALES = 5 };

static struct saved first_round; /* before the request that begins round 1 */
static struct schedule_draw run, clocks; /* the draws of a run; those of holds, and of early steps of clocks */
struct pct xi_pct;

/* Removes the saved state from which runs are drawn. */
void xi_forget_first_round(void)
{
    free(first_round.bytes);
    first_round = (struct saved){ 0 };
}

/* Begins the draws of the run of a seed. */
static void begin(uint64_t seed, bool with_holds)
{
    uint32_t mode = xi_pct.depth ? SCHEDULE_PCT : seed % 2 ? SCHEDULE_BURSTS : SCHEDULE_UNIFORM;

    xi_table[IRQ].drawn = xi_pct.depth ? SCHEDULE_ENGINE : SCHEDULE_HALF;
    schedule_search_draw(&run, &(struct schedule_drawing){ mode, xi_pct.depth, xi_pct.events, GROUPS, seed, 0 });
    if (with_holds)
        schedule_search_draw(&clocks, &(struct schedule_drawing){ SCHEDULE_UNIFORM, 0, 0, 0, seed, 1 });
}

static uint32_t next_of_clocks(uint64_t possible)
{
    return possible ? schedule_search_draw_next(&clocks, xi_table, ACTIONS, possible) : SCHEDULE_NONE;
}

/* Draws which default steps of this place are held, and then which steps of clocks are early. */
static void draw_clocks(void)
{
    uint64_t hold;
    uint32_t early;

    for (; (hold = xi_next_hold(true)) != 0; B->stage++) {
        schedule_search_draw_place(&clocks, &(struct schedule_site){ hold, 0, false, DRIVER });
        if (next_of_clocks(hold) == SCHEDULE_NONE)
            xi_play(xi_clock[B->stage]);
        else
            xi_deviate((int)(HOLD + B->stage));
    }
    schedule_search_draw_place(&clocks, &(struct schedule_site){ 0, 0, false, DRIVER });
    while ((early = next_of_clocks(xi_here(true) & xi_device->clocks)) != SCHEDULE_NONE)
        xi_deviate((int)early);
}

/* Equal for reads of one register or address, and 0 at other places */
static uint64_t poll_here(void)
{
    return B->event == READ ? 1 + 2 * B->address : B->event == LOAD ? 2 + 2 * B->address : 0;
}

/* Whether an actor of the test may be drawn here. In some runs, each ready one would run at once: so a run draws them
 * at every place, or only at one of 2, 4, 8 or 16. By priorities, none is drawn. */
static bool draws_actors(void)
{
    uint64_t seed = run.settings.seed;

    return !xi_pct.depth && (B->places + seed / SCALES) % (1u << seed % SCALES) == 0;
}

/* What may be drawn here. By priorities, at the end of an access, the handler is about to go. */
static uint64_t drawable(bool with_holds)
{
    uint64_t left = xi_device->clocks | (BIT(HOLD) - BIT(PAIR)) | (draws_actors() ? 0 : BIT(CHOICE) - BIT(ACTOR));

    if (xi_pct.depth && B->event == CALL)
        return BIT(IRQ);
    return xi_here(with_holds) & ~left;
}

/* Whether something may be drawn now. By priorities, the driver's turn counts, too. Otherwise, only those steps are
 * drawn that were chosen for the place: without them, no call is needed. */
static bool is_turn(uint64_t possible)
{
    if (xi_pct.depth || possible >> PAIR)
        return true;
    return run.settings.mode == SCHEDULE_UNIFORM ? possible & run.chosen & run.left : possible && run.chosen;
}

/* Draws from the part of the table, from `first` on, that has all steps and all that is possible: a shorter table is
 * faster. */
static uint32_t next_of_run(uint64_t possible, unsigned first)
{
    uint64_t steps = (BIT(xi_device->kinds) - 1) & ~(uint64_t)xi_device->clocks;
    uint64_t actions = (xi_pct.depth || first ? possible : possible | steps) >> first;
    size_t count = actions ? 64 - (size_t)__builtin_clzll(actions) : 0;
    uint32_t action = schedule_search_draw_next(&run, xi_table + first, count, possible >> first);

    return action == SCHEDULE_NONE ? SCHEDULE_NONE : first + action;
}

/* Draws what is done at this place. */
static void draw_here(bool with_holds)
{
    uint64_t possible = drawable(with_holds);
    uint64_t steps = possible & (BIT(PAIR) - 1); /* without one, what is done ends the place */
    unsigned first = possible && !steps ? (unsigned)__builtin_ctzll(possible) : 0;
    bool is_call = xi_pct.depth && B->event == CALL, is_inside = S->handlers;
    uint32_t action;

    if (possible || xi_pct.depth)
        schedule_search_draw_place(&run, &(struct schedule_site){ steps, poll_here(), B->event >= ARRIVE,
                                                                  is_inside ? HANDLER : DRIVER });
    while (is_turn(possible) && (action = next_of_run(possible, first)) != SCHEDULE_NONE) {
        if (is_call)
            return;
        xi_deviate((int)action);
        if (xi_ends_place((int)action))
            return;
        possible = drawable(with_holds);
    }
    if (is_call && !is_inside)
        xi_deviate(LATE_IRQ);
}

/* Plays the run up to the request that begins round 1, or to the run's end */
static void to_first_round(bool with_holds)
{
    while (xi_next_place(), B->event != ENDED && B->round == 0)
        if (with_holds)
            draw_clocks();
        else
            xi_tick();
}

/* Plays the run of a seed. With --pct, deviations are drawn by priorities. Otherwise, an even seed draws steps before
 * each access, and an odd seed draws bursts. Up to round 1, only holds and early steps of clocks are drawn. */
void xi_draw(uint64_t seed, bool with_holds, bool is_new)
{
    begin(seed, with_holds);
    if (!is_new && !with_holds && first_round.bytes)
        xi_restore(&first_round);
    else {
        xi_begin(is_new);
        to_first_round(with_holds);
        if (xi_saves && !is_new && !with_holds)
            xi_save(&first_round);
    }
    for (; B->event != ENDED; xi_next_place()) {
        if (with_holds)
            draw_clocks();
        xi_tick();
        if (xi_searches)
            xi_digest(); /* this also clears what a search clears */
        draw_here(with_holds);
    }
}

/* The actors of the test: the driver, the groups of the device's steps, and the wire and the handler, if it has them */
static unsigned count_actors(void)
{
    uint64_t groups = 0;

    for (int n = 0; n < ARRIVAL; n++)
        if (xi_table[n].drawn == SCHEDULE_ENGINE)
            groups |= BIT(xi_table[n].group);
    return 1 + (unsigned)__builtin_popcountll(groups) + xi_has_offered + xi_has_handler;
}

/* From now on, runs are drawn by PCT of this depth. Counts the actors, and the events of the run without deviations. */
void xi_set_pct(unsigned depth)
{
    unsigned before;

    xi_begin(false);
    to_first_round(false);
    for (before = B->places + B->moves; B->event != ENDED; xi_next_place())
        xi_tick();
    xi_pct = (struct pct){ depth, count_actors(), B->places + B->moves - before };
}

/* The bound of PCT: each run finds a race of this depth with a probability of at least 1 divided by this number. Groups
 * without an actor in this test have priorities, too, but don't change the order of the others. */
double xi_bound(void)
{
    double bound = xi_pct.actors;

    for (unsigned n = 1; n < xi_pct.depth; n++)
        bound *= xi_pct.events;
    return bound;
}
