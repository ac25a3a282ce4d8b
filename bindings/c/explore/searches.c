/* The searches of a command, and what is printed of them. */
#define _GNU_SOURCE
#include "inside.h"
#include <stdlib.h>
#include <string.h>

enum { STATES_SMALLER = 500000, DEEPEST_FIRST = 3, STATES_FIRST = 10000, COMPARED = 32, FEW = 2 };

bool xi_is_first_short;
void (*xi_takes_drawn)(uint64_t seed);
void (*xi_explores_by)(int depth, bool with_holds, bool finds_all, size_t most_states, struct found *found);
static struct found *const found = &xi_result.found;
static uint64_t deviations, compared; /* above 0 if a deviation did something; the number of compared runs */
static int tried; /* all schedules of up to this number of deviations were tried, and pass */

static const char *plural(uint64_t count)
{
    return count == 1 ? "" : "s";
}

static const char *searched(int depth)
{
    static char text[96];
    const char *holds = xi_given.holds ? "with holds and fast steps" : "without holds";

    if (depth == EVERY)
        snprintf(text, sizeof text, "every schedule, with any number of deviations, %s", holds);
    else
        snprintf(text, sizeof text, "all schedules of up to %d deviation%s, %s", depth, plural((uint64_t)depth), holds);
    return text;
}

/* Ends of a search */

/* Plays from nothing the schedule that was found */
static struct outcome play_found(void)
{
    return xi_fresh_play(found->path, found->count);
}

/* The exit status of a search that has found a schedule: 1, or, after a signal, 128 plus its number */
static int found_status(void)
{
    if (xi_stopped())
        return xi_finish("ended", 128 + xi_stopped());
    return xi_finish("fails", FOUND);
}

static int unrepeatable(void)
{
    xi_say("The schedule of %u deviation%s passes when it is played from nothing. Does the test use a clock, random"
           " numbers, or what another process changes?\n",
           found->count, plural(found->count));
    return xi_finish("unrepeatable", FOUND);
}

static int nothing(void)
{
    xi_say("nothing was searched: in no run did a deviation do anything\n");
    return xi_finish("nothing", NOTHING);
}

/* Makes the schedule that was found shorter, if the shorter one fails from nothing. Returns the outcome of the one that
 * is kept, from nothing. */
static struct outcome shorten(const struct found *first)
{
    struct outcome outcome;

    xi_shrink(found);
    outcome = play_found();
    if (!outcome.fails)
        *found = *first, outcome = play_found();
    memcpy(found->fault, outcome.fault, sizeof outcome.fault);
    return outcome;
}

/* Reports a search of all schedules that was ended before it was complete. Returns the exit status. */
static int ended(void)
{
    static struct found first;
    uint64_t failed = xi_failed();

    xi_say("%s, after ", xi_why());
    if (!xi_has_command)
        xi_say("%llu states and ", (unsigned long long)xi_result.states);
    xi_say("%s schedule%s: ", xi_number(xi_result.schedules), xi_result.schedules == 1 ? "" : "s");
    if (!failed) {
        xi_say("none of these fails\n");
        return xi_finish("ended", xi_stopped() ? 128 + xi_stopped() : NOT_RUN);
    }
    xi_say("%llu of these fail\n", (unsigned long long)failed);
    if (!xi_given.json)
        xi_print_kinds();
    first = *found;
    if (!shorten(&first).fails)
        return unrepeatable();
    xi_say("the smallest so far has %u deviation%s\n", found->count, plural(found->count));
    xi_result.is_smallest = false;
    xi_show();
    xi_confirm_found();
    return found_status();
}

/* Reports a search in which no run fails. Returns the exit status. */
static int passes(void)
{
    if (compared || xi_repeated)
        xi_say("%llu drawn runs and %llu runs of the search have the answers of runs from nothing\n",
               (unsigned long long)compared, (unsigned long long)xi_repeated);
    if (xi_played_on)
        xi_say("%llu run%s from known states pass%s\n", (unsigned long long)xi_played_on, plural(xi_played_on),
               xi_played_on == 1 ? "es" : "");
    if (!xi_given.check && xi_is_nic())
        xi_say_seen();
    if (xi_has_handler && !xi_has_touched)
        xi_say("the handler cut in at accesses and requests, not between uses of shared variables: x_touch makes these "
               "places\n");
    return xi_finish("passes", PASSES);
}

/* Searches */

static void note_search(int depth)
{
    xi_result.states = found->states, xi_result.schedules = found->schedules;
    xi_result.widths = depth == EVERY ? 0 : (unsigned)depth + 1;
    memcpy(xi_result.tried, found->tried, sizeof xi_result.tried);
    deviations += found->count || found->schedules > 1;
}

static const char *ended_by(const char *fault)
{
    static char text[2][160];
    static int turn;

    turn = !turn;
    snprintf(text[turn], sizeof *text, fault[0] ? "fails (%s)" : "passes%s", fault);
    return text[turn];
}

/* A run of the search isn't as its schedule from nothing. Returns the exit status. */
static int wrong_search(void)
{
    bool is_other = strcmp(found->fault, found->fresh) != 0;

    if (found->is_known)
        xi_say("a run fails (%s) that leads through a state from which all schedules have passed. So this search isn't "
               "right: what does the test use that isn't a part of its state? Played from nothing, its schedule %s\n",
               found->fault, ended_by(found->fresh));
    else
        xi_say("a run of the search %s, but its schedule, played from nothing, %s%s. So this search isn't right. Does the"
           " test use a clock, random numbers, or what another process changes?\n", ended_by(found->fault),
           ended_by(found->fresh), is_other ? "" : " with other accesses or answers");
    xi_show();
    return xi_finish("differs", DIFFERS);
}

/* Tries all schedules of up to this number of deviations, or EVERY one. If the search is wrong, ends the program.
 * Returns whether the search has come to its end, or to a schedule that fails. */
static bool explore(int depth, uint64_t most, bool finds_all)
{
    xi_is_history_needless = false;
    (xi_explores_by ? xi_explores_by : xi_explore)(depth, xi_given.holds, finds_all, most, found);
    note_search(depth);
    if (found->differs)
        exit(wrong_search());
    return found->is_complete || (found->fails && !finds_all);
}

/* Looks for a schedule that fails with one or two deviations. If there is none, makes the schedule that was found
 * shorter. Then looks for one with fewer deviations, or with as many at earlier places; all with fewer than `least`
 * pass. Returns whether the one that is left is the smallest. */
static bool make_smaller(int least)
{
    static struct found first;

    first = *found;
    for (; least <= FEW && least < (int)first.count; least++) {
        bool is_complete = explore(least, STATES_SMALLER, false) && !xi_stopped();
        if (is_complete && found->fails)
            return true;
        if (!is_complete)
            break;
        tried = least;
    }
    *found = first;
    xi_shrink(found);
    first = *found;
    for (int depth = least; depth <= (int)first.count && depth <= DEEPEST; depth++) {
        bool is_complete = explore(depth, STATES_SMALLER, false) && !xi_stopped();
        if (is_complete && found->fails)
            return true;
        if (!is_complete) {
            *found = first;
            return depth == (int)first.count;
        }
        tried = depth;
    }
    *found = first;
    return tried >= (int)first.count;
}

static void say_smallest(bool is_smallest)
{
    const char *holds = found->count < 2 || xi_given.holds ? "" : ", apart from holds";

    if (found->count == 0)
        xi_say("no race: the test fails by itself, without any deviation\n");
    else if (is_smallest)
        xi_say("smallest: no schedule with fewer deviations fails%s\n", holds);
    else if (xi_stopped())
        xi_say("%s: not all schedules with fewer deviations were tried\n", xi_why());
    else
        xi_say("perhaps not the smallest: of those with fewer deviations, not all were tried\n");
}

/* A schedule fails. Looks for a smaller one, and prints it. Returns the exit status. */
int xi_report(int least)
{
    static struct found first;
    bool is_smallest = least >= (int)found->count;
    struct outcome outcome = play_found();

    if (!outcome.fails)
        return unrepeatable();
    first = *found;
    if (!is_smallest) {
        is_smallest = make_smaller(least);
        outcome = play_found();
    }
    if (!outcome.fails)
        *found = first, is_smallest = false, outcome = play_found();
    if (found->count < first.count)
        xi_say("%u deviation%s shrunk to %u\n", first.count, plural(first.count), found->count);
    memcpy(found->fault, outcome.fault, sizeof outcome.fault);
    xi_result.is_smallest = is_smallest || found->count == 0;
    say_smallest(is_smallest);
    xi_show();
    xi_confirm_found();
    return found_status();
}

int xi_by_depth(void)
{
    double begun = xi_spent();
    bool is_complete = explore(xi_given.depth, xi_given.states, xi_given.all);

    xi_result.is_complete = found->is_complete;
    if (!is_complete)
        return ended();
    if (found->fails && xi_given.all) {
        xi_say("%s: %llu of %s fail\n", searched(xi_given.depth), (unsigned long long)xi_failed(),
               xi_number(found->schedules));
        if (!xi_given.json)
            xi_print_kinds();
        return xi_report((int)found->count);
    }
    if (found->fails) {
        xi_say("%s: one with %u deviation%s fails: %s\n", searched(xi_given.depth), found->count,
               plural(found->count), found->fault);
        return xi_report(0);
    }
    if (!deviations)
        return nothing();
    xi_say("%s: none of %s fails\n", searched(xi_given.depth), xi_number(found->schedules));
    if (xi_saves)
        xi_say("%zu states, %d pages each, %.1f s\n", found->states, xi_pages(),
               xi_spent() - begun);
    return passes();
}

/* The run of a seed fails. Returns the exit status; -1 if more runs are drawn. */
static int add_failed_run(uint64_t seed)
{
    if (!found->fails)
        xi_result.seed = seed;
    if (!found->fails || xi_book->path_count < found->count)
        xi_keep(found);
    if (!xi_given.all)
        xi_say("%llu run%s\n", (unsigned long long)xi_result.runs, plural(xi_result.runs));
    xi_add_seed(seed, xi_state->fault);
    return xi_given.all ? -1 : xi_report(tried ? tried + 1 : 0);
}

int xi_unsaved(const char *run)
{
    xi_say("%s: the test doesn't repeat itself. Does it use a clock, random numbers, or what another process changes?\n",
           run);
    return xi_finish("unsaved", NOT_RUN);
}

/* Whether the run of a seed, from a saved state, is as one from nothing */
static bool is_repeated(uint64_t seed)
{
    return xi_outcome().history == xi_fresh_draw(seed).history;
}

static int differs(uint64_t seed)
{
    char text[96];

    found->fails = false, found->count = 0, found->fault[0] = 0, xi_result.seed = seed;
    snprintf(text, sizeof text, "seed %llu: a run from a saved state isn't as the one from nothing", (unsigned long long)seed);
    return xi_unsaved(text);
}

/* Draws 32 runs from a saved state, and clears in them what a search clears. A run that reads some of this is drawn
 * again. Returns the exit status if a run doesn't end, or isn't as the run of its seed from nothing, or else -1. */
int xi_compare_some(void)
{
    int status = -1;

    xi_searches = true;
    while (compared < COMPARED && !xi_stopped() && status < 0) {
        uint64_t seed = compared + 1;
        unsigned used = xi_dead_used;
        bool all = xi_reads_dead;
        xi_draw(seed, xi_given.holds, false);
        if (used != xi_dead_used || all != xi_reads_dead) {
            xi_forget_first_round();
            continue;
        }
        if (xi_is_late()) {
            xi_keep(found);
            xi_say("seed %llu: %s\n", (unsigned long long)seed, found->fault);
            status = xi_report(0);
        } else if (!is_repeated(seed))
            status = differs(seed);
        compared++;
    }
    xi_searches = false;
    xi_forget_first_round();
    return status;
}

/* Plays the run of a seed, or takes what another process has played of it. */
static void take_drawn(uint64_t seed)
{
    if (xi_takes_drawn)
        xi_takes_drawn(seed);
    else
        xi_draw(seed, xi_given.holds, !xi_saves);
}

/* Draws runs, each from a saved state if states are saved, and with --check also from nothing. Returns the exit status,
 * or -1 if no run fails. */
static int draw(void)
{
    double begun = xi_spent();
    int status;

    xi_is_history_needless = !xi_given.check;
    for (uint64_t n = 0; n < xi_given.runs && !xi_stopped(); n++) {
        uint64_t seed = xi_given.seed + n;
        take_drawn(seed);
        if (xi_is_cut)
            break;
        xi_result.runs++, deviations += xi_book->did;
        if (xi_given.check && !is_repeated(seed))
            return differs(seed);
        if (xi_state->fault && (status = add_failed_run(seed)) >= 0)
            return status;
        if (xi_is_time())
            xi_progress("%llu of %llu runs", (unsigned long long)n, (unsigned long long)xi_given.runs);
    }
    if (deviations)
        xi_say("%llu run%s, %.0f a second\n", (unsigned long long)xi_result.runs, plural(xi_result.runs),
               (double)xi_result.runs / (xi_spent() - begun + 1e-6));
    xi_result.is_complete = !xi_stopped();
    if (found->fails) {
        xi_say("%llu of them fail\n", (unsigned long long)xi_failed());
        return xi_report(0);
    }
    if (xi_stopped()) {
        xi_say("%s: none of these runs fails\n", xi_why());
        return xi_finish("ended", 128 + xi_stopped());
    }
    return -1;
}

/* Tries all schedules of one deviation, and, while there are few states, of two and of three. Returns the exit status,
 * or -1 if none fails. */
static int explore_first(void)
{
    xi_result.first = 0;
    for (int depth = 1; depth == 1 || (xi_saves && depth <= DEEPEST_FIRST && found->states <= STATES_FIRST); depth++) {
        bool is_complete = explore(depth, xi_given.states, false);
        xi_result.first = xi_result.schedules;
        if (!is_complete)
            return ended();
        if (found->fails) {
            xi_say("%s: one fails: %s\n", searched(depth), found->fault);
            return xi_report(depth);
        }
        tried = depth;
    }
    if (!deviations)
        return nothing();
    xi_say("%s: none of %s fails\n", searched(tried), xi_number(found->schedules));
    return -1;
}

int xi_by_draws(void)
{
    int status = -1;

    xi_result.is_complete = false;
    if (xi_given.pct) {
        xi_set_pct(xi_given.pct);
        if (!xi_pct.events)
            return nothing();
        xi_say("PCT, depth %u: %u actors, %u events: a run of no more events finds a race of this depth%s with a "
               "probability of at least 1/%.0f\n", xi_pct.depth, xi_pct.actors, xi_pct.events,
               xi_has_chosen || xi_given.holds ? ", with its answers and holds," : "", xi_bound());
    } else if (xi_given.depth == DRAWN && (xi_saves || xi_is_first_short) && !xi_given.check && !xi_given.all)
        status = explore_first();
    if (status < 0)
        status = draw();
    if (status >= 0)
        return status;
    if (!deviations)
        return nothing();
    if (xi_given.check)
        xi_say("each has the answers of a run from nothing\n");
    else
        xi_say("no run fails\nother searches: %s--explore %d%s%s\n", xi_has_command ? "" : "--explore every, ",
               tried ? tried + 1 : DEEPEST_FIRST,
               xi_given.pct ? "" : ", --pct 2 (by priorities)",
               xi_given.holds ? "" : ", --holds (a slow EEPROM and PHY)");
    return passes();
}

/* A deviation of the schedule is at a place that the run doesn't reach. Returns the exit status. */
static int unreached(unsigned number)
{
    static const char why[] = "the run doesn't reach this place";

    snprintf(found->fault, sizeof found->fault, "%s", why);
    xi_finish("mismatch", USAGE);
    fflush(xi_out);
    xi_refuse(xi_given.replay, number, why);
}

int xi_replay_given(void)
{
    struct lack lack;
    bool is_unreached;

    found->count = (unsigned)xi_read_schedule(xi_given.replay, found->path);
    xi_steps_open(found->path, found->count);
    xi_replay(found->path, found->count, true, &lack);
    is_unreached = !lack.text[0] && lack.unreached < found->count;
    if (lack.text[0] && !xi_steps)
        xi_say("%s\n", lack.text);
    found->fails = xi_state->fault != NULL;
    if (found->fails)
        snprintf(found->fault, sizeof found->fault, "%s", xi_state->fault);
    if (!xi_steps) /* else this is the log's end */
        xi_say("%s\n", found->fails ? found->fault : "The test passes.");
    xi_confirm_found();
    if (is_unreached)
        return unreached(lack.unreached);
    if (lack.text[0] && !found->fails)
        snprintf(found->fault, sizeof found->fault, "%s", lack.text);
    return xi_finish(found->fails ? "fails" : lack.text[0] ? "mismatch" : "passes",
                     found->fails || lack.text[0] ? FOUND : PASSES);
}
