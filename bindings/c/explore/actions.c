/* The actions: what may be done before an access or a request, in one table for the searches, the draws and the
 * shrinking of schedules. The law of the options (crates/search) holds if actions of two actors commute at one place.
 */
#include "inside.h"
#include <stdio.h>
#include <string.h>

#define B xi_book
#define S xi_state
#define BIT(action) ((uint64_t)1 << (action))

enum { OF_TEST = X_KINDS }; /* the actor of what isn't done by the device */
const char *xi_actions[ACTIONS];
struct schedule_action xi_table[ACTIONS];

bool xi_is_clock(int action)
{
    return action >= 0 && action < X_KINDS && xi_device->clocks >> action & 1;
}

/* Whether the run goes on after this action at a place */
bool xi_ends_place(int action)
{
    return action >= IRQ;
}

static const struct x_pair *pair_of(int action)
{
    const struct x_pair *pair = &xi_device->pairs[action - PAIR];

    return pair->name ? pair : NULL;
}

static void know_names(void)
{
    static const char *const others[] = { "irq", "late irq", "hold step" };
    static char holds[CLOCKS][32];

    for (int n = 0; n < ACTIONS; n++)
        xi_actions[n] = n >= CHOICE ? "choose" : n < (int)xi_device->kinds ? xi_device->steps[n] : " ";
    for (int n = PAIR; n < HOLD; n++)
        if (pair_of(n))
            xi_actions[n] = pair_of(n)->name;
    for (unsigned n = 0; n < xi_clocks; n++) {
        snprintf(holds[n], sizeof holds[n], "hold %s", xi_device->steps[xi_clock[n]]);
        xi_actions[HOLD + n] = holds[n];
    }
    for (unsigned n = 0; n < X_ACTORS; n++)
        xi_actions[ACTOR + n] = xi_actor(n);
    xi_actions[ARRIVAL] = "arrive";
    memcpy(&xi_actions[IRQ], others, sizeof others);
}

/* Of the 82540EM, a frame that arrives goes to the receive engine. What arrives at another device, and the steps of
 * clocks and their holds, commute with nothing. */
static uint32_t actor_of(int action)
{
    if (action >= IRQ)
        return OF_TEST;
    if (action >= PAIR && action < HOLD && pair_of(action))
        return actor_of((int)pair_of(action)->first);
    if (action == ARRIVAL && xi_is_nic())
        return actor_of(NIC_RXDATA);
    return action < (int)xi_device->kinds && !xi_is_clock(action) ? xi_device->engines[action] : SCHEDULE_FREE;
}

static uint32_t drawn_as(int action)
{
    if (action >= CHOICE)
        return SCHEDULE_ANSWER;
    if (action == LATE_IRQ || action >= ACTOR || xi_is_clock(action))
        return SCHEDULE_QUARTER;
    if (action >= HOLD)
        return SCHEDULE_HALF;
    return action < (int)xi_device->kinds || (action == ARRIVAL && xi_device->arrive) ? SCHEDULE_ENGINE
                                                                                      : SCHEDULE_UNDRAWN;
}

/* The group of an action in bursts and by priorities. The fetching and the putting of frames by the 82540EM are two. */
static uint32_t group_of(int action)
{
    static const uint32_t of_nic[] = { 2, 3, 1, 1 };

    if (action == IRQ)
        return HANDLER;
    if (drawn_as(action) != SCHEDULE_ENGINE)
        return SCHEDULE_NONE;
    return action == ARRIVAL ? WIRE : xi_is_nic() ? of_nic[action] : 1 + xi_device->engines[action];
}

/* Refuses an actor whose name is that of another action: a schedule couldn't be read. */
static void check_names(void)
{
    for (int n = ACTOR; n < CHOICE; n++)
        for (int other = 0; other < ACTIONS; other++)
            if (other != n && strcmp(xi_actions[n], " ") && !strcmp(xi_actions[n], xi_actions[other]))
                xi_die("x_actors: an actor has the name of another action");
}

/* Takes the names and the table of the actions from the device. */
void xi_know_actions(void)
{
    know_names();
    check_names();
    for (int n = 0; n < ACTIONS; n++) {
        const struct x_pair *pair = n >= PAIR && n < HOLD ? pair_of(n) : NULL;
        xi_table[n] = (struct schedule_action){ actor_of(n), pair ? pair->first : SCHEDULE_NONE,
                                                pair ? pair->second : SCHEDULE_NONE, drawn_as(n), group_of(n) };
    }
}

static uint64_t steps_here(bool with_holds)
{
    unsigned possible = xi_possible() & ((1u << xi_device->kinds) - 1);
    uint64_t mask = with_holds ? possible : possible & ~xi_device->clocks;

    for (int n = PAIR; n < HOLD; n++)
        if (pair_of(n) && possible >> pair_of(n)->first & 1)
            mask |= BIT(n);
    if (S->offered < S->offers.count)
        mask |= BIT(ARRIVAL);
    if (with_holds && B->event == STEP && B->address < xi_device->kinds && possible >> B->address & 1)
        mask |= BIT(HOLD_STEP);
    for (unsigned n = 0; n < X_ACTORS; n++)
        if (xi_may_run(n))
            mask |= BIT(ACTOR + n);
    if (B->event == CHOOSE && B->address > 1)
        mask |= (BIT(B->address - 1) - 1) << CHOICE;
    return mask;
}

/* The mask of the actions that would do something at the place where the run is, after its default steps. Only with
 * holds, these are also steps of clocks, and the hold of an x_step. */
uint64_t xi_here(bool with_holds)
{
    if (B->event == CALL)
        return BIT(LATE_IRQ);
    return (S->handler && xi_may_cut_in() ? BIT(IRQ) : 0) | (B->event == PAUSE ? 0 : steps_here(with_holds));
}

/* Takes the default steps of this place, up to the first one that may be held. Returns the mask of its hold; 0 if there
 * is none. */
uint64_t xi_next_hold(bool with_holds)
{
    for (; B->stage < xi_clocks; B->stage++)
        if (xi_possible() >> xi_clock[B->stage] & 1) {
            if (with_holds)
                return BIT(HOLD + B->stage);
            xi_play(xi_clock[B->stage]);
        }
    return 0;
}
