/* The search of schedules, which is proved: crates/search has the contracts of these calls.
 *
 * The search has no loop of its own. The explorer plays the runs: at each place it calls schedule_search_meet, and
 * after each run schedule_search_back. It keeps the path of choices and the table of known states.
 */
#ifndef SCHEDULE_SEARCH_H
#define SCHEDULE_SEARCH_H

#include <stdbool.h>
#include <stddef.h>
#include <stdint.h>

/* The digest of a state. If `one` is 0, the state isn't known. */
struct schedule_key {
    uint64_t one, two;
};

/* A place of a run: its state, and the number of deviations that are possible there. */
struct schedule_place {
    struct schedule_key key;
    uint32_t possible;
};

/* What a run takes at a place: the number of a deviation, or `place.possible` for no deviation. `left` is the maximum
 * total cost of the deviations at this place and after it. */
struct schedule_choice {
    struct schedule_place place;
    uint32_t left, taken;
};

/* An entry of the table: a state from which all schedules pass whose deviations cost at most `left`. If `key.one` is 0,
 * the entry is empty. */
struct schedule_known {
    struct schedule_key key;
    uint32_t left;
};

/* A search of the schedules whose deviations cost at most `depth` in total. Each deviation costs `cost`: 1, or 0 if
 * there may be any number of them. `count` is the number of choices in the path. From the place of each of the first
 * `failing` choices, a schedule has failed, so the states of these places don't become known. */
struct schedule_search {
    uint32_t depth, cost;
    size_t count, failing;
};

/* What the explorer does at a place. GOES: it takes the newest choice of the path. PASSES: all schedules that begin
 * with the path pass, if their deviations cost at most `depth` in total. FULL: the path has no room for another
 * choice. */
enum { SCHEDULE_GOES, SCHEDULE_PASSES, SCHEDULE_FULL };
/* What the explorer does after a step back. ANOTHER: the newest choice of the path has changed, and the next run takes
 * it. REMOVED: the newest choice was removed, and all schedules that begin with the shorter path were tried. ENDED: all
 * schedules were tried. */
enum { SCHEDULE_ANOTHER, SCHEDULE_REMOVED, SCHEDULE_ENDED };

/* Begins a search, with an empty path of at most `most` choices. Empties a table of `room` entries. */
void schedule_search_begin(struct schedule_search *search, const struct schedule_choice *path, size_t most,
                           struct schedule_known *known, size_t room, uint32_t depth, uint32_t cost);
/* The run of the path is at this place. Returns SCHEDULE_GOES, SCHEDULE_PASSES or SCHEDULE_FULL. */
uint32_t schedule_search_meet(struct schedule_search *search, struct schedule_choice *path, size_t most,
                              const struct schedule_known *known, size_t room, const struct schedule_place *place);
/* Makes a step back: all schedules that begin with the path were tried. Returns SCHEDULE_ANOTHER, SCHEDULE_REMOVED or
 * SCHEDULE_ENDED. */
uint32_t schedule_search_back(struct schedule_search *search, struct schedule_choice *path, size_t most,
                              struct schedule_known *known, size_t room);
/* Notes that the run of the path has failed, so that the states of the path don't become known. */
void schedule_search_fail(struct schedule_search *search);
/* Returns the index of the first entry that is empty or has this key. Begins at entry `key->one` modulo `room`, and
 * continues at entry 0 after the last entry. Returns `room` if there is no such entry. */
size_t schedule_search_find(const struct schedule_known *known, size_t room, const struct schedule_key *key);
/* Notes the entries of the table `from` that aren't empty in the table `known`, as far as there is room. */
void schedule_search_grow(const struct schedule_known *from, size_t count, struct schedule_known *known, size_t room);

/* An action: what may be done before an access or a request. In a table of at most 64 actions, its index is its number;
 * in a mask, action `n` is bit `n`. */
#define SCHEDULE_NONE UINT32_MAX
#define SCHEDULE_FREE UINT32_MAX
/* How an action is drawn. ENGINE: by the mode of the drawing. HALF, QUARTER: once a place, with probability 1/2 or 1/4.
 * ANSWER: of the possible actions of this kind, a place has one or none. */
enum { SCHEDULE_ENGINE, SCHEDULE_HALF, SCHEDULE_QUARTER, SCHEDULE_ANSWER, SCHEDULE_UNDRAWN };
struct schedule_action {
    uint32_t actor;         /* at one place, actions of two actors commute; those of SCHEDULE_FREE with none */
    uint32_t first, second; /* of a pair, the numbers of its two actions, of the same actor; otherwise SCHEDULE_NONE */
    uint32_t drawn;         /* SCHEDULE_ENGINE to SCHEDULE_UNDRAWN */
    uint32_t group;         /* for bursts and priorities: its group, from 1 on (0 is the driver), or SCHEDULE_NONE */
};

/* Writes the options at a place into `into`, in ascending order, as far as there is room. Returns their number, at most
 * 64. `possible` is the mask of the actions that would do something. `last` is the last action at this place, or
 * SCHEDULE_NONE. If every schedule is searched (`is_every`), all possible actions but pairs are options. Otherwise, all
 * are options that are tried after `last`: those of its actor or a greater one, except for the second action of a pair
 * whose first action is `last`; after or before an action of SCHEDULE_FREE, all. */
size_t schedule_search_options(const struct schedule_action *actions, size_t count, uint64_t possible, uint32_t last,
                               bool is_every, uint8_t *into, size_t room);

/* What determines the draws of a run. UNIFORM: before each access, each action of an engine with probability 1/2, in a
 * random order. BURSTS: before one access of 16, a random set of groups does all its work, at most 64 actions. PCT:
 * probabilistic concurrency testing. The group with the highest priority goes first, and of a group the possible action
 * with the highest number; at `depth` - 1 random events, the group of the event gets a priority below all first ones. The
 * driver is group 0. Its events are places; at places of a handler that has cut in, the handler's group is in its place.
 * `depth` is at most 16, `events` the number of places and actions of a run without deviations, and `groups` the number
 * of groups with the driver's, at most 64. Only PCT uses these three. Before requests that begin a round, UNIFORM and
 * BURSTS draw only one time in 8. */
enum { SCHEDULE_UNIFORM, SCHEDULE_BURSTS, SCHEDULE_PCT };
struct schedule_drawing {
    uint32_t mode, depth, events, groups;
    uint64_t seed, number; /* of the run: equal ones draw the same in equal modes */
};
struct schedule_site {
    uint64_t possible; /* the actions that would do something when the place is reached */
    uint64_t poll;     /* 0 if the place is no read; otherwise equal for reads of one register or address */
    bool is_request;   /* the place is a request that begins a round */
    uint32_t runs;     /* the group that runs at the place: 0, or that of a handler that has cut in */
};
/* The draws of a run: only the calls change these. */
struct schedule_draw {
    struct schedule_drawing settings;
    uint64_t state, stream; /* of a generator PCG32 */
    uint64_t left;          /* the actions that may still be drawn at this place */
    uint64_t chosen;        /* those of engines (UNIFORM), or the groups (BURSTS), that were chosen for this place */
    uint32_t phase, burst;
    uint32_t priorities[64], changes[16], event, reads;
    uint64_t poll;
    bool must_wait;
    uint32_t runs;
};

/* Begins the draws of a run. At each place, the caller calls schedule_search_draw_place, and then does what
 * schedule_search_draw_next returns, until this is SCHEDULE_NONE: the run goes on. After an action that ends the place
 * (the handler cuts in, an answer), the caller goes on at once. `possible` is the mask of the actions that would do
 * something now: only such actions are drawn. First come actions of QUARTER, then of ENGINE, then of HALF, and then an
 * answer. What is drawn depends only on the arguments. */
void schedule_search_draw(struct schedule_draw *draw, const struct schedule_drawing *settings);
void schedule_search_draw_place(struct schedule_draw *draw, const struct schedule_site *site);
uint32_t schedule_search_draw_next(struct schedule_draw *draw, const struct schedule_action *actions, size_t count,
                                   uint64_t possible);

/* A deviation: an action before an access or a request. */
struct schedule_deviation {
    uint32_t round, access, sub, action;
};
/* How far the shrinking of a schedule is: only the calls change this. */
struct schedule_shrink {
    size_t part, at;
    uint32_t phase, step;
    bool is_changed, is_asked;
};

/* Begins to shrink a failing schedule of `count` deviations. The caller plays what schedule_search_shrink_next returns,
 * until this is SIZE_MAX. If a schedule fails, and did something with fewer deviations than `kept`, or as many of which
 * an answer is lower, the caller keeps what did something, and calls schedule_search_shrink_fails. */
void schedule_search_shrink(struct schedule_shrink *shrink, size_t count);
/* Writes the next schedule to play in place of the failing schedule `kept`: `kept` without a run of neighbors, or with
 * a lower answer, or with two deviations joined to their pair at the place of one of them. Returns its number of
 * deviations, or SIZE_MAX if none is left, or if `room` is less than `kept_count`. */
size_t schedule_search_shrink_next(struct schedule_shrink *shrink, const struct schedule_action *actions, size_t count,
                                   const struct schedule_deviation *kept, size_t kept_count,
                                   struct schedule_deviation *into, size_t room);
/* Notes that this schedule fails and is kept: `count` of its deviations did something. */
void schedule_search_shrink_fails(struct schedule_shrink *shrink, size_t count);

#endif
