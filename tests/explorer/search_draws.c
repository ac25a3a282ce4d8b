/* Calls the draws of the proved search from C. Compares how often each action is drawn with its probability, and draws
 * by priorities with a model of its own.
 *
 * usage: search_draws uniform|bursts|priorities
 *
 * Prints what was compared. The first difference is printed on standard error, and ends the program with exit status 1.
 */
#include "search_model.h"

enum { RUNS = 64000 };

enum { PUT = 1, TAKE = 0, DATA = 2, DONE = 3, EARLY = 4, BOTH = 5, CUTS = 6, LATE = 7, ANSWERS = 8, ANSWER_COUNT = 3 };
static long counts[64], orders[4][4], answered[ANSWER_COUNT + 1], begun, pairs;

static void fixed_table(void)
{
    table_size = 0;
    add(2, SCHEDULE_ENGINE, 2), add(2, SCHEDULE_ENGINE, 3);
    add(3, SCHEDULE_ENGINE, 1), add(3, SCHEDULE_ENGINE, 1);
    add(SCHEDULE_FREE, SCHEDULE_QUARTER, SCHEDULE_NONE), add_pair(TAKE, PUT);
    add(4, SCHEDULE_HALF, SCHEDULE_NONE), add(4, SCHEDULE_QUARTER, SCHEDULE_NONE);
    for (int n = 0; n < ANSWER_COUNT; n++)
        add(4, SCHEDULE_ANSWER, SCHEDULE_NONE);
}

/* Draws a place. Each action of `possible` does something as often as `uses` has. */
static size_t draw_place(struct schedule_draw *draw, uint64_t possible, bool is_request, const int *uses,
                         uint8_t *drawn)
{
    struct schedule_site site = { possible, 0, is_request, 0 };
    int left[64];
    size_t count = 0;

    memcpy(left, uses, sizeof left);
    schedule_search_draw_place(draw, &site);
    for (;;) {
        uint64_t now = 0;
        for (size_t n = 0; n < table_size; n++)
            now |= (uint64_t)(possible >> n & 1 && left[n]) << n;
        uint32_t action = schedule_search_draw_next(draw, table, table_size, now);
        if (action == SCHEDULE_NONE)
            break;
        if (action >= 64 || !(now >> action & 1))
            fail("an impossible action", action, 0);
        if (table[action].drawn > SCHEDULE_ANSWER)
            fail("an action that isn't drawn", action, 0);
        left[action]--;
        drawn[count++] = (uint8_t)action;
    }
    same("an action after the last", schedule_search_draw_next(draw, table, table_size, possible), SCHEDULE_NONE);
    return count;
}

static void count_place(const uint8_t *drawn, size_t count)
{
    static const uint8_t order[4] = { SCHEDULE_QUARTER, SCHEDULE_ENGINE, SCHEDULE_HALF, SCHEDULE_ANSWER };
    const uint8_t *last = order;
    unsigned answer = 0;

    for (size_t n = 0; n < count; n++) {
        while (*last != table[drawn[n]].drawn)
            if (last++ == order + 3)
                fail("an action out of order", drawn[n], 0);
        counts[drawn[n]]++;
        if (drawn[n] >= ANSWERS)
            answer = drawn[n] - ANSWERS + 1;
        for (size_t m = 0; m < n; m++)
            if (drawn[m] == drawn[n])
                fail("an action twice", drawn[n], 0);
            else if (drawn[m] < 4 && drawn[n] < 4)
                orders[drawn[m]][drawn[n]]++, pairs++;
    }
    answered[answer]++;
}

static void uniform(void)
{
    static const int uses[64] = { 9, 9, 9, 9, 9, 9, 9, 9, 9, 9, 9 };
    struct schedule_drawing settings = { SCHEDULE_UNIFORM, 0, 0, 0, 7, 0 };
    struct schedule_draw draw, again;
    uint8_t drawn[128], drawn_again[128];

    for (settings.number = 0; settings.number < RUNS; settings.number++) {
        schedule_search_draw(&draw, &settings), schedule_search_draw(&again, &settings);
        for (int place = 0; place < 3; place++) {
            size_t count = draw_place(&draw, 0x7FF, false, uses, drawn);
            same("the draws again", (long)draw_place(&again, 0x7FF, false, uses, drawn_again), (long)count);
            same("a draw again", memcmp(drawn, drawn_again, count), 0);
            count_place(drawn, count);
        }
        begun += draw_place(&draw, 1 << TAKE | 1 << PUT, true, uses, drawn) > 0;
    }
    for (int n = 0; n < 4; n++)
        near("an action of an engine", counts[n], 3 * RUNS, 0.5);
    for (int one = 0; one < 4; one++)
        for (int other = 0; other < 4; other++)
            if (one != other)
                near("an order", orders[one][other], 3 * RUNS, 0.125);
    near("a step that is early", counts[EARLY], 3 * RUNS, 0.25), near("a late one", counts[LATE], 3 * RUNS, 0.25);
    near("one that cuts in", counts[CUTS], 3 * RUNS, 0.5), same("a pair", counts[BOTH], 0);
    for (int n = 0; n <= ANSWER_COUNT; n++)
        near("an answer", answered[n], 3 * RUNS, 1.0 / (ANSWER_COUNT + 1));
    near("a place before a round", begun, RUNS, 0.125 * 0.75);
    printf("uniform: %d runs, %ld pairs\n", RUNS, pairs);
}

/* A burst exhausts all actions of its groups, but makes at most 64. */
static bool check_burst(const uint8_t *drawn, size_t count, const int *uses)
{
    int done[64] = { 0 };

    for (size_t n = 0; n < count; n++)
        done[drawn[n]]++;
    for (int n = 0; count < 64 && n < 4; n++)
        if (done[n] && done[n] != uses[n])
            fail("actions of a burst", done[n], uses[n]);
    if (count < 64)
        same("one group", done[DATA], done[DONE]);
    if (count > 64)
        fail("actions of a burst", (long)count, 64);
    return count > 0;
}

static void bursts(void)
{
    static const int few[64] = { 5, 5, 5, 5 }, many[64] = { 40, 40, 40, 40 };
    struct schedule_drawing settings = { SCHEDULE_BURSTS, 0, 0, 0, 7, 0 };
    struct schedule_draw draw;
    uint8_t drawn[128];
    long some = 0, full = 0, before = 0;

    for (settings.number = 0; settings.number < 4 * RUNS; settings.number++) {
        schedule_search_draw(&draw, &settings);
        some += check_burst(drawn, draw_place(&draw, 0xF, false, few, drawn), few);
        size_t count = draw_place(&draw, 0xF, false, many, drawn);
        check_burst(drawn, count, many), full += count == 64;
        before += draw_place(&draw, 0xF, true, few, drawn) > 0;
    }
    near("a burst", some, 4 * RUNS, 7.0 / 8 / 16); /* with one of three groups at least */
    near("a full burst", full, 4 * RUNS, 5.0 / 8 / 16); /* with group 1, or with both others: 80 are possible */
    near("a burst before a round", before, 4 * RUNS, 7.0 / 8 / 16 / 8);
    printf("bursts: %ld of %d places\n", some, 4 * RUNS);
}

/* Priorities */

enum { GROUPS = 4, EVENTS = 40, DEPTH = 4 };
static long first_of[GROUPS], changed_at[EVENTS + 1];

static void check_priorities(const struct schedule_draw *draw)
{
    unsigned seen = 0;

    for (int group = 0; group < GROUPS; group++) {
        if (draw->priorities[group] < DEPTH || draw->priorities[group] >= DEPTH + GROUPS)
            fail("a first priority", draw->priorities[group], DEPTH);
        seen |= 1u << draw->priorities[group];
        first_of[group] += draw->priorities[group] == DEPTH;
    }
    same("different priorities", seen, ((1 << GROUPS) - 1) << DEPTH);
    for (int n = 0; n < 16; n++)
        if ((draw->changes[n] == 0) != (n >= DEPTH - 1) || draw->changes[n] > EVENTS)
            fail("a change", draw->changes[n], EVENTS);
        else
            changed_at[draw->changes[n]]++;
}

/* A model of its own: the priorities change with the events, counted from 1. */
static void count_event(uint32_t *priorities, const uint32_t *changes, unsigned *events, int group)
{
    ++*events;
    for (unsigned n = 0; n < DEPTH - 1; n++)
        if (changes[n] == *events)
            priorities[group] = n + 1;
}

static uint32_t wanted_action(const uint32_t *priorities, const int *left, uint32_t runs, bool must_wait)
{
    static const int group_of[4] = { 2, 3, 1, 1 };
    int first = -1;

    for (int n = 0; n < 4; n++)
        if (left[n] && (first < 0 || priorities[group_of[n]] >= priorities[group_of[first]]))
            first = n;
    if (first < 0 || (!must_wait && priorities[group_of[first]] <= priorities[runs]))
        return SCHEDULE_NONE;
    return (uint32_t)first;
}

static void play_priorities(struct schedule_draw *draw)
{
    static const int group_of[4] = { 2, 3, 1, 1 };
    uint32_t priorities[GROUPS], changes[16];
    int left[4] = { 6, 6, 6, 6 };
    unsigned events = 0, reads = 0;
    uint64_t last = 0;

    memcpy(priorities, draw->priorities, sizeof priorities), memcpy(changes, draw->changes, sizeof changes);
    for (int place = 0; place < 30; place++) {
        uint32_t named = place < 20 ? 0 : below(GROUPS + 1), runs = named < GROUPS ? named : 0;
        struct schedule_site site = { 0xF, place < 12 ? 5 : below(3), false, named < GROUPS ? named : 64 };
        reads = site.poll ? site.poll == last ? reads + 1 : 1 : 0, last = site.poll;
        bool must_wait = reads && reads % 4 == 0;
        schedule_search_draw_place(draw, &site);
        for (;;) {
            uint64_t possible = 0;
            for (int n = 0; n < 4; n++)
                possible |= (uint64_t)(left[n] > 0) << n;
            uint32_t action = schedule_search_draw_next(draw, table, table_size, possible);
            same("an action by priority", action, wanted_action(priorities, left, runs, must_wait));
            must_wait = false;
            count_event(priorities, changes, &events, action == SCHEDULE_NONE ? (int)runs : group_of[action]);
            if (action == SCHEDULE_NONE)
                break;
            left[action]--;
        }
    }
}

static void priorities(void)
{
    struct schedule_drawing settings = { SCHEDULE_PCT, DEPTH, EVENTS, GROUPS, 7, 0 };
    struct { struct schedule_draw draw; uint64_t after; } here = { .after = 0x1234567 };

    for (settings.number = 0; settings.number < RUNS; settings.number++) {
        schedule_search_draw(&here.draw, &settings);
        check_priorities(&here.draw);
        play_priorities(&here.draw);
        same("what is after the draws", (long)here.after, 0x1234567);
    }
    for (int group = 0; group < GROUPS; group++)
        near("the lowest priority", first_of[group], RUNS, 1.0 / GROUPS);
    for (int event = 1; event <= EVENTS; event++)
        near("a change at an event", changed_at[event], (DEPTH - 1) * RUNS, 1.0 / EVENTS);
    settings.depth = settings.groups = settings.events = UINT32_MAX;
    schedule_search_draw(&here.draw, &settings);
    settings.depth = settings.groups = settings.events = 0;
    schedule_search_draw(&here.draw, &settings);
    printf("priorities: %d runs\n", RUNS);
}

int main(int count, char **words)
{
    const char *what = count > 1 ? words[1] : "";

    fixed_table();
    if (!strcmp(what, "uniform"))
        uniform();
    else if (!strcmp(what, "bursts"))
        bursts();
    else if (!strcmp(what, "priorities"))
        priorities();
    else
        fail("usage: search_draws uniform|bursts|priorities", count, 2);
}
