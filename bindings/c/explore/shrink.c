/* Makes a schedule that fails smaller: crates/search decides which schedules are tried in its place. */
#include "inside.h"

/* Plays a schedule. Returns whether the run fails. */
static bool fails(const struct schedule_deviation *schedule, size_t count)
{
    static struct deviation path[MOST_PATH];

    for (size_t n = 0; n < count; n++)
        path[n] = (struct deviation){ .round = schedule[n].round, .access = schedule[n].access, .sub = schedule[n].sub,
                                      .action = (int)schedule[n].action };
    xi_replay(path, (unsigned)count, false, NULL);
    return xi_state->fault;
}

/* Makes a schedule that fails smaller: fewer deviations, lower answers, and pairs in place of their steps. */
void xi_shrink(struct found *found)
{
    static struct schedule_deviation kept[MOST_PATH], tried[MOST_PATH];
    struct schedule_shrink shrink;
    size_t count;

    schedule_search_shrink(&shrink, found->count);
    for (;;) {
        for (unsigned n = 0; n < found->count; n++) {
            const struct deviation *one = &found->path[n];
            kept[n] = (struct schedule_deviation){ one->round, one->access, one->sub, (uint32_t)one->action };
        }
        count = schedule_search_shrink_next(&shrink, xi_table, ACTIONS, kept, found->count, tried, MOST_PATH);
        if (count > found->count)
            return; /* none is left */
        if (fails(tried, count)) {
            xi_keep(found);
            schedule_search_shrink_fails(&shrink, found->count);
        }
    }
}
