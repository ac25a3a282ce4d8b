/* Plays given schedules. */
#include "inside.h"
#include <stdio.h>
#include <string.h>

#define B xi_book

static bool is_hold(const struct deviation *one, unsigned stage)
{
    return one->action == (int)(HOLD + stage);
}

static bool is_here(const struct deviation *one)
{
    return one->round == B->round && one->access == B->access && one->sub == B->sub;
}

/* If this deviation names another access or request than the one here, notes it. */
static void compare_place(const struct deviation *one, struct lack *lack)
{
    char name[32], wanted[32];
    struct place here = xi_place();
    size_t size;

    xi_name(name, sizeof name, &here), xi_name(wanted, sizeof wanted, &one->before);
    if (!strcmp(name, wanted))
        return;
    xi_text(lack->text, sizeof lack->text, one), size = strlen(lack->text);
    snprintf(lack->text + size, sizeof lack->text - size, ": at this place, the test makes another access: %s", name);
}

/* Plays the default steps and the deviations of a place, those after an interrupt or an answer excepted. Returns the
 * index of the first later deviation. `lack` gets the first deviation that names another access. */
static unsigned play_here(const struct deviation *path, unsigned at, unsigned count, struct lack *lack)
{
    unsigned end = at;

    while (end < count && is_here(&path[end]) && (end == at || !xi_ends_place(path[end - 1].action)))
        end++;
    for (unsigned n = at; lack && !lack->text[0] && n < end; n++)
        compare_place(&path[n], lack);
    for (; B->stage < xi_clocks; B->stage++) {
        bool is_held = false;
        for (unsigned n = at; n < end; n++)
            is_held |= is_hold(&path[n], B->stage);
        if (is_held && xi_possible() >> xi_clock[B->stage] & 1)
            xi_deviate((int)(HOLD + B->stage));
        else if (xi_possible() >> xi_clock[B->stage] & 1)
            xi_play(xi_clock[B->stage]);
    }
    for (unsigned n = at; n < end; n++)
        if (!is_hold(&path[n], 0) && !is_hold(&path[n], 1))
            xi_deviate(path[n].action);
    return end;
}

/* Plays a schedule. If `lack` isn't NULL, it gets the first deviation that doesn't agree with the run, or an empty
 * text. */
void xi_replay(const struct deviation *path, unsigned count, bool is_new, struct lack *lack)
{
    unsigned at = 0;

    if (lack)
        *lack = (struct lack){ "", count };
    xi_begin(is_new);
    for (xi_next_place(); B->event != ENDED; xi_next_place())
        at = play_here(path, at, count, lack);
    if (lack)
        lack->unreached = at;
}
