/* The variables that the actors of a test share. A deviation before an access of another variable does the same as one
 * before the next place, so a search doesn't try it, and only counts the place: so schedules don't depend on what it
 * knows. Who uses a variable is noted for all runs, and isn't a part of any state. */
#include "inside.h"

#define B xi_book
#define S xi_state

enum { WORDS = 1 << 14, WORD = 8 };
static struct { uintptr_t word; uint16_t readers, writers; } words[WORDS]; /* word: address / 8, or 0 for none */

bool xi_skips;

static bool is_shared(unsigned n)
{
    unsigned all = words[n].readers | words[n].writers;

    return words[n].writers && all & (all - 1);
}

/* Notes an access by who runs now. Returns whether a search tries no deviation before it. If another variable becomes
 * shared, the search begins again. If there are too many variables, all others are shared. */
static bool is_private(bool is_store, const void *at)
{
    uintptr_t word = (uintptr_t)at / WORD;
    unsigned n = (unsigned)(word * 0x9E3779B1 >> 7) % WORDS, tries = 0;
    bool was;

    while (words[n].word && words[n].word != word && tries < WORDS)
        n = (n + 1) % WORDS, tries++;
    if (tries == WORDS)
        return false;
    was = is_shared(n), words[n].word = word;
    *(is_store ? &words[n].writers : &words[n].readers) |= (uint16_t)(1 << S->runs);
    xi_dead_used += !was && is_shared(n);
    return !is_shared(n);
}

void x_variable(bool is_store, const void *at)
{
    if (!x_inside())
        return;
    if (xi_is_piped)
        xi_die("a driver with x_variable has no --pipe");
    xi_has_touched = true;
    if (is_private(is_store, at) && xi_skips && !xi_is_fresh) {
        B->places++, B->sub++;
        xi_answer(1 + VARIABLE);
        return;
    }
    xi_at_place(VARIABLE, 0);
    xi_log_request(NULL);
    xi_back();
}
