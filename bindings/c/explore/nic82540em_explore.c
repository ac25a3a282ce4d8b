/* The command. */
#define _GNU_SOURCE
#include "inside.h"
#include <stdlib.h>
#include <string.h>
#include <unistd.h>

static struct found *const found = &xi_result.found;

/* Plays the run without deviations from nothing, and then twice here. Returns the exit status if the run fails, or if a
 * later run isn't as the first one, or else -1. */
static int play_first(void)
{
    struct outcome outcome = xi_fresh_play(NULL, 0);

    if (outcome.fails) {
        found->fails = true, memcpy(found->fault, outcome.fault, sizeof outcome.fault);
        xi_say("without deviations: %s\n", outcome.fault);
        return xi_report(0);
    }
    for (int n = 1; n <= 2; n++) {
        xi_watches_host = n == 1;
        xi_replay(NULL, 0, true, NULL);
        xi_watches_host = false;
        if (xi_outcome().history != outcome.history)
            return xi_unsaved("the second run isn't as the first one, without any deviation");
    }
    return -1;
}

void __asan_init(void) __attribute__((weak)); /* it is there if AddressSanitizer is linked */

/* Whether memory of the program can be protected here, and copied. */
static bool may_watch(void)
{
    const char *preloaded = getenv("LD_PRELOAD"); /* valgrind sets it */
    bool is_valgrind = preloaded && strstr(preloaded, "vgpreload");

    return &xi_has_malloc && !is_valgrind && !__asan_init && sysconf(_SC_PAGESIZE) == PAGE;
}

/* Whether the stack and the pages of a run can be saved here. */
static bool may_save(void)
{
#if !(defined(__x86_64__) || defined(__aarch64__))
    return false;
#else
    return !xi_given.again && may_watch();
#endif
}

/* Searches as the words ask for. Returns the exit status. */
static int searched_status(void)
{
    int status;

    xi_listen();
    xi_fresh_begin();
    xi_prepare(false);
    if (may_watch())
        xi_watch_program(), xi_watch_heap();
    xi_limit_time();
    if ((status = play_first()) >= 0)
        return status;
    xi_prepare(may_save());
    xi_begin(true);
    if (xi_saves && !xi_given.check && (status = xi_compare_some()) >= 0)
        return status;
    return xi_given.depth != DRAWN && !xi_given.check ? xi_by_depth() : xi_by_draws();
}

int nic82540em_explore(int count, char **words, const char *(*test)(void *), void *argument)
{
    int status;

    xi_explores(true);
    xi_know_thread();
    xi_set_callers(__builtin_dwarf_cfa());
    xi_know_device();
    xi_take_words(count, words);
    if (!xi_is_nic() && (xi_given.pct || xi_given.pipe || xi_given.serve))
        xi_die("--pct, --pipe and --serve are for the 82540EM only");
    xi_set_test(test, argument);
    xi_prints = xi_given.pipe || xi_given.replay;
    xi_open(xi_prints);
    xi_html_begin();
    if (xi_given.pipe)
        status = xi_pipe();
    else if (xi_given.replay)
        xi_prepare(false), xi_limit_time(), status = xi_replay_given();
    else
        status = searched_status(), xi_unwatch();
    xi_end_time();
    status = xi_html_end(status);
    xi_explores(false);
    return status;
}
