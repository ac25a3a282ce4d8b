/* tools/races: searches the schedules of a COMMAND. */
#include "races.h"
#include <stdlib.h>

/* Searches as the words ask for. Returns the exit status. */
static int searched(void)
{
    int status = xr_play_first();

    if (status >= 0)
        return status;
    return xi_given.depth != DRAWN ? xi_by_depth() : xi_by_draws();
}

/* Plays a schedule of a file. If it fails, makes it smaller. Returns the exit status. */
static int shrunk(void)
{
    static struct deviation path[MOST_PATH];
    unsigned length = (unsigned)xi_read_schedule(xr_given.shrink, path);
    struct lack lack;

    xi_replay(path, length, true, &lack);
    if (lack.text[0])
        xi_say("%s\n", lack.text);
    else if (!xi_state->fault && lack.unreached < length)
        xi_refuse(xr_given.shrink, lack.unreached, "the run doesn't reach this place");
    if (!xi_state->fault) {
        xi_say("The test passes.\n");
        return xi_finish("passes", PASSES);
    }
    xi_keep(&xi_result.found);
    xi_say("%u deviation%s: %s\n", xi_result.found.count, xi_result.found.count == 1 ? "" : "s", xi_result.found.fault);
    return xi_report(0);
}

int main(int count, char **words)
{
    int status;

    xi_program = "races", xi_has_command = true, xi_given.seconds = 10;
    xi_know_device();
    xr_take_words(count, words);
    xi_open(true);
    xi_listen();
    xr_prepare_command();
    xi_html_begin(), xr_begin_chart();
    xr_deal_drawn();
    xi_has_key = xr_has_key, xi_explores_by = xr_explore;
    status = xi_given.replay ? xi_replay_given() : xr_given.shrink ? shrunk() : searched();
    xr_close_command(), xr_end_chart();
    status = xi_html_end(status);
    xr_close_command();
    return status;
}
