/* Drawn runs, by several processes: the runs of the seeds are dealt out to the jobs in turn. */
#include "races.h"
#include <stdlib.h>
#include <string.h>
#include <unistd.h>

#define B xi_book
#define S xi_state

/* What the run of a seed has shown. Its deviations follow if it fails. */
struct run {
    bool fails;
    unsigned did, count;
    char fault[128];
};
static unsigned all; /* jobs, or 0 before the first run */

static void send_run(void)
{
    struct run run = { .fails = S->fault, .did = B->did, .count = B->path_count };

    if (S->fault)
        snprintf(run.fault, sizeof run.fault, "%s", S->fault);
    xr_send(&run, sizeof run);
    if (run.fails)
        xr_send_path(B->path, B->path_count);
}

static void work(unsigned job, unsigned jobs)
{
    for (uint64_t n = job; n < xi_given.runs && !xi_stopped(); n += jobs) {
        xi_draw(xi_given.seed + n, xi_given.holds, false);
        if (!xi_is_cut)
            send_run();
    }
}

/* Takes the run of a job as if it had been played here. Returns false if there is none: a signal has come. */
static bool take_run(unsigned job)
{
    static struct run run;

    if (!xr_receive(job, &run, sizeof run) || (run.fails && !xr_receive_path(job, B->path, run.count)))
        return false;
    B->did = run.did, B->path_count = run.fails ? run.count : 0;
    S->fault = run.fails ? run.fault : NULL;
    return true;
}

/* Takes the run of this seed. The seeds come one after the other. */
static void take_drawn(uint64_t seed)
{
    uint64_t n = seed - xi_given.seed;
    bool is_last = n + 1 == xi_given.runs;

    if (!all)
        all = xr_begin_jobs(xi_given.runs, work);
    if (all == 1) {
        xi_draw(seed, xi_given.holds, false);
        return;
    }
    xi_is_cut = !take_run((unsigned)(n % all));
    if (xi_is_cut && !xi_stopped()) { /* a job couldn't go on */
        xr_end_jobs(false);
        exit(NOT_RUN);
    }
    if (xi_is_cut || is_last || (S->fault && !xi_given.all))
        xr_end_jobs(!xi_is_cut && is_last);
}

void xr_deal_drawn(void)
{
    xi_takes_drawn = take_drawn;
}
