/* Runs in several processes at once. Each of these jobs plays its share of the runs, and sends what they have shown.
 * The results are taken in the order of the runs, so they are those of one process.
 *
 * A job ends when this process ends, and when it gets a signal. It is pinned to a processor, with its COMMAND: both
 * take turns, and a line wakes the other one without a move to another processor.
 */
#define _GNU_SOURCE
#include "races.h"
#include <errno.h>
#include <fcntl.h>
#include <poll.h>
#include <sched.h>
#include <stdlib.h>
#include <string.h>
#include <sys/wait.h>
#include <unistd.h>

enum { SLICE = 200 };
static struct job {
    pid_t pid;
    int from;
} jobs[MOST_JOBS];
static unsigned count; /* of those that run */
static int to;         /* of a job: where it writes */

/* A deviation on its way to another process */
struct sent {
    struct deviation one;
    char text[MOST_NAME];
};

/* The processors that this process may use, at most MOST_JOBS. Returns their number. */
unsigned xr_processors(int *into)
{
    cpu_set_t set;
    unsigned found = 0;

    if (sched_getaffinity(0, sizeof set, &set))
        return 1;
    for (int n = 0; n < CPU_SETSIZE && found < MOST_JOBS; n++)
        if (CPU_ISSET(n, &set)) {
            if (into)
                into[found] = n;
            found++;
        }
    return found ? found : 1;
}

static void pin(unsigned job)
{
    int processors[MOST_JOBS] = { 0 };
    unsigned all = xr_processors(processors);
    cpu_set_t set;

    CPU_ZERO(&set);
    CPU_SET(processors[job % all], &set);
    sched_setaffinity(0, sizeof set, &set);
}

/* Messages */

/* Sends bytes to the process that has started this job. If it doesn't read any more, ends. */
void xr_send(const void *bytes, size_t size)
{
    const char *at = bytes;

    while (size) {
        ssize_t sent = write(to, at, size);
        if (sent < 0 && errno == EINTR)
            continue;
        if (sent < 0) {
            xr_close_command();
            _exit(PASSES);
        }
        at += sent, size -= (size_t)sent;
    }
}

/* Waits for bytes of a job. If a signal comes, asks all jobs for their end: then they send what they have. */
static void wait_for(unsigned job)
{
    static bool is_asked;
    struct pollfd file = { jobs[job].from, POLLIN, 0 };

    while (poll(&file, 1, SLICE) <= 0)
        if (xi_stopped() && !is_asked) {
            is_asked = true;
            for (unsigned n = 0; n < count; n++)
                kill(jobs[n].pid, SIGTERM);
        }
}

/* Takes bytes from a job. Returns false if it has ended. */
bool xr_receive(unsigned job, void *into, size_t size)
{
    char *at = into;

    while (size) {
        ssize_t got;
        wait_for(job);
        got = read(jobs[job].from, at, size);
        if (got < 0 && errno == EINTR)
            continue;
        if (got <= 0)
            return false;
        at += got, size -= (size_t)got;
    }
    return true;
}

void xr_send_path(const struct deviation *path, unsigned length)
{
    for (unsigned n = 0; n < length; n++) {
        struct sent sent = { .one = path[n] };
        snprintf(sent.text, sizeof sent.text, "%s", path[n].before.text ? path[n].before.text : "");
        xr_send(&sent, sizeof sent);
    }
}

bool xr_receive_path(unsigned job, struct deviation *path, unsigned length)
{
    for (unsigned n = 0; n < length; n++) {
        struct sent sent;
        if (!xr_receive(job, &sent, sizeof sent))
            return false;
        path[n] = sent.one;
        path[n].before.text = xr_kept(sent.text);
    }
    return true;
}

/* The places that a job has reached */
struct seen {
    struct sent place; /* in a deviation */
    bool is_later, has_deviation;
};

static void send_kind(const struct place *place, bool is_later, bool has_deviation)
{
    struct seen seen = { .is_later = is_later, .has_deviation = has_deviation };

    seen.place.one.before = *place;
    snprintf(seen.place.text, sizeof seen.place.text, "%s", place->text ? place->text : "");
    xr_send(&seen, sizeof seen);
}

static void receive_kinds(unsigned job)
{
    struct seen seen;

    while (xr_receive(job, &seen, sizeof seen)) {
        struct place place = seen.place.one.before;
        place.text = xr_kept(seen.place.text);
        xi_add_kind(&place, seen.is_later, seen.has_deviation);
    }
}

/* Start and end */

/* Starts jobs, at most one for each of `most` shares of the work. Each calls `work` with its number and the number of
 * jobs, and then sends what it has reached. Returns the number of jobs; 1 if the work is done by this process. */
unsigned xr_begin_jobs(uint64_t most, void (*work)(unsigned job, unsigned all))
{
    unsigned all = most < xr_given.jobs ? (unsigned)most : xr_given.jobs;
    int pipes[2];

    if (all < 2)
        return 1;
    xr_close_command();
    for (count = 0; count < all; count++) {
        if (pipe2(pipes, O_CLOEXEC))
            xi_die("a pipe can't be made");
        jobs[count].pid = xi_forked();
        if (!jobs[count].pid) {
            for (unsigned n = 0; n < count; n++)
                close(jobs[n].from);
            close(pipes[0]), to = pipes[1];
            pin(count), xr_adopt_orphans();
            work(count, all);
            xi_each_kind(send_kind);
            xr_close_command();
            _exit(PASSES);
        }
        close(pipes[1]), jobs[count].from = pipes[0];
    }
    return all;
}

/* Ends all jobs: if `are_done` is true, when they have sent all, or else at once. A job that couldn't go on ends this
 * process, too: it has printed why. */
void xr_end_jobs(bool are_done)
{
    bool has_failed = false;
    int status = 0;

    for (unsigned n = 0; n < count; n++)
        if (are_done)
            receive_kinds(n);
        else
            kill(jobs[n].pid, SIGTERM);
    for (unsigned n = 0; n < count; n++) {
        close(jobs[n].from);
        while (waitpid(jobs[n].pid, &status, 0) < 0 && errno == EINTR)
            ;
        has_failed |= are_done && !xi_stopped() && status;
    }
    count = 0;
    if (has_failed)
        exit(NOT_RUN);
}

unsigned xr_jobs(void)
{
    return count;
}
