/* Runs in memory as it was before the first run.
 *
 * A process is forked before the first run, waits for requests, and forks a process for each. So such a run finds
 * nothing that earlier runs have left in static variables.
 */
#define _GNU_SOURCE
#include "inside.h"
#include <poll.h>
#include <signal.h>
#include <stdio.h>
#include <stdlib.h>
#include <string.h>
#include <sys/wait.h>
#include <unistd.h>

struct request {
    bool is_drawn;
    uint64_t seed;
    struct pct pct;
    unsigned count; /* of the deviations after it */
};
struct answer {
    bool is_there;
    int status; /* of a process that has ended without an outcome */
    struct outcome outcome;
};

enum { SECOND = 1000, PATIENCE = 2 };
bool xi_is_fresh;
static int to_server, from_server;
static pid_t server;

static bool read_all(int from, void *into, size_t size)
{
    for (ssize_t count; size; into = (char *)into + count, size -= (size_t)count)
        if ((count = read(from, into, size)) <= 0)
            return false;
    return true;
}

static bool write_all(int to, const void *bytes, size_t size)
{
    for (ssize_t count; size; bytes = (const char *)bytes + count, size -= (size_t)count)
        if ((count = write(to, bytes, size)) <= 0)
            return false;
    return true;
}

static struct outcome play(const struct request *request, const struct deviation *path)
{
    xi_prepare(false);
    xi_pct = request->pct;
    if (request->is_drawn)
        xi_draw(request->seed, xi_given.holds, true);
    else
        xi_replay(path, request->count, true, NULL);
    return xi_outcome();
}

/* Plays a request in a process of its own. */
static struct answer answer_to(const struct request *request, const struct deviation *path)
{
    struct answer answer = { .is_there = false };
    int pipes[2], status = 0;
    pid_t child;

    if (pipe(pipes))
        xi_die("a pipe can't be made");
    if (!(child = xi_forked())) {
        struct outcome outcome;
        xi_is_fresh = true, xi_limit_time();
        outcome = play(request, path);
        _exit(write_all(pipes[1], &outcome, sizeof outcome) ? PASSES : NOT_RUN);
    }
    close(pipes[1]);
    answer.is_there = read_all(pipes[0], &answer.outcome, sizeof answer.outcome);
    close(pipes[0]);
    waitpid(child, &status, 0);
    answer.status = status;
    return answer;
}

static _Noreturn void serve(int from, int to)
{
    static struct deviation path[MOST_PATH];
    struct request request;

    while (read_all(from, &request, sizeof request)) {
        struct answer answer;
        if (!read_all(from, path, request.count * sizeof *path))
            break;
        answer = answer_to(&request, path);
        if (!write_all(to, &answer, sizeof answer))
            break;
    }
    _exit(PASSES);
}

/* Starts the process that waits for requests. This process ends when the explorer ends, and not by a signal of the
 * terminal. */
void xi_fresh_begin(void)
{
    int requests[2], answers[2];

    if (pipe(requests) || pipe(answers))
        xi_die("a pipe can't be made");
    if (!(server = xi_forked())) {
        setpgid(0, 0);
        signal(SIGINT, SIG_IGN), signal(SIGTERM, SIG_IGN), signal(SIGHUP, SIG_IGN);
        close(requests[1]), close(answers[0]);
        serve(requests[0], answers[1]);
    }
    setpgid(server, server);
    close(requests[0]), close(answers[1]);
    to_server = requests[1], from_server = answers[0];
}

/* Waits for the answer. Returns false if a signal has ended the search, and there is no answer after two seconds. */
static bool has_answer(void)
{
    struct pollfd one = { .fd = from_server, .events = POLLIN };
    int waited = 0;

    while (poll(&one, 1, SECOND / 10) == 0 || !(one.revents & (POLLIN | POLLHUP)))
        if (xi_stopped() && ++waited > PATIENCE * 10)
            return false;
    return true;
}

/* The outcome of a run that didn't end before a signal has ended the search. No other run is played from nothing. */
static struct outcome endless(void)
{
    struct outcome outcome = { .fails = true };
    char byte;

    kill(-server, SIGKILL);
    while (read(from_server, &byte, 1) > 0)
        ; /* until both processes have ended */
    waitpid(server, NULL, 0);
    server = 0;
    snprintf(outcome.fault, sizeof outcome.fault, "it doesn't end before SIG%s", xi_signal(xi_stopped()));
    return outcome;
}

/* The outcome in an answer, also of a process that a signal has ended */
static struct outcome outcome_of(const struct answer *answer)
{
    struct outcome outcome = { .fails = true };

    if (answer->is_there)
        return answer->outcome;
    if (WIFEXITED(answer->status) && WEXITSTATUS(answer->status) == NOT_RUN)
        exit(NOT_RUN); /* it has printed why */
    if (!WIFSIGNALED(answer->status))
        xi_die("the test ends its process");
    snprintf(outcome.fault, sizeof outcome.fault, "ended by SIG%s", xi_signal(WTERMSIG(answer->status)));
    return outcome;
}

static struct outcome ask(const struct request *request, const struct deviation *path)
{
    static struct outcome last;
    struct answer answer;

    if (!server)
        return last;
    if (!write_all(to_server, request, sizeof *request) || !write_all(to_server, path, request->count * sizeof *path))
        xi_die("the process that plays runs from nothing has ended");
    if (!has_answer())
        return last = endless();
    if (!read_all(from_server, &answer, sizeof answer))
        xi_die("the process that plays runs from nothing has ended");
    return last = outcome_of(&answer);
}

struct outcome xi_fresh_play(const struct deviation *path, unsigned count)
{
    return ask(&(struct request){ .count = count }, path);
}

/* Plays a schedule in a process that is forked from this one. This one must not have played a run. */
struct outcome xi_fresh_apart(const struct deviation *path, unsigned count)
{
    struct answer answer = answer_to(&(struct request){ .count = count }, path);

    return outcome_of(&answer);
}

struct outcome xi_fresh_draw(uint64_t seed)
{
    return ask(&(struct request){ .is_drawn = true, .seed = seed, .pct = xi_pct }, NULL);
}
