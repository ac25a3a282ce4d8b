/* The process of COMMAND: its pipes, its end, and the time of a run.
 *
 * COMMAND has a process group of its own, and is ended with it. What its processes leave behind in other groups comes
 * to this process, which asks for orphans (PR_SET_CHILD_SUBREAPER), and is ended, too. If this process is ended, so is
 * COMMAND.
 */
#define _GNU_SOURCE
#include "races.h"
#include <errno.h>
#include <fcntl.h>
#include <poll.h>
#include <stdlib.h>
#include <string.h>
#include <sys/prctl.h>
#include <sys/syscall.h>
#include <sys/wait.h>
#include <time.h>
#include <unistd.h>

enum { IN, OUT, ERRORS, PIPES, NO_FILE = -1, SLICE = 200, LAST_ERRORS = 4096, NOT_STARTED = 127 };
static struct {
    pid_t pid; /* 0: there is none */
    int to, from, errors, handle;
    bool is_deaf, is_silent; /* it has closed its end of a pipe */
    bool has_ended;
    bool may_go_on; /* it has said `reset`, and waits for the next run */
    int status;
} one = { .to = NO_FILE, .from = NO_FILE, .errors = NO_FILE, .handle = NO_FILE };
static char in[MOST_LINE + 4096], out[1 << 20], errors[2 * LAST_ERRORS];
static size_t in_from, in_end, out_end, errors_end;
static double deadline;
static int stopped_before; /* the signal that has come before this run, or 0 */
static const char *fault;
static bool resets;

static double now(void)
{
    struct timespec time;

    clock_gettime(CLOCK_MONOTONIC, &time);
    return (double)time.tv_sec + (double)time.tv_nsec / 1e9;
}

/* Whether the time of the run has ended, or a signal has come meanwhile. Notes the fault, or that the run is cut. */
static bool is_over(void)
{
    if (xi_stopped() != stopped_before)
        xi_is_cut = true;
    if (fault || xi_is_cut)
        return true;
    if (now() > deadline)
        fault = xr_fault("it doesn't end in %u second%s", xi_given.seconds, xi_given.seconds == 1 ? "" : "s");
    return fault;
}

static bool is_ended_early(void)
{
    return fault || xi_is_cut;
}

/* Start */

static void close_one(int *file)
{
    if (*file != NO_FILE)
        close(*file);
    *file = NO_FILE;
}

static void nothing(int number)
{
    (void)number;
}

/* From now on, orphans of COMMAND come to this process. A process that is forked doesn't inherit this. */
void xr_adopt_orphans(void)
{
    prctl(PR_SET_CHILD_SUBREAPER, 1);
}

/* A command that no longer reads isn't the end of this process. A signal with a handler has its default in COMMAND. */
void xr_prepare_command(void)
{
    struct sigaction action = { .sa_handler = nothing };

    sigaction(SIGPIPE, &action, NULL);
    xr_adopt_orphans();
    setenv("NIC_MARKS", "on", 1);
}

/* The child's part of a start. Until it calls exec, it shares memory with its parent. */
static _Noreturn void be_command(int pipes[PIPES][2], volatile int *failed)
{
    setpgid(0, 0);
    prctl(PR_SET_PDEATHSIG, SIGKILL);
    if (dup2(pipes[IN][0], 0) < 0 || dup2(pipes[OUT][1], 1) < 0 || dup2(pipes[ERRORS][1], 2) < 0)
        _exit(NOT_STARTED);
    execvp(xr_given.command[0], xr_given.command);
    *failed = errno;
    _exit(NOT_STARTED);
}

static _Noreturn void cannot_start(int number)
{
    static char text[512];

    snprintf(text, sizeof text, "%s: %s", xr_given.command[0], strerror(number));
    xi_die(text);
}

static void start(void)
{
    int pipes[PIPES][2];
    volatile int failed = 0;
    pid_t child;

    for (int n = 0; n < PIPES; n++)
        if (pipe2(pipes[n], O_CLOEXEC))
            xi_die("a pipe can't be made");
    child = vfork();
    if (child == 0)
        be_command(pipes, &failed);
    close(pipes[IN][0]), close(pipes[OUT][1]), close(pipes[ERRORS][1]);
    if (child < 0)
        xi_die("a process can't be started");
    if (failed) {
        waitpid(child, NULL, 0);
        cannot_start(failed);
    }
    one.pid = child, one.to = pipes[IN][1], one.from = pipes[OUT][0], one.errors = pipes[ERRORS][0];
    one.handle = (int)syscall(SYS_pidfd_open, child, 0);
    one.is_deaf = one.is_silent = one.has_ended = one.may_go_on = false;
    for (int n = 0; n < 3; n++)
        fcntl((int[]){ one.to, one.from, one.errors }[n], F_SETFL, O_NONBLOCK);
    in_from = in_end = out_end = errors_end = 0;
}

/* Begins a run of COMMAND: by a new process if `is_new` is true, or if the last one doesn't wait for it. */
void xr_begin_command(bool is_new)
{
    fault = NULL, xi_is_cut = false, stopped_before = xi_stopped(), deadline = now() + xi_given.seconds;
    if (one.pid && one.may_go_on && !one.status && !is_new) {
        one.may_go_on = false, errors_end = 0;
        xr_tell("OK\n", 3);
        return;
    }
    xr_close_command();
    start();
}

/* Whether COMMAND plays one run after the other in a process */
bool xr_resets(void)
{
    return resets;
}

/* Errors */

/* Keeps the end of what COMMAND writes on standard error. */
static void read_errors(void)
{
    ssize_t count;

    while (one.errors != NO_FILE) {
        if (errors_end == sizeof errors) {
            memmove(errors, errors + LAST_ERRORS, LAST_ERRORS);
            errors_end = LAST_ERRORS;
        }
        count = read(one.errors, errors + errors_end, sizeof errors - errors_end);
        if (count > 0)
            errors_end += (size_t)count;
        else if (count == 0)
            close_one(&one.errors);
        else if (errno != EINTR)
            return;
    }
}

/* The end of the process */

static void note_end(int options)
{
    if (one.pid && !one.has_ended && waitpid(one.pid, &one.status, options) == one.pid)
        one.has_ended = true;
}

/* Waits until one of COMMAND's files can be used, or it ends. `writes`: also until it can be told something. Returns
 * false if the time of the run has ended. */
static bool waits(bool reads, bool writes)
{
    struct pollfd files[] = { { reads && !one.is_silent ? one.from : NO_FILE, POLLIN, 0 }, { one.errors, POLLIN, 0 },
                              { one.has_ended ? NO_FILE : one.handle, POLLIN, 0 },
                              { writes ? one.to : NO_FILE, POLLOUT, 0 } };
    double left = deadline - now();
    int most = one.handle == NO_FILE && !one.has_ended ? 10 : SLICE;

    if (is_over())
        return false;
    poll(files, 4, left * 1000 < most ? (int)(left * 1000) + 1 : most);
    if (files[1].revents)
        read_errors();
    if (files[2].revents || one.handle == NO_FILE)
        note_end(WNOHANG);
    return true;
}

/* Ends each process that has come to this one as an orphan. There are none but COMMAND's. */
static void end_orphans(void)
{
    char path[64], text[4096];
    ssize_t count;
    int file;

    while (waitpid(-1, NULL, WNOHANG) > 0)
        ;
    for (int tries = 0; tries < 100 && waitpid(-1, NULL, WNOHANG) == 0; tries++) {
        snprintf(path, sizeof path, "/proc/self/task/%d/children", (int)getpid());
        file = open(path, O_RDONLY | O_CLOEXEC);
        count = file < 0 ? 0 : read(file, text, sizeof text - 1);
        close_one(&file);
        if (count <= 0)
            return;
        text[count] = 0;
        for (char *at = text; *at;) {
            long child = strtol(at, &at, 10);
            if (child > 0)
                kill((pid_t)child, SIGKILL);
            at += strspn(at, " \n");
        }
        while (waitpid(-1, NULL, 0) > 0)
            ;
    }
}

/* Ends COMMAND, and each process that it has started. */
void xr_close_command(void)
{
    if (!one.pid)
        return;
    close_one(&one.to), close_one(&one.from);
    kill(-one.pid, SIGKILL);
    kill(one.pid, SIGKILL); /* if it has left its group */
    note_end(0);
    close_one(&one.errors), close_one(&one.handle);
    one.pid = 0;
    end_orphans();
}

/* Ends the run. Returns what is wrong with it, or NULL. */
const char *xr_end_command(void)
{
    if (one.may_go_on) {
        read_errors();
        return fault = xr_status_fault(one.status, errors, errors_end);
    }
    close_one(&one.to);
    while (!is_ended_early() && !one.has_ended && (note_end(WNOHANG), !one.has_ended) && waits(false, false))
        ;
    read_errors();
    if (!is_ended_early())
        fault = xr_status_fault(one.status, errors, errors_end);
    xr_close_command();
    return fault;
}

/* Lines */

static void write_out(void)
{
    size_t done = 0;

    while (done < out_end && !one.is_deaf) {
        ssize_t count = write(one.to, out + done, out_end - done);
        if (count >= 0)
            done += (size_t)count;
        else if (errno == EPIPE)
            one.is_deaf = true;
        else if (errno == EAGAIN && !waits(false, true))
            break;
    }
    out_end = 0;
}

/* Tells COMMAND something, when it is read from next. */
void xr_tell(const void *bytes, size_t size)
{
    if (out_end + size > sizeof out)
        write_out();
    memcpy(out + out_end, bytes, size), out_end += size;
}

/* Reads more. Returns false if there is no more: COMMAND has closed its output or has ended, or the run is over. */
static bool reads_more(void)
{
    ssize_t count;

    for (;;) {
        count = read(one.from, in + in_end, sizeof in - in_end);
        if (count > 0) {
            in_end += (size_t)count;
            return true;
        }
        if (count == 0)
            one.is_silent = true;
        if (one.is_silent || (errno == EAGAIN && one.has_ended) || is_over())
            return false;
        waits(true, false);
    }
}

/* Whether this line is `reset STATUS`: then COMMAND waits for its next run. */
static bool is_reset(const char *line, size_t size)
{
    unsigned status = 0;

    if (size < 7 || size > 9 || memcmp(line, "reset ", 6))
        return false;
    for (size_t n = 6; n < size; n++) {
        if (line[n] < '0' || line[n] > '9')
            return false;
        status = 10 * status + (unsigned)(line[n] - '0');
    }
    if (status > 255)
        return false;
    resets = one.may_go_on = true, one.status = (int)(status << 8);
    return true;
}

/* The next line of COMMAND without its line feed. Returns false at the end of the run. */
bool xr_next_line(char **line, size_t *size)
{
    char *end;

    if (in_from == in_end)
        in_from = in_end = 0;
    while (!(end = memchr(in + in_from, '\n', in_end - in_from))) {
        memmove(in, in + in_from, in_end - in_from);
        in_end -= in_from, in_from = 0;
        if (in_end >= MOST_LINE) {
            fault = xr_fault("it writes a line of more than %d bytes", MOST_LINE);
            return false;
        }
        write_out();
        if (is_ended_early() || one.is_deaf || !reads_more())
            break;
    }
    if (is_ended_early() || one.is_deaf || (!end && in_end == in_from))
        return false;
    *line = in + in_from, *size = end ? (size_t)(end - *line) : in_end - in_from;
    in_from += *size + (end != NULL);
    return !is_reset(*line, *size);
}
