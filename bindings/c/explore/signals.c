/* Names of signals, and those that the test sends to itself.
 *
 * None of these is sent. Which signals the test blocks and ignores, and which are pending, is a part of its state. One
 * that would end the process ends the run, which fails. One that would stop the process, or run a handler of main, is
 * refused.
 */
#define _GNU_SOURCE
#include "inside.h"
#include <errno.h>
#include <signal.h>
#include <string.h>

#define S xi_state

enum { MOST_SIGNALS = 64, OF_LIBRARY = 32, MORE_OF_LIBRARY = 33 };

/* `sigabbrev_np` of glibc is newer than some systems, and isn't in musl. */
static const char *const names[] = {
    [SIGABRT] = "ABRT", [SIGALRM] = "ALRM", [SIGBUS] = "BUS", [SIGCHLD] = "CHLD", [SIGCONT] = "CONT", [SIGFPE] = "FPE",
    [SIGHUP] = "HUP", [SIGILL] = "ILL", [SIGINT] = "INT", [SIGKILL] = "KILL", [SIGPIPE] = "PIPE", [SIGPOLL] = "POLL",
    [SIGPROF] = "PROF", [SIGPWR] = "PWR", [SIGQUIT] = "QUIT", [SIGSEGV] = "SEGV", [SIGSTKFLT] = "STKFLT",
    [SIGSTOP] = "STOP", [SIGSYS] = "SYS",
    [SIGTERM] = "TERM", [SIGTRAP] = "TRAP", [SIGTSTP] = "TSTP", [SIGTTIN] = "TTIN", [SIGTTOU] = "TTOU",
    [SIGURG] = "URG", [SIGUSR1] = "USR1", [SIGUSR2] = "USR2", [SIGVTALRM] = "VTALRM", [SIGWINCH] = "WINCH",
    [SIGXCPU] = "XCPU", [SIGXFSZ] = "XFSZ",
};
/* What main has made of the signals that the explorer handles: SIG_DFL, SIG_IGN or a handler */
static const void *mains[MOST_SIGNALS + 1];
static bool is_known[MOST_SIGNALS + 1];

/* The kernel's form of an action */
struct action {
    const void *handler;
    unsigned long flags;
    const void *restorer;
    uint64_t mask;
};

/* The name of a signal without `SIG`; "RT" for one of those that have only numbers */
const char *xi_signal(int number)
{
    bool is_named = number > 0 && (size_t)number < sizeof names / sizeof *names && names[number];

    return is_named ? names[number] : "RT";
}

/* What is wrong with a run that this signal ends. The text remains. */
const char *xi_ended_by(int number)
{
    static char texts[MOST_SIGNALS + 1][24];
    char *text = texts[number > 0 && number <= MOST_SIGNALS ? number : 0];

    snprintf(text, sizeof *texts, "ended by SIG%s", xi_signal(number));
    return text;
}

/* Notes what main has made of a signal, before the explorer handles it. */
void xi_know_action(int number, const void *handler)
{
    if (!is_known[number])
        is_known[number] = true, mains[number] = handler;
}

static const void *of_main(int number)
{
    struct sigaction now;

    if (!is_known[number] && sigaction(number, NULL, &now) == 0)
        return now.sa_flags & SA_SIGINFO ? (const void *)now.sa_sigaction : (const void *)now.sa_handler;
    return mains[number];
}

static uint64_t bit(int number)
{
    return (uint64_t)1 << (number - 1);
}

/* Whether the test handles a signal by a function of main */
static bool is_handled(int number)
{
    const void *action = of_main(number);

    return !(S->chosen & bit(number)) && action != (const void *)SIG_DFL && action != (const void *)SIG_IGN;
}

static bool is_ignored(int number)
{
    return S->chosen & bit(number) ? (S->ignored & bit(number)) != 0 : of_main(number) == (const void *)SIG_IGN;
}

static _Noreturn void refuse(const char *what, int number)
{
    char text[96];

    snprintf(text, sizeof text, "the test %s (SIG%s)", what, xi_signal(number));
    xi_die_of(text, NULL);
}

static void deliver(int number)
{
    S->pending &= ~bit(number);
    if (number == OF_LIBRARY || number == MORE_OF_LIBRARY)
        refuse("sends itself a signal of the C library", number);
    if (is_ignored(number))
        return;
    if (is_handled(number))
        refuse("sends itself a signal that main handles", number);
    switch (number) {
    case SIGCHLD: case SIGCONT: case SIGURG: case SIGWINCH:
        return;
    case SIGSTOP: case SIGTSTP: case SIGTTIN: case SIGTTOU:
        refuse("stops its process", number);
    }
    xi_fail(xi_ended_by(number));
}

/* The test sends itself a signal. Returns what the system call returns. */
long xi_send_signal(long number)
{
    if (number < 0 || number > MOST_SIGNALS)
        return -EINVAL;
    if (number && S->blocked & bit((int)number))
        S->pending |= bit((int)number);
    else if (number)
        deliver((int)number);
    return 0;
}

/* Changes which signals the test blocks: rt_sigprocmask with these words. */
long xi_mask_call(const long *words)
{
    const uint64_t *set = (const uint64_t *)words[1];
    uint64_t *before = (uint64_t *)words[2], old = S->blocked, value = set ? *set & ~(bit(SIGKILL) | bit(SIGSTOP)) : 0;

    if (set && words[0] != SIG_BLOCK && words[0] != SIG_UNBLOCK && words[0] != SIG_SETMASK)
        return -EINVAL;
    if (set)
        S->blocked = words[0] == SIG_SETMASK ? value : words[0] == SIG_BLOCK ? old | value : old & ~value;
    if (before)
        *before = old;
    for (int number = 1; number <= MOST_SIGNALS; number++)
        if (S->pending & ~S->blocked & bit(number))
            deliver(number);
    return 0;
}

/* Whether rt_sigaction with these words is known: it doesn't set a handler, or sets the C library's for its own
 * signals, which nobody sends here. */
bool xi_is_action_known(const long *words)
{
    const struct action *action = (const struct action *)words[1];

    if (words[0] == OF_LIBRARY || words[0] == MORE_OF_LIBRARY || words[0] < 1 || words[0] > MOST_SIGNALS)
        return true;
    return !is_handled((int)words[0]) && (!action || action->handler == (const void *)SIG_DFL ||
                                          action->handler == (const void *)SIG_IGN);
}

/* Sets whether the test ignores a signal. */
long xi_action_call(const long *words)
{
    const struct action *action = (const struct action *)words[1];
    struct action *before = (struct action *)words[2];
    int number = (int)words[0];
    bool ignores;

    if (words[0] < 1 || words[0] > MOST_SIGNALS || (action && (number == SIGKILL || number == SIGSTOP)))
        return -EINVAL;
    ignores = action && action->handler == (const void *)SIG_IGN;
    if (before)
        *before = (struct action){ .handler = is_ignored(number) ? (const void *)SIG_IGN : (const void *)SIG_DFL };
    if (!action || number == OF_LIBRARY || number == MORE_OF_LIBRARY)
        return 0;
    S->chosen |= bit(number);
    S->ignored = ignores ? S->ignored | bit(number) : S->ignored & ~bit(number);
    if (ignores)
        S->pending &= ~bit(number);
    return 0;
}
