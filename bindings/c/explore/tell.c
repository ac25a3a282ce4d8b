/* What is printed: text or JSON, and what a search has done so far on a terminal; and the signals that end a search. */
#define _GNU_SOURCE
#include "inside.h"
#include <stdarg.h>
#include <stdio.h>
#include <stdlib.h>
#include <string.h>
#include <sys/time.h>
#include <time.h>
#include <unistd.h>

enum { PATIENCE = 1, QUIET = 5, SHORTER = 2 }; /* seconds */
static volatile sig_atomic_t stopped;
static struct timespec stopped_at;
static volatile unsigned run_seconds; /* of this run */
static bool is_late; /* whether a run has taken too long */
static char late[64];
FILE *xi_out, *xi_errors;
bool xi_is_cut;
static bool has_progress; /* whether a line of progress is on the terminal */

static double seconds_since(const struct timespec *then)
{
    struct timespec now;

    clock_gettime(CLOCK_MONOTONIC, &now);
    return (double)(now.tv_sec - then->tv_sec) + (double)(now.tv_nsec - then->tv_nsec) / 1e9;
}

/* Seconds that have passed since some moment: of this process, or, if a command is run, of a clock */
double xi_spent(void)
{
    static struct timespec moment;

    return xi_has_command ? seconds_since(&moment) : (double)clock() / CLOCKS_PER_SEC;
}

/* Signals, and the time of a run */

/* The first signal ends the search. A signal that comes more than a second after the first one ends the program. */
static void on_stop(int number, siginfo_t *info, void *context)
{
    char before;

    (void)info, (void)context;
    if (xi_is_elsewhere(number))
        return;
    before = xi_pause();
    if (!stopped)
        clock_gettime(CLOCK_MONOTONIC, &stopped_at);
    else if (seconds_since(&stopped_at) > PATIENCE)
        _exit(128 + number);
    stopped = number;
    xi_resume(before);
}

void xi_listen(void)
{
    static const int numbers[] = { SIGINT, SIGTERM, SIGHUP };

    for (size_t n = 0; n < sizeof numbers / sizeof *numbers; n++) {
        struct sigaction now;
        if (sigaction(numbers[n], NULL, &now) || now.sa_handler != SIG_IGN)
            xi_on(numbers[n], on_stop, SA_RESTART | SA_ONSTACK);
    }
}

/* Each second: ends the run of a test that runs for too long, or that comes to no access when a signal has ended the
 * search. */
static void on_second(int number, siginfo_t *info, void *context)
{
    static unsigned last;
    char before;
    bool is_stuck;

    (void)info, (void)context;
    if (xi_is_elsewhere(number))
        return;
    before = xi_pause(), is_stuck = xi_is_test() && last == xi_entries;
    last = xi_entries, run_seconds++;
    if (xi_is_test() && run_seconds > (is_late ? (unsigned)SHORTER : xi_given.seconds)) {
        is_late = !xi_is_fresh;
        snprintf(late, sizeof late, "it doesn't end in %u second%s", xi_given.seconds,
                 xi_given.seconds == 1 ? "" : "s");
        xi_fail(late);
    }
    if (is_stuck && stopped) {
        snprintf(late, sizeof late, "it doesn't end before SIG%s", xi_signal(stopped));
        xi_fail(late);
    }
    xi_resume(before);
}

/* From now on, a run may take the seconds of --seconds. When one has taken longer, later ones may take two seconds: the
 * schedule that is printed at the end is played again in all its time. */
void xi_limit_time(void)
{
    struct itimerval each = { { 1, 0 }, { 1, 0 } };

    xi_on(SIGALRM, on_second, SA_RESTART | SA_NODEFER | SA_ONSTACK);
    setitimer(ITIMER_REAL, &each, NULL);
}

void xi_end_time(void)
{
    setitimer(ITIMER_REAL, &(struct itimerval){ { 0, 0 }, { 0, 0 } }, NULL);
}

void xi_begin_time(void)
{
    run_seconds = 0;
}

/* Whether some run of this process was ended, because it took too long */
bool xi_is_late(void)
{
    return late[0];
}

/* The number of the signal that has asked for an end, or 0 */
int xi_stopped(void)
{
    return stopped;
}

/* Asks for an end, as this signal would. */
void xi_stop(int number)
{
    stopped = number;
}

/* Why a search has ended before its end */
const char *xi_why(void)
{
    static char text[64];

    if (stopped)
        snprintf(text, sizeof text, "ended by SIG%s", xi_signal(stopped));
    else
        snprintf(text, sizeof text, "ended by --states %llu", (unsigned long long)xi_given.states);
    return text;
}

/* Text */

/* Opens the streams of the explorer. Unless they are shared with the test, they are streams of its own: those of the C
 * library are a part of the test's state. */
void xi_open(bool shares)
{
    xi_out = shares ? NULL : fdopen(STDOUT_FILENO, "w"), xi_errors = shares ? NULL : fdopen(STDERR_FILENO, "w");
    xi_out = xi_out ? xi_out : stdout, xi_errors = xi_errors ? xi_errors : stderr;
    setvbuf(xi_errors, NULL, _IONBF, 0);
}

/* Ends the program, because the explorer can't go on. */
_Noreturn void xi_die(const char *why)
{
    xi_pause();
    fprintf(xi_errors ? xi_errors : stderr, "%s: %s\n", xi_program, why);
    exit(NOT_RUN);
}

/* Ends the program, because the test, or this thing, has state that can't be saved. */
_Noreturn void xi_die_of(const char *what, const char *name)
{
    xi_pause();
    fprintf(xi_errors ? xi_errors : stderr, "%s: %s%s%s: it can't be saved with the state of the test\n", xi_program,
            what, name && *name ? ": " : "", name ? name : "");
    exit(NOT_RUN);
}

void xi_say(const char *format, ...)
{
    va_list words;

    if (xi_given.json)
        return;
    if (has_progress)
        fputs("\r\033[K", xi_errors);
    has_progress = false;
    va_start(words, format);
    vfprintf(xi_out, format, words);
    va_end(words);
    fflush(xi_out);
}

/* Whether it is time for a line of progress: standard error is a terminal, and five seconds have passed since the last
 * line. Looks at the time in one call of 64. */
bool xi_is_time(void)
{
    static struct timespec last;
    static int is_shown = -1;
    static unsigned turn;

    if (is_shown < 0)
        is_shown = isatty(2), clock_gettime(CLOCK_MONOTONIC, &last);
    if (!is_shown || ++turn % 64 || seconds_since(&last) < QUIET)
        return false;
    clock_gettime(CLOCK_MONOTONIC, &last);
    return true;
}

/* Shows a line of progress on the terminal until the next line is printed. */
void xi_progress(const char *format, ...)
{
    va_list words;

    va_start(words, format);
    fputc('\r', xi_errors), vfprintf(xi_errors, format, words), fputs("\033[K\r", xi_errors);
    va_end(words);
    has_progress = true;
}

const char *xi_number(double number)
{
    static char text[64];

    snprintf(text, sizeof text, number < 1e15 ? "%.0f" : number < 1e300 ? "%.2e" : "more than 1e300", number);
    return text;
}

/* The number of bytes of the character of UTF-8 at the beginning of a text; 0 if there is none */
static int character_size(const unsigned char *at)
{
    int size = *at < 0x80 ? 1 : *at < 0xC2 ? 0 : *at < 0xE0 ? 2 : *at < 0xF0 ? 3 : *at < 0xF5 ? 4 : 0;
    bool is_long = *at == 0xE0 ? at[1] >= 0xA0 : *at == 0xF0 ? at[1] >= 0x90 : true;
    bool is_short = *at == 0xED ? at[1] < 0xA0 : *at == 0xF4 ? at[1] < 0x90 : true;

    for (int n = 1; n < size; n++)
        if ((at[n] & 0xC0) != 0x80)
            return 0;
    return is_long && is_short ? size : 0;
}

/* Prints a text as a string of JSON. A control character, or a byte that isn't part of a character of UTF-8, is printed
 * as \u and its code. */
void xi_print_string(FILE *file, const char *text)
{
    const unsigned char *at = (const unsigned char *)text;

    fputc('"', file);
    for (int size; *at; at += size ? size : 1) {
        size = character_size(at);
        if (*at < ' ' || *at == 0x7F || !size)
            fprintf(file, "\\u%04x", *at);
        else
            fprintf(file, *at == '"' || *at == '\\' ? "\\%.*s" : "%.*s", size, at);
    }
    fputc('"', file);
}

/* Prints deviations as a list of JSON. */
void xi_print_lines(FILE *file, const struct deviation *path, unsigned count)
{
    fputc('[', file);
    for (unsigned n = 0; n < count; n++) {
        char text[80];
        xi_text(text, sizeof text, &path[n]);
        fputs(n ? ", " : "", file), xi_print_string(file, text);
    }
    fputc(']', file);
}
