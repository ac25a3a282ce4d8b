/* The result of the command: the schedule that fails, as it is printed and stored, and one JSON object. */
#define _GNU_SOURCE
#include "inside.h"
#include <stdlib.h>
#include <string.h>
#include <sys/stat.h>

struct result xi_result = { .is_complete = NONE, .is_smallest = NONE, .first = NONE };
static const char *served = "null"; /* whether `nicbench serve` has played the schedule with the same result, as JSON */

#define R xi_result

/* The schedule */

/* Prints a text as a comment. */
static void print_comment(FILE *file, const char *text)
{
    fputs("# ", file);
    for (; *text; text++)
        fprintf(file, *text == '\n' || *text == '\r' ? "%c# " : "%c", *text == '\r' ? '\n' : *text);
    fputc('\n', file);
}

static void print_schedule(FILE *file)
{
    print_comment(file, xi_command);
    print_comment(file, R.found.fault);
    if (xi_options_line[0])
        fprintf(file, "options %s\n", xi_options_line);
    xi_print(file, R.found.path, R.found.count);
}

/* With --out, stores the schedule, and returns the path of the file. Otherwise, returns NULL. */
static const char *stored(void)
{
    static char path[4096];
    size_t size = xi_given.out ? strlen(xi_given.out) : 0;
    void (*before)(int);
    FILE *file;

    if (!size)
        return NULL;
    if (xi_given.out[size - 1] == '/')
        mkdir(xi_given.out, 0777);
    snprintf(path, sizeof path, "%s%s", xi_given.out, xi_given.out[size - 1] == '/' ? "schedule.txt" : "");
    before = signal(SIGXFSZ, SIG_IGN); /* above a limit of the size of files (RLIMIT_FSIZE), a write is refused */
    file = fopen(path, "w");
    if (!file)
        xi_die("the schedule can't be stored");
    print_schedule(file);
    if (ferror(file) | fclose(file))
        xi_die("the schedule can't be stored");
    signal(SIGXFSZ, before);
    return path;
}

/* Whether `nicbench serve` knows the places and the deviations of the schedule: it has no handlers, and no places but
 * accesses and requests. */
static bool is_known_to_server(void)
{
    for (unsigned n = 0; n < R.found.count; n++) {
        int action = R.found.path[n].action;
        if (R.found.path[n].sub || (action >= IRQ && action < CHOICE))
            return false;
    }
    return true;
}

/* Prints the words that play a schedule of this file again. */
static void say_replay(const char *path)
{
    if (xi_has_command)
        xi_say("tools/races %s%s--replay %s -- %s\n", xi_options_line, xi_options_line[0] ? " " : "", path, xi_command);
    else
        xi_say("%s --replay %s\n", xi_command, path);
}

/* Prints the schedule that was found, and the commands that play it again. */
void xi_show(void)
{
    const char *path = stored();

    xi_say("\nThe schedule:\n");
    if (!xi_given.json)
        print_schedule(xi_out);
    xi_say("\nTo play it again:   ");
    if (!path && R.found.count) {
        xi_say("printf '");
        for (unsigned n = 0; n < R.found.count; n++) {
            char text[80];
            xi_text(text, sizeof text, &R.found.path[n]);
            xi_say("%s\\n", text);
        }
        xi_say("' | ");
    }
    say_replay(path ? path : R.found.count ? "/dev/stdin" : "/dev/null");
    xi_say("For each access:    the same with --log\n");
    if (xi_is_nic() && !xi_draws_chart)
        xi_say("For its chart:      the same with --log --json | tools/run_chart -\n");
}

/* With --serve, plays the schedule that was found by `nicbench serve`, and prints whether the result is the same. */
void xi_confirm_found(void)
{
    char fault[sizeof R.found.fault];
    const char *lack;

    if (!xi_given.serve)
        return;
    lack = xi_has_touched          ? "the test calls x_touch"
           : !is_known_to_server() ? "it has no handlers, and no places but accesses and requests"
                                   : xi_confirm(xi_given.serve, R.found.path, R.found.count, fault, sizeof fault);
    served = lack || strcmp(fault, R.found.fault) ? "false" : "true";
    if (lack)
        xi_say("%s serve can't play it: %s\n", xi_given.serve, lack);
    else if (!strcmp(fault, R.found.fault))
        xi_say("%s serve plays it, with the same result\n", xi_given.serve);
    else
        xi_say("%s serve plays it, with another result: %s\n", xi_given.serve, fault[0] ? fault : "The test passes.");
}

/* JSON */

static const char *truth(int value)
{
    return value == NONE ? "null" : value ? "true" : "false";
}

static void print_count(const char *key, double count)
{
    if (count < 0)
        fprintf(xi_out, "\"%s\": null", key);
    else
        fprintf(xi_out, "\"%s\": %.17g", key, count < 1e300 ? count : 1e300);
}

static void print_search(void)
{
    fprintf(xi_out, "{\"complete\": %s, \"tried\": [", truth(R.is_complete));
    for (unsigned n = 0; n < R.widths; n++)
        fprintf(xi_out, "%s%.17g", n ? ", " : "", R.tried[n]);
    fprintf(xi_out, "], \"smallest\": %s, \"holds\": %s, ", truth(R.is_smallest), truth(xi_given.holds));
    print_count("first", R.first), fprintf(xi_out, ", ");
    print_count("schedules", R.schedules);
    fprintf(xi_out, ", \"states\": %llu, \"depth\": ", (unsigned long long)R.states);
    fprintf(xi_out, xi_given.depth == EVERY ? "\"every\"" : xi_given.depth == DRAWN ? "null" : "%d", xi_given.depth);
    if (xi_given.all)
        fprintf(xi_out, ", \"failed\": "), xi_print_failed();
    fprintf(xi_out, "}");
}

/* With --json, prints the JSON object. Returns the exit status. */
int xi_finish(const char *result, int status)
{
    if (!xi_given.json)
        return status;
    fprintf(xi_out, "{\"result\": \"%s\", \"seed\": ", result);
    fprintf(xi_out, R.seed ? "%llu" : "null", (unsigned long long)R.seed);
    fprintf(xi_out, ", \"fault\": ");
    if (R.found.fault[0])
        xi_print_string(xi_out, R.found.fault);
    else
        fprintf(xi_out, "null");
    fprintf(xi_out, ", \"schedule\": "), xi_print_lines(xi_out, R.found.path, R.found.count);
    if (xi_pct.events)
        fprintf(xi_out, ", \"pct\": {\"depth\": %u, \"actors\": %u, \"events\": %u, \"bound\": %.17g}", xi_pct.depth,
               xi_pct.actors, xi_pct.events, 1 / xi_bound());
    fprintf(xi_out, ", \"runs\": %llu, \"search\": ", (unsigned long long)R.runs);
    print_search();
    fprintf(xi_out, ", \"seen\": ");
    xi_print_seen();
    fprintf(xi_out, ", \"impossible\": %llu, \"served\": %s}\n", (unsigned long long)xi_impossible, served);
    fflush(xi_out);
    return status;
}
