/* The chart of the run that was found or replayed: tools/run_chart draws it, from the log of this run. tools/races
 * names this program by NIC_CHART. */
#define _GNU_SOURCE
#include "races.h"
#include <stdlib.h>
#include <string.h>
#include <sys/wait.h>
#include <unistd.h>

static FILE *steps;

static const char *program(void)
{
    return xi_given.json || xi_given.log ? NULL : getenv("NIC_CHART");
}

/* Keeps the log of the run that comes next. */
static void keep_log(const struct deviation *path, unsigned count)
{
    steps = tmpfile();
    if (!steps)
        xi_die("a file for the chart can't be written");
    xi_steps_begin(steps, path, count);
    xi_steps = steps;
}

/* If a chart is drawn at the end, keeps the log of a run that is replayed. */
void xr_begin_chart(void)
{
    if (program())
        xi_draws_chart = keep_log;
}

static void print_end(const char *fault)
{
    fprintf(steps, "{\"result\": \"%s\", \"fault\": ", fault[0] ? "fails" : "passes");
    if (fault[0])
        xi_print_string(steps, fault), fputs("}\n", steps);
    else
        fputs("null}\n", steps);
    fflush(steps), rewind(steps);
}

static void draw(void)
{
    pid_t child;

    fflush(xi_out);
    child = fork();
    if (child < 0)
        xi_die("a process can't be started");
    if (child == 0) {
        dup2(fileno(steps), STDIN_FILENO);
        execlp(program(), program(), "--rows", xr_given.rows, "--color", xr_given.color, "-", (char *)NULL);
        _exit(NOT_RUN);
    }
    waitpid(child, NULL, 0);
}

/* Draws the chart of the run that was replayed, or of the schedule that was found. All other processes have ended. */
void xr_end_chart(void)
{
    const struct found *found = &xi_result.found;

    if (xi_draws_chart && !steps && found->fails) {
        keep_log(found->path, found->count);
        xi_replay(found->path, found->count, true, NULL), xr_close_command();
        xi_say("\n");
    }
    if (!steps)
        return;
    xi_steps = NULL;
    print_end(found->fault);
    draw();
    fclose(steps), steps = NULL;
}
