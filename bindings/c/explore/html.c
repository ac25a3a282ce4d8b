/* The page of a run, with --html FILE: a template (page.c), and the log of the run (steps.c). After it comes the log of the
 * run without deviations.
 *
 * A process is forked before the first run. At the end, it plays both runs, each in a process of its own, and stores
 * the page. The runs of a command need no such process, since each begins from nothing. */
#define _GNU_SOURCE
#include "inside.h"
#include <errno.h>
#include <fcntl.h>
#include <stdlib.h>
#include <string.h>
#include <sys/wait.h>
#include <unistd.h>

#define STEP "{\"a" /* begins the line of a step: its actor, or its action */
#define NO_PAGE (~0u) /* in place of the number of deviations. Other processes have the pipe, so it has no end */
/* A deviation on its way to another process. The text of a place in a schedule from a file is in the memory of one. */
struct sent {
    struct deviation one;
    char text[80];
};
static pid_t writer;
static int to_writer;

/* The page */

/* Prints a text as text of HTML. */
static void print_text(FILE *file, const char *text)
{
    static const struct { char one; const char *name; } names[] = {
        { '&', "&amp;" }, { '<', "&lt;" }, { '>', "&gt;" }, { '"', "&quot;" }, { '\'', "&#x27;" } };

    for (; *text; text++) {
        size_t n = 0;
        while (n < sizeof names / sizeof *names && names[n].one != *text)
            n++;
        fprintf(file, n < sizeof names / sizeof *names ? names[n].name : "%c", *text);
    }
}

/* Copies a log to its end, or to the end of its line, without the spaces outside of texts. No element of HTML can begin or
 * end in it. */
static void copy(FILE *from, FILE *to, bool is_line)
{
    bool is_text = false, is_escaped = false;

    for (int byte = 0; !(is_line && byte == '\n') && (byte = getc(from)) != EOF;) {
        if (byte != ' ' || is_text)
            fprintf(to, byte == '<' ? "\\u003c" : "%c", byte);
        if (byte == '"' && !is_escaped)
            is_text = !is_text;
        is_escaped = is_text && byte == '\\' && !is_escaped;
    }
}

/* Reads the steps with which two logs begin alike. Returns their number. */
static unsigned same_steps(FILE *one, FILE *two)
{
    char *lines[2] = { NULL };
    size_t sizes[2] = { 0 };
    unsigned count = 0;
    long end;

    for (;; count++) {
        end = ftell(two);
        if (getline(&lines[0], &sizes[0], one) < 0 || getline(&lines[1], &sizes[1], two) < 0
            || strcmp(lines[0], lines[1]) || strncmp(lines[0], STEP, strlen(STEP)))
            break;
    }
    fseek(two, end, SEEK_SET);
    free(lines[0]), free(lines[1]);
    return count;
}

/* Copies the log of a second run: the steps with which both begin are there already. */
static void copy_second(FILE *one, FILE *two, FILE *to)
{
    unsigned same;

    rewind(one), rewind(two);
    while (getc(one) != '\n' && !feof(one))
        ;
    copy(two, to, true);
    if ((same = same_steps(one, two)))
        fprintf(to, "{\"same\":%u}\n", same);
    copy(two, to, false), fclose(two);
}

/* Plays a run. Returns its outcome, and a file with its log. */
static struct outcome play(const struct deviation *path, unsigned count, FILE **file)
{
    struct outcome outcome;

    *file = tmpfile();
    if (!*file)
        xi_die("a file for the page can't be written");
    xi_steps_begin(*file, path, count), fflush(*file);
    xi_steps = *file, xi_steps_are_short = true;
    outcome = xi_fresh_apart(path, count);
    xi_steps = NULL;
    fprintf(*file, "{\"result\": \"%s\", \"fault\": ", outcome.fails ? "fails" : "passes");
    if (outcome.fails)
        xi_print_string(*file, outcome.fault), fputs("}\n", *file);
    else
        fputs("null}\n", *file);
    return outcome;
}

/* Stores the page of a schedule. Returns whether it was stored. */
static bool is_stored(const struct deviation *path, unsigned count)
{
    FILE *files[2] = { NULL }, *page;
    struct outcome outcome = play(path, count, &files[0]);

    page = fopen(xi_given.html, "w");
    if (!page)
        return false;
    fputs(xi_page_head, page), print_text(page, xi_command), fputs(": ", page);
    print_text(page, outcome.fails ? outcome.fault : "passes"), fputs(xi_page_middle, page);
    rewind(files[0]), copy(files[0], page, false);
    if (count)
        play(NULL, 0, &files[1]), copy_second(files[0], files[1], page);
    fclose(files[0]), fputs(xi_page_end, page);
    return !(ferror(page) | fclose(page));
}

static _Noreturn void write_page(int from)
{
    static struct deviation path[MOST_PATH];
    static struct sent sent[MOST_PATH];
    unsigned count;
    int null = open("/dev/null", O_WRONLY);

    if (null >= 0)
        dup2(null, STDOUT_FILENO); /* what the test prints */
    if (read(from, &count, sizeof count) != sizeof count || count == NO_PAGE)
        _exit(PASSES);
    for (size_t done = 0, size = count * sizeof *sent; done < size;) {
        ssize_t got = read(from, (char *)sent + done, size - done);
        if (got <= 0)
            _exit(PASSES);
        done += (size_t)got;
    }
    for (unsigned n = 0; n < count; n++) {
        path[n] = sent[n].one;
        if (path[n].before.text)
            path[n].before.text = sent[n].text;
    }
    _exit(is_stored(path, count) ? PASSES : NOT_RUN);
}

static _Noreturn void refuse(void)
{
    fprintf(stderr, "%s: --html: %s: %s\n", xi_program, xi_given.html, strerror(errno));
    exit(USAGE);
}

/* With --html, starts the process that writes the page. If the file can't be written, ends the program. */
void xi_html_begin(void)
{
    int pipes[2], file;
    bool is_there;

    if (!xi_given.html)
        return;
    is_there = !access(xi_given.html, F_OK);
    file = open(xi_given.html, O_WRONLY | O_CREAT | O_CLOEXEC, 0666);
    if (file < 0)
        refuse();
    close(file);
    if (!is_there)
        unlink(xi_given.html);
    if (xi_has_command)
        return;
    if (pipe(pipes))
        xi_die("a pipe can't be made");
    if (!(writer = xi_forked())) {
        setpgid(0, 0);
        signal(SIGINT, SIG_IGN), signal(SIGTERM, SIG_IGN), signal(SIGHUP, SIG_IGN);
        close(pipes[1]);
        write_page(pipes[0]);
    }
    close(pipes[0]), to_writer = pipes[1];
}

/* Sends a deviation to the process that writes the page. */
static bool is_sent(const struct deviation *one)
{
    struct sent sent = { .one = *one };

    if (one->before.text)
        snprintf(sent.text, sizeof sent.text, "%s", one->before.text);
    return write(to_writer, &sent, sizeof sent) == (ssize_t)sizeof sent;
}

/* With --html, stores the page of the schedule that was found or replayed. Returns the exit status. */
int xi_html_end(int status)
{
    const struct found *found = &xi_result.found;
    bool is_needed = xi_given.replay || found->fails, is_written;
    unsigned count = is_needed ? found->count : NO_PAGE;
    int ended = NOT_RUN << 8;

    if (!xi_given.html)
        return status;
    if (xi_has_command)
        is_written = !is_needed || is_stored(found->path, count), ended = 0;
    else {
        is_written = write(to_writer, &count, sizeof count) == (ssize_t)sizeof count;
        for (unsigned n = 0; is_needed && n < count; n++)
            is_written &= is_sent(&found->path[n]);
        close(to_writer);
        waitpid(writer, &ended, 0);
    }
    if (!is_written || ended) {
        fprintf(xi_errors, "%s: --html: %s: the page can't be written\n", xi_program, xi_given.html);
        return NOT_RUN;
    }
    if (is_needed)
        xi_say("The page of this run: %s\n", xi_given.html);
    return status;
}
