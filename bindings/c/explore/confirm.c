/* Plays a schedule by `nicbench serve --schedule`, whose reader and player of schedules are proved: this process is
 * the client, as with --pipe. */
#define _GNU_SOURCE
#include "inside.h"
#include <limits.h>
#include <stdio.h>
#include <stdlib.h>
#include <string.h>
#include <sys/wait.h>
#include <unistd.h>

enum { TO_SERVER, TO_CLIENT, CLIENTS_ERRORS, SERVERS_ERRORS, PIPES };

static void close_all(int pipes[PIPES][2])
{
    for (int n = 0; n < PIPES; n++)
        close(pipes[n][0]), close(pipes[n][1]);
}

static _Noreturn void be_server(const char *program, const char *path, int pipes[PIPES][2])
{
    char memory[24], link[16] = "never", rxa[16], address[24];
    const uint8_t *byte = x_options.address;

    snprintf(memory, sizeof memory, "%llu", (unsigned long long)x_options.memory);
    if (x_options.link)
        snprintf(link, sizeof link, "%u", x_options.link);
    snprintf(rxa, sizeof rxa, "%u", x_options.rxa);
    snprintf(address, sizeof address, "%02x:%02x:%02x:%02x:%02x:%02x", byte[0], byte[1], byte[2], byte[3], byte[4],
             byte[5]);
    dup2(pipes[TO_SERVER][0], 0), dup2(pipes[TO_CLIENT][1], 1), dup2(pipes[SERVERS_ERRORS][1], 2);
    close_all(pipes);
    execlp(program, program, "serve", "--schedule", path, "--memory", memory, "--link", link, "--rxa", rxa, "--address",
           address, (char *)NULL);
    _exit(127);
}

static _Noreturn void be_client(int pipes[PIPES][2])
{
    dup2(pipes[TO_CLIENT][0], 0), dup2(pipes[TO_SERVER][1], 1), dup2(pipes[CLIENTS_ERRORS][1], 2);
    close_all(pipes);
    signal(SIGALRM, SIG_DFL);
    alarm(xi_given.seconds);
    exit(xi_pipe());
}

/* Forks this process. Returns 0 in the child, and the child's number in the parent. */
static pid_t forked(void)
{
    pid_t child = fork();

    if (child < 0)
        xi_die("a process can't be started");
    return child;
}

/* Reads a pipe to its end, or until the buffer is full. The buffer then has the first line. */
static void read_line(int from, char *into, size_t room)
{
    size_t size = 0;
    ssize_t count;

    while (size + 1 < room && (count = read(from, into + size, room - 1 - size)) > 0)
        size += (size_t)count;
    into[size] = 0;
    into[strcspn(into, "\n")] = 0;
}

static void write_schedule(char *path, const struct deviation *deviations, unsigned count)
{
    int made = mkstemp(path);
    FILE *file = made < 0 ? NULL : fdopen(made, "w");

    if (!file)
        xi_die("a file for the schedule can't be written");
    xi_print(file, deviations, count);
    fclose(file);
}

/* Waits for the client and then for the server. `fault` gets the first line that the client writes on standard error,
 * or the signal that ends the client; `lack` gets the server's first line. Returns whether the server ends without an
 * error. */
static bool wait_for(pid_t client, pid_t server, int pipes[PIPES][2], char *fault, char *lack, size_t room)
{
    int status;

    for (int n = 0; n < PIPES; n++)
        close(pipes[n][1]);
    close(pipes[TO_SERVER][0]), close(pipes[TO_CLIENT][0]);
    read_line(pipes[CLIENTS_ERRORS][0], fault, room), read_line(pipes[SERVERS_ERRORS][0], lack, room);
    close(pipes[CLIENTS_ERRORS][0]), close(pipes[SERVERS_ERRORS][0]);
    waitpid(client, &status, 0);
    if (WIFSIGNALED(status))
        snprintf(fault, room, "ended by SIG%s", xi_signal(WTERMSIG(status)));
    waitpid(server, &status, 0);
    return WIFEXITED(status) && WEXITSTATUS(status) == 0;
}

/* Plays a schedule by `PROGRAM serve`. `fault` gets what is wrong in the test then, or an empty text if the test
 * passes. Returns NULL, or why the schedule can't be played. */
const char *xi_confirm(const char *program, const struct deviation *deviations, unsigned count, char *fault,
                       size_t room)
{
    static char lack[128];
    const char *folder = getenv("TMPDIR");
    char path[PATH_MAX];
    int pipes[PIPES][2];
    pid_t server, client;
    bool is_played;

    snprintf(path, sizeof path, "%s/schedule-XXXXXX", folder && *folder ? folder : P_tmpdir);
    write_schedule(path, deviations, count);
    fflush(NULL);
    for (int n = 0; n < PIPES; n++)
        if (pipe(pipes[n]))
            xi_die("a pipe can't be made");
    if (!(server = forked()))
        be_server(program, path, pipes);
    if (!(client = forked()))
        be_client(pipes);
    is_played = wait_for(client, server, pipes, fault, lack, room < sizeof lack ? room : sizeof lack);
    unlink(path);
    return is_played ? NULL : lack[0] ? lack : "it can't be started";
}
