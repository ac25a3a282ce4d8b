#include "machine.h"

#include <errno.h>
#include <fcntl.h>
#include <signal.h>
#include <string.h>
#include <sys/prctl.h>
#include <sys/wait.h>
#include <unistd.h>

#include "report.h"

static pid_t process;

/* Gives files their descriptors. Copies come first, since a file may have the descriptor of another one. */
static void place(const int *files, int number)
{
    int copy = fcntl(files[number], F_DUPFD_CLOEXEC, MACHINE_CONNECTION + MACHINE_FILES);

    if (number + 1 < MACHINE_FILES)
        place(files, number + 1);
    dup2(copy, MACHINE_CONNECTION + number);
}

static void run(char **words, const int *files)
{
    place(files, 0);
    prctl(PR_SET_PDEATHSIG, SIGTERM);
    execvp(words[0], words);
    report("%s: %s", words[0], strerror(errno));
    _exit(127);
}

void machine_start(char **words, const int *files)
{
    process = fork();
    if (process < 0)
        fail("a process for QEMU: %s", strerror(errno));
    if (process == 0)
        run(words, files);
}

void machine_stop(void)
{
    kill(process, SIGTERM);
}

int machine_end(void)
{
    int status;

    if (waitpid(process, &status, 0) != process)
        fail("QEMU: %s", strerror(errno));
    return WIFEXITED(status) ? WEXITSTATUS(status) : 128 + WTERMSIG(status);
}
