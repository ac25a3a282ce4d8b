/* Processes of the explorer. */
#define _GNU_SOURCE
#include "inside.h"
#include <signal.h>
#include <sys/prctl.h>
#include <unistd.h>

/* Forks a process that doesn't outlive this one. */
pid_t xi_forked(void)
{
    pid_t parent = getpid(), child;

    fflush(NULL);
    child = fork();
    if (child < 0)
        xi_die("a process can't be started");
    if (child == 0) {
        prctl(PR_SET_PDEATHSIG, SIGKILL);
        if (getppid() != parent)
            _exit(NOT_RUN);
    }
    return child;
}
