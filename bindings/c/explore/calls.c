/* System calls of the test, and signals.
 *
 * While the test runs, the kernel sends SIGSYS in place of each system call (Syscall User Dispatch, on x86-64 from
 * Linux 5.11 on). Calls that change nothing a run could use again are made. Memory of mmap is served from the test's
 * heap, and signals.c answers what the test does with signals. All others are refused with their names, since a saved
 * state has no files, no processes and no threads. Without this part of the kernel, no call is refused.
 */
#define _GNU_SOURCE
#include "inside.h"
#include <errno.h>
#include <sched.h>
#include <signal.h>
#include <string.h>
#include <sys/mman.h>
#include <sys/prctl.h>
#include <sys/syscall.h>
#include <sys/time.h>
#include <ucontext.h>
#include <unistd.h>

#ifndef SYS_USER_DISPATCH
#define SYS_USER_DISPATCH 2
#endif
#ifndef PR_SET_SYSCALL_USER_DISPATCH
#define PR_SET_SYSCALL_USER_DISPATCH 59
#endif

enum { ALLOW, BLOCK };
enum { MOST_WRITTEN = 143 }; /* the calls that are made write up to so many bytes after the first one */
static volatile char selector = ALLOW;
static long own_thread; /* the number of the thread that has called the explorer */
static void *own_pointer; /* its thread-local variables, also in processes that are forked */
bool xi_prints; /* whether what the test prints is printed */

/* Begins work of the explorer on the stack of the test: system calls are let through. Returns what xi_resume needs. */
char xi_pause(void)
{
    char before = selector;

    selector = ALLOW;
    return before;
}

/* Ends work of the explorer on the stack of the test, or begins it again. */
void xi_resume(char before)
{
    selector = before;
}

void xi_at_test(bool is_test)
{
    selector = is_test ? BLOCK : ALLOW;
}

/* Whether the test runs now, and not the explorer on its stack */
bool x_inside(void)
{
    return selector == BLOCK;
}

void xi_know_thread(void)
{
    own_thread = syscall(SYS_gettid), own_pointer = __builtin_thread_pointer();
}

/* Whether a signal has come to another thread than the explorer's: then it is sent on. */
bool xi_is_elsewhere(int number)
{
    if (__builtin_thread_pointer() == own_pointer)
        return false;
    syscall(SYS_tgkill, getpid(), own_thread, number);
    return true;
}

#ifdef __x86_64__
static const struct {
    int number;
    const char *name, *what;
} refused[] = {
    { SYS_open, "open", "opens a file" },
    { SYS_openat, "openat", "opens a file" },
    { SYS_creat, "creat", "opens a file" },
    { SYS_read, "read", "reads from a file" },
    { SYS_pread64, "pread64", "reads from a file" },
    { SYS_readv, "readv", "reads from a file" },
    { SYS_write, "write", "writes to a file" },
    { SYS_writev, "writev", "writes to a file" },
    { SYS_pwrite64, "pwrite64", "writes to a file" },
    { SYS_lseek, "lseek", "uses a file" },
    { SYS_close, "close", "closes a file" },
    { SYS_dup, "dup", "uses a file" },
    { SYS_dup2, "dup2", "uses a file" },
    { SYS_pipe, "pipe", "makes a pipe" },
    { SYS_pipe2, "pipe2", "makes a pipe" },
    { SYS_unlink, "unlink", "removes a file" },
    { SYS_rename, "rename", "renames a file" },
    { SYS_mkdir, "mkdir", "makes a folder" },
    { SYS_stat, "stat", "looks at a file" },
    { SYS_access, "access", "looks at a file" },
    { SYS_fork, "fork", "starts a child" },
    { SYS_newfstatat, "newfstatat", "looks at a file" },
    { SYS_fstat, "fstat", "looks at a file" },
    { SYS_vfork, "vfork", "starts a child" },
    { SYS_clone, "clone", "starts a child" },
    { SYS_clone3, "clone3", "starts a child" },
    { SYS_execve, "execve", "starts another program" },
    { SYS_wait4, "wait4", "waits for a child" },
    { SYS_socket, "socket", "opens a socket" },
    { SYS_connect, "connect", "uses a socket" },
    { SYS_sendto, "sendto", "uses a socket" },
    { SYS_recvfrom, "recvfrom", "uses a socket" },
    { SYS_poll, "poll", "waits for a file" },
    { SYS_select, "select", "waits for a file" },
    { SYS_mmap, "mmap", "maps memory" },
    { SYS_mprotect, "mprotect", "protects memory" },
    { SYS_madvise, "madvise", "gives memory back" },
    { SYS_mremap, "mremap", "moves memory" },
    { SYS_brk, "brk", "moves the end of its data" },
    { SYS_mlock, "mlock", "locks memory" },
    { SYS_msync, "msync", "writes memory to a file" },
    { SYS_shmget, "shmget", "shares memory" },
    { SYS_shmat, "shmat", "shares memory" },
    { SYS_memfd_create, "memfd_create", "opens a file" },
    { SYS_rt_sigaction, "rt_sigaction", "handles a signal" },
    { SYS_kill, "kill", "sends a signal" },
    { SYS_tkill, "tkill", "sends a signal" },
    { SYS_tgkill, "tgkill", "sends a signal" },
    { SYS_rt_sigqueueinfo, "rt_sigqueueinfo", "sends a signal" },
    { SYS_rt_tgsigqueueinfo, "rt_tgsigqueueinfo", "sends a signal" },
    { SYS_rt_sigsuspend, "rt_sigsuspend", "waits for a signal" },
    { SYS_rt_sigtimedwait, "rt_sigtimedwait", "waits for a signal" },
    { SYS_pause, "pause", "waits for a signal" },
    { SYS_signalfd4, "signalfd4", "waits for a signal" },
    { SYS_sigaltstack, "sigaltstack", "gives handlers a stack" },
    { SYS_alarm, "alarm", "sets a timer" },
    { SYS_setitimer, "setitimer", "sets a timer" },
    { SYS_timer_create, "timer_create", "sets a timer" },
    { SYS_timerfd_create, "timerfd_create", "sets a timer" },
    { SYS_eventfd2, "eventfd2", "opens a file" },
    { SYS_epoll_create1, "epoll_create1", "opens a file" },
    { SYS_getcwd, "getcwd", "looks at a folder" },
    { SYS_chdir, "chdir", "changes its folder" },
    { SYS_prctl, "prctl", "changes its process" },
    { SYS_prlimit64, "prlimit64", "changes its limits" },
    { SYS_sched_setaffinity, "sched_setaffinity", "changes its processors" },
    { SYS_sched_getaffinity, "sched_getaffinity", "looks at its processors" },
    { SYS_getrusage, "getrusage", "reads a clock" },
    { SYS_times, "times", "reads a clock" },
    { SYS_clock_getres, "clock_getres", "reads a clock" },
    { SYS_uname, "uname", "looks at its system" },
    { SYS_sysinfo, "sysinfo", "looks at its system" },
    { SYS_getppid, "getppid", "looks at another process" },
    { SYS_ptrace, "ptrace", "uses another process" },
    { SYS_getrandom, "getrandom", "asks for random numbers" },
    { SYS_clock_gettime, "clock_gettime", "reads a clock" },
    { SYS_gettimeofday, "gettimeofday", "reads a clock" },
    { SYS_time, "time", "reads a clock" },
    { SYS_ioctl, "ioctl", "uses a device" },
    { SYS_fcntl, "fcntl", "uses a file" },
};

/* Makes a system call, with the six words of its arguments. */
static long made(long number, const long *words)
{
    register long r10 __asm__("r10") = words[3], r8 __asm__("r8") = words[4], r9 __asm__("r9") = words[5];
    long result;

    __asm__ volatile("syscall"
                     : "=a"(result)
                     : "a"(number), "D"(words[0]), "S"(words[1]), "d"(words[2]), "r"(r10), "r"(r8), "r"(r9)
                     : "rcx", "r11", "memory");
    return result;
}

/* Makes a system call. The kernel doesn't write to pages that are watched: these are then noted as written, and the
 * call is made again. */
static long made_with_pages(long number, const long *words)
{
    long result = made(number, words);

    for (int n = 0; result == -EFAULT && n < 4; n++) {
        bool is_first = xi_is_first_write((const void *)words[n]);
        if (xi_is_first_write((const void *)(words[n] + MOST_WRITTEN)) || is_first)
            result = made(number, words), n = -1;
    }
    return result;
}

static bool is_terminal(long file)
{
    return file == STDOUT_FILENO || file == STDERR_FILENO;
}

static bool has_no_name(long name)
{
    return !name || !*(const char *)name;
}

/* Whether a call changes nothing that a run could use again, so that it may be made. */
static bool is_harmless(long number, const long *words)
{
    switch (number) {
    case SYS_write: case SYS_writev: case SYS_fstat: case SYS_ioctl: case SYS_lseek:
        return is_terminal(words[0]);
    case SYS_newfstatat:
        return is_terminal(words[0]) && has_no_name(words[1]);
    case SYS_brk:
        return !words[0];
    case SYS_rt_sigreturn: case SYS_gettid: case SYS_getpid: case SYS_futex: case SYS_sched_yield: case SYS_nanosleep:
    case SYS_clock_nanosleep: case SYS_getuid: case SYS_geteuid: case SYS_getgid: case SYS_getegid: case SYS_getcpu:
    case SYS_membarrier:
        return true;
    }
    return false;
}

/* Whether a call is answered with 0, and not made: memory of mmap is in the test's heap, which can be written. */
static bool is_needless(long number, const long *words)
{
    return number == SYS_mprotect && words[2] == (PROT_READ | PROT_WRITE) && (uintptr_t)words[0] >= XI_HEAP &&
           (uintptr_t)words[0] < XI_HEAP + XI_HEAP_SIZE;
}

/* Whether a call is one of mmap for memory of nobody else that can be written, or one that frees such memory. The C
 * library makes the stack of a thread writable later; then the call that starts the thread is refused. */
static bool is_memory(long number, const long *words)
{
    long kinds = MAP_ANONYMOUS | MAP_PRIVATE;
    bool is_writable = words[2] == (PROT_READ | PROT_WRITE) || words[3] & MAP_STACK;

    if (number == SYS_mmap)
        return (words[3] & (kinds | MAP_FIXED | MAP_FIXED_NOREPLACE)) == kinds && is_writable;
    return number == SYS_munmap;
}

static long memory_call(long number, const long *words)
{
    size_t size = (size_t)words[1];
    void *block;

    if (!size || size > XI_HEAP_SIZE || (number == SYS_munmap && words[0] % PAGE))
        return size > XI_HEAP_SIZE && number == SYS_mmap ? -ENOMEM : -EINVAL;
    size = (size + PAGE - 1) / PAGE * PAGE;
    xi_resume(BLOCK); /* so that the block is of the test's heap */
    if (number == SYS_munmap) {
        xi_unmap((void *)words[0], size);
        return 0;
    }
    block = xi_alloc(size, PAGE);
    return block ? (long)(uintptr_t)block : -ENOMEM;
}

/* Whether a call starts a thread */
static bool is_thread(long number, const long *words)
{
    if (number == SYS_clone3)
        return *(const uint64_t *)words[0] & CLONE_THREAD;
    return number == SYS_clone && words[0] & CLONE_THREAD;
}

/* Whether a call ends the process */
static bool is_end(long number)
{
    return number == SYS_exit || number == SYS_exit_group;
}

static _Noreturn void end(long status)
{
    static char texts[256][56];
    char *text = texts[status & 0xFF];

    snprintf(text, sizeof *texts, "the test ends its process with exit status %ld", status & 0xFF);
    xi_fail(text);
}

/* Whether a call is one of those for signals that signals.c answers: of the signals that are sent, those to the
 * process or the thread itself. */
static bool is_of_signals(long number, const long *words)
{
    switch (number) {
    case SYS_rt_sigprocmask: case SYS_rt_sigpending:
        return true;
    case SYS_rt_sigaction:
        return xi_is_action_known(words);
    case SYS_kill:
        return words[0] == getpid();
    case SYS_tkill:
        return words[0] == syscall(SYS_gettid);
    case SYS_tgkill:
        return words[0] == getpid() && words[1] == syscall(SYS_gettid);
    }
    return false;
}

static long signals_call(long number, const long *words)
{
    switch (number) {
    case SYS_rt_sigprocmask:
        return xi_mask_call(words);
    case SYS_rt_sigaction:
        return xi_action_call(words);
    case SYS_rt_sigpending:
        *(uint64_t *)words[0] = xi_state->pending;
        return 0;
    }
    return xi_send_signal(words[number == SYS_tgkill ? 2 : 1]);
}

static _Noreturn void refuse(long number, const long *words)
{
    static char text[128];
    const char *name = "", *what = "";

    for (size_t n = 0; n < sizeof refused / sizeof *refused; n++)
        if (refused[n].number == number)
            name = refused[n].name, what = is_thread(number, words) ? "starts a thread" : refused[n].what;
    if (*name)
        snprintf(text, sizeof text, "the test %s (%s)", what, name);
    else
        snprintf(text, sizeof text, "the test makes the system call %ld", number);
    xi_die_of(text, NULL);
}

static void on_call(int number, siginfo_t *info, void *context)
{
    greg_t *at = ((ucontext_t *)context)->uc_mcontext.gregs;
    const long words[] = { at[REG_RDI], at[REG_RSI], at[REG_RDX], at[REG_R10], at[REG_R8], at[REG_R9] };
    long call = info->si_syscall;

    (void)number;
    xi_pause();
    if (info->si_code != SYS_USER_DISPATCH)
        signal(SIGSYS, SIG_DFL);
    else if (is_memory(call, words))
        at[REG_RAX] = memory_call(call, words);
    else if (is_of_signals(call, words))
        at[REG_RAX] = signals_call(call, words);
    else if (is_end(call))
        end(words[0]);
    else if (is_needless(call, words))
        at[REG_RAX] = 0;
    else if (!is_harmless(call, words))
        refuse(call, words);
    else if (!xi_prints && call == SYS_write && words[0] == STDOUT_FILENO)
        at[REG_RAX] = words[2];
    else
        at[REG_RAX] = made_with_pages(call, words);
    xi_resume(BLOCK);
}

/* The return from a handler is a system call, too: this one is never refused. */
void xi_return(void);
__asm__(".text\n.type xi_return, @function\nxi_return:\n mov $15,%eax\n syscall\n nop\n nop\n nop\n nop\n"
        ".size xi_return, .-xi_return\n");

/* Sets the handler of a signal. */
void xi_on(int number, void (*handler)(int, siginfo_t *, void *), int flags)
{
    struct {
        void *handler;
        unsigned long flags;
        void *restorer;
        unsigned long mask;
    } action = { (void *)handler, (unsigned long)flags | SA_SIGINFO | 0x04000000, (void *)xi_return, 0 }, before;

    if (syscall(SYS_rt_sigaction, number, &action, &before, 8) == 0)
        xi_know_action(number, before.handler);
}

void xi_block_calls(void)
{
    xi_on(SIGSYS, on_call, SA_NODEFER | SA_ONSTACK);
    prctl(PR_SET_SYSCALL_USER_DISPATCH, 1, xi_return, 16, &selector);
}
#else
void xi_on(int number, void (*handler)(int, siginfo_t *, void *), int flags)
{
    struct sigaction action = { .sa_sigaction = handler, .sa_flags = flags | SA_SIGINFO };

    sigemptyset(&action.sa_mask);
    sigaction(number, &action, NULL);
}

void xi_block_calls(void)
{
}
#endif
