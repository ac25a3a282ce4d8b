/* A test that keeps something outside of its memory, sends itself a signal, leaves its stack, or spins.
 *
 * usage: calls WHAT [OPTION..]
 */
#define _GNU_SOURCE
#include <assert.h>
#include <fcntl.h>
#include <nic82540em_explore.h>
#include <pthread.h>
#include <setjmp.h>
#include <signal.h>
#include <stdio.h>
#include <stdlib.h>
#include <string.h>
#include <sys/mman.h>
#include <sys/stat.h>
#include <sys/wait.h>
#include <ucontext.h>
#include <unistd.h>

enum { RING = 0x1000, BUFFERS = 0x10000, SIZE = 2048, SLOTS = 8, FRAMES = 3 };
static _Thread_local unsigned of_thread;
static unsigned of_program, next;
static char *of_main, *of_mmap;
static ucontext_t of_test, other;
static jmp_buf before_handler;
static const struct {
    const char *name;
    int number;
} signals[] = { { "SIGALRM", SIGALRM }, { "SIGUSR1", SIGUSR1 }, { "SIGTERM", SIGTERM }, { "SIGKILL", SIGKILL },
                { "SIGSEGV", SIGSEGV }, { "SIGABRT", SIGABRT }, { "SIGSTOP", SIGSTOP }, { "SIGCHLD", SIGCHLD },
                { "SIGUSR2", SIGUSR2 }, { "SIGPIPE", SIGPIPE } };

static void *be_thread(void *argument)
{
    return argument;
}

static uint8_t status(void)
{
    uint8_t value;

    x_load(RING + 16 * next + 12, &value, 1);
    return value;
}

/* Each run changes a variable that no run sets back, and makes other accesses if an earlier run has changed it. */
static void count(const char *what)
{
    bool is_new = true;

    if (!strcmp(what, "static"))
        is_new = !of_program++;
    if (!strcmp(what, "thread-local"))
        is_new = !of_thread++;
    if (!strcmp(what, "main"))
        is_new = !of_main[5]++;
    if (!strcmp(what, "mapped"))
        is_new = !of_mmap[5]++;
    if (!strcmp(what, "rand"))
        is_new = rand() == 1804289383;
    if (!strcmp(what, "printf"))
        printf("a line\n");
    if (!is_new)
        x_read(NIC_STATUS);
}

static void leave_process(const char *what)
{
    pthread_t thread;
    char byte;

    if (!strcmp(what, "file"))
        close(open("/dev/null", O_RDONLY));
    if (!strcmp(what, "stream"))
        fclose(fopen("/dev/null", "r"));
    if (!strcmp(what, "fork") && !fork())
        _exit(0);
    if (!strcmp(what, "system"))
        exit(system("true"));
    if (!strcmp(what, "thread"))
        pthread_create(&thread, NULL, be_thread, NULL);
    if (!strcmp(what, "input"))
        exit((int)read(0, &byte, 1));
    if (!strcmp(what, "shared"))
        exit(mmap(NULL, 4096, PROT_READ | PROT_WRITE, MAP_SHARED | MAP_ANONYMOUS, -1, 0) != NULL);
    if (!strcmp(what, "adapter"))
        nic82540em_new(&(struct nic82540em){ 0 }, &x_options);
    if (!strcmp(what, "guard"))
        exit(mprotect(mmap(NULL, 4096, PROT_READ | PROT_WRITE, MAP_PRIVATE | MAP_ANONYMOUS, -1, 0), 4096, PROT_NONE));
    if (!strcmp(what, "madvise"))
        exit(madvise(of_mmap, 4096, MADV_DONTNEED));
    if (!strcmp(what, "random"))
        exit(getentropy(&byte, 1));
    if (!strcmp(what, "handles"))
        signal(SIGABRT, exit);
    if (!strcmp(what, "brk"))
        exit(sbrk(4096) != NULL);
    if (!strcmp(what, "mremap"))
        exit(mremap(of_mmap, 4096, 1 << 20, MREMAP_MAYMOVE) != NULL);
    if (!strcmp(what, "read only"))
        exit(mmap(NULL, 4096, PROT_READ, MAP_PRIVATE | MAP_ANONYMOUS, -1, 0) != NULL);
    if (!strcmp(what, "kill"))
        kill(getppid(), 0);
}

/* A mapping loses its ends, and then its middle. Its bytes are those that were written. */
static bool unmaps_parts(void)
{
    char *all = mmap(NULL, 4 * 4096 - 1, PROT_READ | PROT_WRITE, MAP_PRIVATE | MAP_ANONYMOUS, -1, 0);
    char *block = malloc(100);
    bool is_right;

    memset(all, 1, 4 * 4096), memset(block, 2, 100);
    munmap(all, 4096), munmap(all + 3 * 4096, 4096);
    is_right = all[4096] == 1 && all[3 * 4096 - 1] == 1 && block[99] == 2;
    munmap(all + 4096, 2 * 4096);
    free(block);
    return is_right;
}

static void access_elsewhere(void)
{
    x_read(NIC_STATUS);
}

/* The kernel writes to a static variable. */
static bool looks_at_output(void)
{
    static struct stat of_output[64];

    return !fstat(STDERR_FILENO, &of_output[63]) && of_output[63].st_mode;
}

/* A function runs on another stack: with an access, or without one. */
static void switch_stack(bool has_access)
{
    static char stack[1 << 16];

    getcontext(&other);
    other.uc_stack.ss_sp = stack, other.uc_stack.ss_size = sizeof stack, other.uc_link = &of_test;
    makecontext(&other, has_access ? access_elsewhere : (void (*)(void))free, has_access ? 0 : 1, NULL);
    swapcontext(&of_test, &other);
}

static void jump(void)
{
    x_read(NIC_ICR);
    longjmp(before_handler, 1);
}

static void handle(void)
{
    x_read(NIC_ICR);
}

/* If the first frame is finished early, the test does something, and the run may end by this. */
static void act(const char *what)
{
    for (size_t n = 0; n < sizeof signals / sizeof *signals; n++)
        if (!strcmp(what, signals[n].name))
            raise(signals[n].number);
    if (!strcmp(what, "exits"))
        exit(7);
    if (!strcmp(what, "kills itself"))
        kill(getpid(), SIGUSR1);
    if (!strcmp(what, "switches"))
        switch_stack(true);
    if (!strcmp(what, "jumps"))
        x_handler(jump);
    if (!strcmp(what, "ignores"))
        signal(SIGUSR1, SIG_IGN), raise(SIGUSR1), signal(SIGUSR1, SIG_DFL);
}

static void call_wrongly(const char *what)
{
    if (!strcmp(what, "x_step"))
        next += x_step(99) != NIC_REFUSED;
    if (!strcmp(what, "x_choose"))
        x_choose(0);
    if (!strcmp(what, "x_load"))
        x_load(0, NULL, 1);
    if (!strcmp(what, "x_store"))
        x_store(0, &next, SIZE_MAX);
    if (!strcmp(what, "x_arrive"))
        x_arrive(NULL, 60);
    if (!strcmp(what, "x_offer"))
        x_offer(NULL, 60);
    if (!strcmp(what, "x_put"))
        x_put(0, NULL, 1);
    if (!strcmp(what, "x_arrived"))
        x_arrived(0, NULL, NULL, 0);
    if (!strcmp(what, "x_host"))
        x_host(NULL);
    if (!strcmp(what, "x_memory"))
        x_memory(SIZE_MAX);
}

/* Keeps whether a frame was finished early: in the signal mask, which is saved, or in the position of standard error,
 * which isn't. Returns whether this was lost. */
static bool is_lost(bool by_mask)
{
    sigset_t all, now;
    bool is_early = status() & NIC_RXD_DD, is_kept;

    sigfillset(&all), sigemptyset(&now);
    if (is_early && by_mask)
        sigprocmask(SIG_SETMASK, &all, NULL);
    if (is_early && !by_mask)
        lseek(STDERR_FILENO, 1, SEEK_SET);
    x_choose(2);
    sigprocmask(SIG_BLOCK, NULL, &now);
    is_kept = by_mask ? sigismember(&now, SIGUSR1) : lseek(STDERR_FILENO, 0, SEEK_CUR) == 1;
    sigprocmask(SIG_UNBLOCK, &all, NULL), lseek(STDERR_FILENO, 0, SEEK_SET);
    return is_early && !is_kept;
}

static void spin(void)
{
    for (volatile bool is_endless = true; is_endless;)
        ;
}

static const char *test(void *what)
{
    static const uint8_t frame[60] = { 255, 255, 255, 255, 255, 255 };
    char *text = NULL;
    size_t size = 0;
    FILE *stream = NULL;

    next = 0;
    for (unsigned slot = 0; slot < SLOTS; slot++)
        x_store(RING + 16 * slot, (uint64_t[]){ BUFFERS + SIZE * slot, 0 }, 16);
    x_write(NIC_RDBAL, RING), x_write(NIC_RDLEN, 16 * SLOTS), x_write(NIC_RDT, SLOTS - 1);
    x_write(NIC_RCTL, NIC_RCTL_EN | NIC_RCTL_BAM);
    leave_process(what), call_wrongly(what);
    if (!strcmp(what, "switches silently"))
        switch_stack(false);
    if (!strcmp(what, "output") && !looks_at_output())
        return "standard error isn't open";
    if (!strcmp(what, "parts") && !unmaps_parts())
        return "a mapping has other bytes";
    if (!strcmp(what, "jumps") && setjmp(before_handler))
        return "the handler jumps";
    x_handler(handle), x_write(NIC_IMS, strcmp(what, "jumps") ? 0 : NIC_RXT0);
    if (!strcmp(what, "spins"))
        spin();
    if (!strcmp(what, "stream in memory"))
        stream = open_memstream(&text, &size);
    for (unsigned n = 0; n < FRAMES; n++) {
        char *block = malloc(1000 * n + 1);
        x_arrive(frame, sizeof frame);
        count(what);
        if (stream)
            fprintf(stream, "%u,", n);
        if (!strcmp(what, "spins early") && status() & NIC_RXD_DD)
            spin();
        if (n == 0 && status() & NIC_RXD_DD)
            act(what);
        if (!strcmp(what, "assert"))
            assert(!status());
        if ((!strcmp(what, "mask") && is_lost(true)) || (!strcmp(what, "position") && is_lost(false)))
            return "a bit was lost";
        x_settle();
        next += status() & NIC_RXD_DD;
        memset(block, 1, 1000 * n + 1);
        free(block);
    }
    if (stream) {
        fclose(stream);
        if (strcmp(text, "0,1,2,"))
            return "the stream has another text";
        free(text);
    }
    return next == FRAMES ? NULL : "a frame was lost";
}

int main(int word_count, char **words)
{
    static char none[] = "";

    signal(SIGUSR2, exit), signal(SIGPIPE, SIG_IGN);
    of_main = malloc(100), memset(of_main, 0, 100);
    of_mmap = mmap(NULL, 1 << 16, PROT_READ | PROT_WRITE, MAP_PRIVATE | MAP_ANONYMOUS, -1, 0);
    return nic82540em_explore(word_count, words, test, word_count > 1 ? words[1] : none);
}
