/* A test whose outcome depends on one bit, which is toggled by each frame that is finished early. The bit is kept in a
 * variable, or where the C library, the kernel or the processor keeps something for a thread.
 *
 * usage: kept PLACE [OPTION..]
 */
#define _GNU_SOURCE
#include <errno.h>
#include <fenv.h>
#include <nic82540em_explore.h>
#include <pthread.h>
#include <signal.h>
#include <stdlib.h>
#include <string.h>
#include <sys/wait.h>
#include <unistd.h>

enum { RING = 0x1000, BUFFERS = 0x10000, SIZE = 2048, SLOTS = 8, FRAMES = 2 };
static bool plain;
static pthread_key_t key;
static char *of_sbrk, *of_main;
static int word_count;
static char **the_words;

static bool get_plain(void)
{
    return plain;
}

static void set_plain(bool now)
{
    plain = now;
}

static bool get_specific(void)
{
    return pthread_getspecific(key);
}

static void set_specific(bool now)
{
    pthread_setspecific(key, now ? &plain : NULL);
}

static bool get_cancel_state(void)
{
    int state;

    pthread_setcancelstate(PTHREAD_CANCEL_DISABLE, &state), pthread_setcancelstate(state, NULL);
    return state == PTHREAD_CANCEL_DISABLE;
}

static void set_cancel_state(bool now)
{
    pthread_setcancelstate(now ? PTHREAD_CANCEL_DISABLE : PTHREAD_CANCEL_ENABLE, NULL);
}

static bool get_cancel_type(void)
{
    int type;

    pthread_setcanceltype(PTHREAD_CANCEL_DEFERRED, &type), pthread_setcanceltype(type, NULL);
    return type == PTHREAD_CANCEL_ASYNCHRONOUS;
}

static void set_cancel_type(bool now)
{
    pthread_setcanceltype(now ? PTHREAD_CANCEL_ASYNCHRONOUS : PTHREAD_CANCEL_DEFERRED, NULL);
}

/* A flag of the units for `long double` or for `double`. It is set by an inexact division. */
static bool get_flag(void)
{
    return fetestexcept(FE_INEXACT);
}

static void set_flag(bool now, bool is_long)
{
    volatile long double three = 3;
    volatile double short_three = 3;

    feclearexcept(FE_ALL_EXCEPT);
    if (now && is_long)
        three = 1 / three;
    else if (now)
        short_three = 1 / short_three;
}

static void set_long_flag(bool now)
{
    set_flag(now, true);
}

static void set_short_flag(bool now)
{
    set_flag(now, false);
}

static bool get_rounding(void)
{
    return fegetround() == FE_UPWARD;
}

static void set_rounding(bool now)
{
    fesetround(now ? FE_UPWARD : FE_TONEAREST);
}

static bool get_errno(void)
{
    return errno;
}

static void set_errno(bool now)
{
    errno = now;
}

static bool get_sbrk(void)
{
    return *of_sbrk;
}

static void set_sbrk(bool now)
{
    *of_sbrk = now;
}

static bool get_main(void)
{
    return *of_main;
}

static void set_main(bool now)
{
    *of_main = now;
}

static bool get_mask(void)
{
    sigset_t set;

    sigprocmask(SIG_BLOCK, NULL, &set);
    return sigismember(&set, SIGUSR1);
}

static void set_mask(bool now)
{
    sigset_t set;

    sigemptyset(&set), sigaddset(&set, SIGUSR1);
    sigprocmask(now ? SIG_BLOCK : SIG_UNBLOCK, &set, NULL);
}

/* Whether a signal is ignored */
static bool get_ignored(void)
{
    struct sigaction before;

    sigaction(SIGUSR2, NULL, &before);
    return before.sa_handler == SIG_IGN;
}

static void set_ignored(bool now)
{
    signal(SIGUSR2, now ? SIG_IGN : SIG_DFL);
}

/* Whether a signal that is blocked is pending */
static bool get_pending(void)
{
    sigset_t set;

    sigpending(&set);
    return sigismember(&set, SIGUSR1);
}

static void set_pending(bool now)
{
    set_mask(true);
    if (now)
        raise(SIGUSR1);
    else if (get_pending())
        set_ignored(true), signal(SIGUSR1, SIG_IGN), set_mask(false), signal(SIGUSR1, SIG_DFL), set_mask(true);
}

static const struct kept {
    const char *name;
    bool (*get)(void);
    void (*set)(bool now);
} kept[] = { { "static", get_plain, set_plain }, { "specific", get_specific, set_specific },
             { "cancel state", get_cancel_state, set_cancel_state },
             { "cancel type", get_cancel_type, set_cancel_type }, { "long flag", get_flag, set_long_flag },
             { "flag", get_flag, set_short_flag }, { "rounding", get_rounding, set_rounding },
             { "errno", get_errno, set_errno }, { "sbrk", get_sbrk, set_sbrk },
             { "main", get_main, set_main }, { "mask", get_mask, set_mask }, { "ignored", get_ignored, set_ignored },
             { "pending", get_pending, set_pending } };

static const char *test(void *place)
{
    static const uint8_t frame[60] = { 255, 255, 255, 255, 255, 255 };
    const struct kept *one = place;
    uint8_t status;

    one->set(false);
    for (unsigned slot = 0; slot < SLOTS; slot++)
        x_store(RING + 16 * slot, (uint64_t[]){ BUFFERS + SIZE * slot, 0 }, 16);
    x_write(NIC_RDBAL, RING), x_write(NIC_RDLEN, 16 * SLOTS), x_write(NIC_RDT, SLOTS - 1);
    x_write(NIC_RCTL, NIC_RCTL_EN | NIC_RCTL_BAM);
    for (unsigned n = 0; n < FRAMES; n++) {
        x_arrive(frame, sizeof frame);
        x_load(RING + 16 * n + 12, &status, 1);
        if (status & NIC_RXD_DD)
            one->set(!one->get());
        status = 0;
        x_settle();
    }
    x_read(NIC_STATUS);
    return one->get() ? "the bit is set" : NULL;
}

/* The place and the explorer's words, also in a thread */
static void *search(void *in_child)
{
    const struct kept *one = kept;
    int status;

    if (in_child && fork()) {
        wait(&status);
        exit(WIFEXITED(status) ? WEXITSTATUS(status) : 128);
    }
    while (one < kept + sizeof kept / sizeof *kept - 1 && strcmp(the_words[1], one->name))
        one++;
    exit(nic82540em_explore(word_count, the_words, test, (void *)(uintptr_t)one));
}

/* With the last word "thread", the explorer is called in a thread; with "child", in a child that a thread has forked. */
int main(int count, char **words)
{
    pthread_t thread;
    char byte = 0;

    word_count = count, the_words = words, of_main = &byte;
    pthread_key_create(&key, NULL);
    of_sbrk = sbrk(1000);
    if (count < 2)
        return 2;
    if (strcmp(words[count - 1], "thread") && strcmp(words[count - 1], "child"))
        search(NULL);
    word_count--;
    pthread_create(&thread, NULL, search, strcmp(words[count - 1], "child") ? NULL : &thread);
    pthread_join(thread, NULL);
    return 1;
}
