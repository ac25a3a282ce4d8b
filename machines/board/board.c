/* A PCI function 8086:100E for a QEMU machine: the adapter, and what a board around it supplies.
 *
 *   board --socket PATH [OPTIONS] -- qemu-system-x86_64 ..
 *
 *   --socket PATH       QEMU's socket for qtest
 *   --memory BYTES      the size of the guest's memory
 *   --nicbench PROGRAM  the program of the adapter, for a board that is linked with adapter_serve.c
 *   --rom BYTES         the size of the option ROM that QEMU has for the function (romfile=)
 *   --tap NAME          the wire's other end is a TAP device; otherwise it is the responder, and with --echo its rounds
 *   --out FOLDER        steps are drawn in rounds; the trace of the first round that fails, and what rounds reached,
 *                       are written there
 *   --echo ROUNDS       FIRST,LAST,MOST,STOP: rounds of echo requests (echo_rounds.h)
 *   --seed N            determines the steps
 *   --at-once           nothing is drawn: each step is played at once
 *   --only ROUND,FILE   in this round, only the drawn actions whose numbers are in the file are played
 *   --trace FILE        writes all that happens to this file
 */
#include <errno.h>
#include <inttypes.h>
#include <poll.h>
#include <signal.h>
#include <stdio.h>
#include <string.h>
#include <sys/mman.h>
#include <sys/socket.h>
#include <unistd.h>

#include "adapter.h"
#include "configuration.h"
#include "dma.h"
#include "driver_accesses.h"
#include "echo_rounds.h"
#include "eeprom.h"
#include "guest_memory.h"
#include "interrupts.h"
#include "kept.h"
#include "machine.h"
#include "messages.h"
#include "options.h"
#include "registers.h"
#include "report.h"
#include "responder.h"
#include "rings.h"
#include "steps.h"
#include "sweep.h"
#include "tap.h"
#include "trace.h"
#include "wire.h"

enum {
    SETTLE_ROUNDS = 64,
    MOST_WAITING = 32, /* frames that are read from the TAP device in advance */
    IDLE = 10          /* milliseconds */
};

static int connection, plugin;
static volatile sig_atomic_t is_ended;

static void end(int signal)
{
    (void)signal;
    is_ended = 1;
}

static int shared_file(uint64_t size)
{
    int file = memfd_create("guest", 0);

    if (file < 0 || ftruncate(file, (off_t)size))
        fail("the guest's memory: %s", strerror(errno));
    return file;
}

/* Makes two connected sockets. Returns the one that the board keeps, and stores the other one in `other`. */
static int connected(int *other)
{
    int sockets[2];

    if (socketpair(AF_UNIX, SOCK_STREAM | SOCK_CLOEXEC, 0, sockets))
        fail("a pair of sockets: %s", strerror(errno));
    *other = sockets[1];
    return sockets[0];
}

static void start(const struct options *options)
{
    int files[MACHINE_FILES];

    configuration_start(options->rom);
    adapter_start(options->nicbench, options->memory);
    eeprom_start();
    kept_reset();
    registers_negotiate();
    rings_refresh();
    interrupts_start(options->socket);
    wire_start(options->tap ? tap_write : options->echo.last ? echo_answer : responder_answer);
    if (options->echo.last)
        echo_start(&options->echo);
    if (options->tap)
        tap_start(options->tap);
    if (options->folder)
        sweep_start(options->seed, options->folder, !options->at_once);
    if (options->only)
        sweep_only(options->only_round, options->only);
    connection = connected(&files[0]);
    files[1] = shared_file(options->memory);
    plugin = connected(&files[2]);
    files[3] = accesses_start();
    machine_start(options->qemu, files);
    for (int number = 0; number < MACHINE_FILES; number++)
        close(files[number]);
}

/* Answers the plugin, which waits because the driver has accessed a ring. */
static void answer_plugin(void)
{
    char letter;

    if (read(plugin, &letter, 1) != 1) {
        plugin = -1;
        return;
    }
    sweep_point(AT_MEMORY);
    echo_point(AT_ECHO_MEMORY);
    interrupts_update(true);
    if (write(plugin, &letter, 1) != 1)
        report("the plugin has ended");
}

/* If steps aren't drawn, lets the adapter work while the guest runs. Returns whether the adapter has more work. */
static bool work(void)
{
    bool has_more;

    if (sweep_draws() || !guest_memory_is_known())
        return false;
    while (tap_descriptor() >= 0 && wire_waiting() < MOST_WAITING && tap_read())
        ;
    has_more = steps_settle(SETTLE_ROUNDS);
    interrupts_update(false);
    return has_more;
}

/* Waits for QEMU, the plugin, qtest and the TAP device, at most for a time, and answers. Returns false if QEMU has
 * ended. */
static bool answer_one(int milliseconds)
{
    struct pollfd waits[] = {
        { connection, POLLIN, 0 },
        { plugin, POLLIN, 0 },
        { interrupts_socket(), POLLIN, 0 },
        { wire_waiting() < MOST_WAITING ? tap_descriptor() : -1, POLLIN, 0 },
    };

    if (poll(waits, sizeof waits / sizeof *waits, milliseconds) < 0 && errno != EINTR)
        fail("poll: %s", strerror(errno));
    if (waits[1].revents)
        answer_plugin();
    if (waits[2].revents)
        interrupts_answers();
    return waits[0].revents == 0 || messages_answer(connection);
}

static void print_counts(void)
{
    const uint64_t *fates = dma_counts.fates;

    report("registers: %" PRIu64 " different ones, %" PRIu64 " reads, %" PRIu64 " writes; requests to the adapter's"
           " process: %" PRIu64,
           register_counts.different, register_counts.reads, register_counts.writes, adapter_requests());
    report("sent: %" PRIu64 " frames, %" PRIu64 " bytes, %" PRIu64 " faults", wire_counts.sent,
           dma_counts.transmit_bytes, dma_counts.faults[1]);
    report("arrived: %" PRIu64 " frames, %" PRIu64 " stored, %" PRIu64 " missed, %" PRIu64 " filtered, %" PRIu64
           " illegal, %" PRIu64 " while off; %" PRIu64 " faults; %" PRIu64 " dropped before they arrived",
           wire_counts.arrived, fates[STORED], fates[MISSED], fates[FILTERED], fates[ILLEGAL], fates[OFF],
           dma_counts.faults[0], wire_counts.dropped);
    if (dma_counts.simplified)
        report("sent: %" PRIu64 " data descriptors, stored as legacy ones", dma_counts.simplified);
    kept_end();
}

static FILE *opened(const char *path)
{
    FILE *file = fopen(path, "w");

    if (file == NULL)
        fail("%s: %s", path, strerror(errno));
    return file;
}

int main(int count, char **words)
{
    struct options options = { .memory = 128 << 20 };
    struct sigaction on_end = { .sa_handler = end };
    bool has_more = false;

    options_read(count, words, &options);
    sigaction(SIGTERM, &on_end, NULL);
    sigaction(SIGINT, &on_end, NULL);
    signal(SIGPIPE, SIG_IGN);
    if (options.trace)
        trace_to(opened(options.trace));
    start(&options);
    while (!is_ended && !echo_is_over() && answer_one(has_more ? 0 : IDLE))
        has_more = work();
    if (echo_is_over())
        machine_stop();
    echo_end();
    trace_end();
    print_counts();
    sweep_end();
    return is_ended ? 1 : machine_end();
}
