/* Answers the requests of `nicbench drive` on a PCI function, so that the driver runs on that adapter.
 *
 *   bridge [OPTIONS] vfio|uio DEVICE -- nicbench drive --send IN.pcap --receive OUT.pcap ..
 *
 * DEVICE is a name such as 0000:00:03.0. The bridge adds --registers and --memory to the words of nicbench.
 *
 *   --any          also allows other parts than the 82540EM, from a list of its kin
 *   --line         reports the interrupt line; the driver then also has turns when it is asserted
 *   --wait MS      a read of ICR after one that found no cause waits for an interrupt, at most this long (10)
 *   --settle MS    waits this long after the receiver was enabled (0)
 *   --map BYTES    with vfio: the IOMMU maps only the first BYTES of the memory (2097152)
 *   --offers FILE  gets a letter at each write of RDT: A for no new descriptor, B for one, and so on
 */
#include <errno.h>
#include <fcntl.h>
#include <getopt.h>
#include <inttypes.h>
#include <signal.h>
#include <stdio.h>
#include <stdlib.h>
#include <string.h>
#include <sys/prctl.h>
#include <sys/wait.h>
#include <unistd.h>

#include "accesses.h"
#include "function.h"

#define REGISTERS 0xFE000000ull

enum { LINE_BYTES = 1 << 20, LINE_ROOM = 64, USAGE = 2, MOST_WORDS = 64 };

struct options {
    struct access_options access;
    uint64_t mapped;
    bool any;
};

static struct {
    uint64_t reads, writes, loads, stores;
} counts;
static bool tells_line;
static volatile sig_atomic_t program; /* the process of nicbench */

static void usage(void)
{
    fputs("usage: bridge [--any] [--line] [--wait MS] [--settle MS] [--map BYTES] [--offers FILE] vfio|uio DEVICE -- "
          "nicbench drive WORDS..\n",
          stderr);
    exit(USAGE);
}

static uint64_t number_in(const char *word, uint64_t most)
{
    char *end;
    uint64_t number = strtoull(word, &end, 0);

    if (*word == 0 || *word == '-' || *end != 0 || number > most) {
        fprintf(stderr, "bridge: %s isn't a number from 0 to %" PRIu64 "\n", word, most);
        exit(USAGE);
    }
    return number;
}

static void read_options(int count, char **words, struct options *options)
{
    static const struct option all[] = {
        { "any", no_argument, NULL, 'a' },          { "line", no_argument, NULL, 'l' },
        { "wait", required_argument, NULL, 'w' },   { "settle", required_argument, NULL, 's' },
        { "map", required_argument, NULL, 'm' },    { "offers", required_argument, NULL, 'o' },
        { NULL, 0, NULL, 0 }
    };
    int option;

    while ((option = getopt_long(count, words, "+", all, NULL)) >= 0)
        switch (option) {
        case 'a':
            options->any = true;
            break;
        case 'l':
            tells_line = true;
            break;
        case 'w':
            options->access.wait = (int)number_in(optarg, 60000);
            break;
        case 's':
            options->access.settle = (int)number_in(optarg, 60000);
            break;
        case 'm':
            options->mapped = number_in(optarg, MEMORY_BYTES);
            break;
        case 'o':
            options->access.offers = open(optarg, O_WRONLY | O_NOCTTY | O_CLOEXEC);
            if (options->access.offers < 0)
                fail("%s: %s", optarg, strerror(errno));
            break;
        default:
            usage();
        }
    if (count - optind < 4 || strcmp(words[optind + 2], "--") != 0 || count - optind > MOST_WORDS)
        usage();
}

static unsigned digit_of(char letter)
{
    return letter <= '9' ? letter - '0' : (letter | 32) - 'a' + 10;
}

/* Reads `size` bytes from a space, 0x and their digits. Returns false if the text has another length. */
static bool take_bytes(const char *digits, uint8_t *bytes, uint64_t size)
{
    if (strncmp(digits, " 0x", 3) != 0 || strlen(digits) != 3 + 2 * size)
        return false;
    digits += 3;
    for (uint64_t at = 0; at < size; at++)
        bytes[at] = (uint8_t)(digit_of(digits[2 * at]) << 4 | digit_of(digits[2 * at + 1]));
    return true;
}

static size_t put_bytes(char *into, const uint8_t *bytes, uint64_t size)
{
    static const char digits[] = "0123456789abcdef";
    size_t used = (size_t)sprintf(into, "OK 0x");

    for (uint64_t at = 0; at < size; at++) {
        into[used++] = digits[bytes[at] >> 4];
        into[used++] = digits[bytes[at] & 15];
    }
    into[used++] = '\n';
    return used;
}

static uint32_t offset_of(uint64_t address)
{
    if (address < REGISTERS || address - REGISTERS > REGISTER_BYTES - 4 || address % 4 != 0)
        fail("a request for a register at 0x%" PRIx64, address);
    return (uint32_t)(address - REGISTERS);
}

/* Does what a request asks for, and writes the answer. Returns its size. */
static size_t perform(const char *line, char *answer)
{
    static uint8_t bytes[LINE_BYTES / 2];
    int64_t numbers[2] = { 0 };
    uint64_t address, value;
    int used = 0;
    char word[8];

    if (sscanf(line, "%7s %" SCNi64 "%n %" SCNi64 "%n", word, &numbers[0], &used, &numbers[1], &used) < 2)
        fail("a request that isn't one: %.80s", line);
    address = (uint64_t)numbers[0];
    value = (uint64_t)numbers[1];
    if (strcmp(word, "readl") == 0) {
        counts.reads++;
        return (size_t)sprintf(answer, "OK 0x%016x\n", (unsigned)access_readl(offset_of(address)));
    }
    if (strcmp(word, "writel") == 0) {
        counts.writes++;
        access_writel(offset_of(address), (uint32_t)value);
        return (size_t)sprintf(answer, "OK\n");
    }
    if (address > MEMORY_BYTES || value > MEMORY_BYTES - address || value > sizeof bytes / 2)
        fail("a request outside of the memory: %.80s", line);
    if (strcmp(word, "read") == 0) {
        counts.loads++;
        access_read(address, bytes, value);
        return put_bytes(answer, bytes, value);
    }
    if (strcmp(word, "write") != 0 || !take_bytes(line + used, bytes, value))
        fail("a request that isn't known: %.80s", line);
    counts.stores++;
    access_write(address, bytes, value);
    return (size_t)sprintf(answer, "OK\n");
}

/* Writes a line about the interrupt line if it has changed. */
static size_t put_line(char *into)
{
    static bool level;
    bool now = tells_line && configuration_read(STATUS) & STATUS_INTERRUPT;

    if (now == level)
        return 0;
    level = now;
    return (size_t)sprintf(into, "IRQ %s 0\n", now ? "raise" : "lower");
}

static bool is_of_register(const char *line)
{
    return strncmp(line, "readl ", 6) == 0 || strncmp(line, "writel ", 7) == 0;
}

/* Answers a request. Returns false if the program doesn't read the answer. */
static bool answer(const char *line, int to)
{
    static char text[LINE_BYTES + LINE_ROOM], report[LINE_ROOM];
    size_t size = perform(line, text + LINE_ROOM), told = is_of_register(line) ? put_line(report) : 0;

    memcpy(text + LINE_ROOM - told, report, told);
    return write(to, text + LINE_ROOM - told, told + size) == (ssize_t)(told + size);
}

/* Answers requests until nicbench ends, or doesn't read an answer. */
static void serve(int from, int to)
{
    static char lines[LINE_BYTES];
    size_t used = 0;
    ssize_t count;

    while ((count = read(from, lines + used, sizeof lines - 1 - used)) > 0 || (count < 0 && errno == EINTR)) {
        char *line = lines, *end;

        used += count > 0 ? (size_t)count : 0;
        for (; (end = memchr(line, '\n', lines + used - line)) != NULL; line = end + 1) {
            *end = 0;
            if (!answer(line, to))
                return;
        }
        used -= (size_t)(line - lines);
        memmove(lines, line, used);
        if (used == sizeof lines - 1)
            fail("a request is too long");
    }
}

/* Runs nicbench in this process, with the pipes as its standard input and output. */
static void run(char **words, int count, int input, int output)
{
    char *all[MOST_WORDS + 5], registers[32], memory[32];

    snprintf(registers, sizeof registers, "0x%llX", REGISTERS);
    snprintf(memory, sizeof memory, "%d", MEMORY_BYTES);
    memcpy(all, words, (size_t)count * sizeof *words);
    memcpy(all + count, (char *[]){ "--registers", registers, "--memory", memory, NULL }, 5 * sizeof *all);
    prctl(PR_SET_PDEATHSIG, SIGKILL);
    dup2(input, 0);
    dup2(output, 1);
    execvp(all[0], all);
    fprintf(stderr, "bridge: %s: %s\n", all[0], strerror(errno));
    _exit(127);
}

/* Kills nicbench at a signal that ends the bridge. The bridge then ends as after any run. */
static void end(int signal)
{
    (void)signal;
    if (program > 0)
        kill(program, SIGKILL);
}

/* Runs nicbench on the function. Returns the exit status. */
static int drive(char **words, int count)
{
    int to[2], from[2], status;

    if (pipe2(to, O_CLOEXEC) || pipe2(from, O_CLOEXEC))
        fail("a pipe: %s", strerror(errno));
    program = fork();
    if (program == 0)
        run(words, count, to[0], from[1]);
    close(to[0]);
    close(from[1]);
    function_master(true);
    serve(from[0], to[1]);
    function_master(false);
    close(to[1]);
    waitpid(program, &status, 0);
    return WIFEXITED(status) ? WEXITSTATUS(status) : 1;
}

int main(int count, char **words)
{
    struct options options = { .access = { .wait = 10, .offers = -1 }, .mapped = MEMORY_BYTES };
    struct sigaction on_end = { .sa_handler = end };
    int status;

    read_options(count, words, &options);
    words += optind;
    if (strcmp(words[0], "vfio") != 0 && strcmp(words[0], "uio") != 0)
        usage();
    sigaction(SIGINT, &on_end, NULL);
    sigaction(SIGTERM, &on_end, NULL);
    signal(SIGPIPE, SIG_IGN);
    function_check(words[1], words[0][0] == 'v' ? "vfio-pci" : "uio_pci_generic", options.any);
    if (words[0][0] == 'v')
        vfio_start(words[1], options.mapped);
    else
        uio_start(words[1]);
    accesses_start(&options.access);
    status = drive(words + 3, count - optind - 3);
    fprintf(stderr, "bridge: %s: %" PRIu64 " reads and %" PRIu64 " writes of registers, %" PRIu64 " loads and %" PRIu64
            " stores; %" PRIu64 " of %" PRIu64 " waits ended by an interrupt\n",
            words[0], counts.reads, counts.writes, counts.loads, counts.stores, interrupts, interrupt_waits);
    return status;
}
