/* The adapter in `nicbench serve` (docs/SERVE.md). Stores and writes don't wait for their answers. The answers
 * are read later, at the latest before the answer to the next request whose answer matters. */
#include "adapter.h"

#include <errno.h>
#include <stdio.h>
#include <stdlib.h>
#include <string.h>
#include <sys/prctl.h>
#include <signal.h>
#include <unistd.h>

#include "report.h"

#define FIRST_REGISTER 0xFEB00000ull

enum {
    ANSWER_BYTES = 1 << 18,
    REQUEST_BYTES = 16384,
    MOST_OWED = 16, /* the most requests that are sent before their answers are read. All fit into their pipes. */
    SENT_ROOM = 64
};

static int requests_to, answers_from;
static char answers[ANSWER_BYTES];
static size_t answers_begin, answers_end;
static char requests[REQUEST_BYTES];
static size_t requests_used;
static unsigned owed;
static uint64_t asked, memory_size;
static bool is_asserted;
static struct {
    uint32_t size;
    uint8_t bytes[FRAME_BYTES];
} sent[SENT_ROOM];
static unsigned sent_first, sent_count;

static void flush_requests(void)
{
    size_t done = 0;

    while (done < requests_used) {
        ssize_t count = write(requests_to, requests + done, requests_used - done);

        if (count <= 0)
            fail("a request to `nicbench serve`: %s", strerror(errno));
        done += count;
    }
    requests_used = 0;
}

static void read_more(void)
{
    ssize_t count;

    memmove(answers, answers + answers_begin, answers_end - answers_begin);
    answers_end -= answers_begin;
    answers_begin = 0;
    if (answers_end == sizeof answers)
        fail("an answer of `nicbench serve` is too long");
    count = read(answers_from, answers + answers_end, sizeof answers - answers_end);
    if (count <= 0)
        fail("`nicbench serve` has ended");
    answers_end += count;
}

/* The next line from the server, without its LF. It is valid until the next call. */
static char *next_line(void)
{
    char *end, *line;

    while ((end = memchr(answers + answers_begin, '\n', answers_end - answers_begin)) == NULL)
        read_more();
    line = answers + answers_begin;
    *end = 0;
    answers_begin = end + 1 - answers;
    return line;
}

static int digit_of(char letter)
{
    return letter <= '9' ? letter - '0' : (letter | 32) - 'a' + 10;
}

/* Converts pairs of hexadecimal digits to bytes, at most `room` bytes, and stores them in `into`. Returns the number of
 * bytes. */
static uint32_t bytes_of(const char *digits, uint8_t *into, uint32_t room)
{
    uint32_t size = 0;

    for (; size < room && digits[0] > ' ' && digits[1] > ' '; digits += 2)
        into[size++] = digit_of(digits[0]) << 4 | digit_of(digits[1]);
    return size;
}

static void keep_sent(const char *digits)
{
    unsigned place = (sent_first + sent_count) % SENT_ROOM;

    if (sent_count == SENT_ROOM)
        fail("more frames were sent than the wire has room for");
    sent[place].size = bytes_of(digits, sent[place].bytes, FRAME_BYTES);
    sent_count++;
}

/* Reads lines up to an answer, and notes their events. Returns the answer's text after `OK`, or the whole line of an
 * error. */
static char *next_answer(void)
{
    for (;;) {
        char *line = next_line();

        if (strncmp(line, "OK", 2) == 0)
            return line[2] ? line + 3 : line + 2;
        if (strncmp(line, "IRQ ", 4) == 0)
            is_asserted = strncmp(line + 4, "raise", 5) == 0;
        else if (strncmp(line, "frame ", 6) == 0)
            keep_sent(line + 6);
        else if (strncmp(line, "ERR", 3) == 0 || strncmp(line, "FAIL", 4) == 0)
            return line;
    }
}

static void expect_ok(const char *answer)
{
    if (strncmp(answer, "ERR", 3) == 0 || strncmp(answer, "FAIL", 4) == 0)
        fail("`nicbench serve` answers %s", answer);
}

static void collect(void)
{
    flush_requests();
    for (; owed > 0; owed--)
        expect_ok(next_answer());
}

/* Adds a request whose answer is read later. The digits of `bytes` follow the text. */
static void post(const char *text, const uint8_t *bytes, uint32_t size)
{
    static const char digits[] = "0123456789abcdef";

    if (owed == MOST_OWED || requests_used + strlen(text) + 2 * size + 2 > sizeof requests)
        collect();
    requests_used += sprintf(requests + requests_used, "%s", text);
    for (uint32_t at = 0; at < size; at++) {
        requests[requests_used++] = digits[bytes[at] >> 4];
        requests[requests_used++] = digits[bytes[at] & 15];
    }
    requests[requests_used++] = '\n';
    owed++;
    asked++;
}

/* Sends a request, and returns the text of its answer after `OK`. Ends the program if the answer is an error. */
static char *ask(const char *text, const uint8_t *bytes, uint32_t size)
{
    char *answer;

    post(text, bytes, size);
    flush_requests();
    for (; owed > 1; owed--)
        expect_ok(next_answer());
    owed = 0;
    answer = next_answer();
    expect_ok(answer);
    return answer;
}

static unsigned number_of(const char *word, const char *const *names, unsigned count)
{
    for (unsigned number = 0; number < count; number++)
        if (strcmp(word, names[number]) == 0)
            return number;
    fail("`nicbench serve` answers %s", word);
}

static void run_server(const char *program, uint64_t memory, int input, int output)
{
    char size[32];

    snprintf(size, sizeof size, "%llu", (unsigned long long)memory);
    prctl(PR_SET_PDEATHSIG, SIGTERM);
    dup2(input, 0);
    dup2(output, 1);
    execl(program, program, "serve", "--memory", size, "--registers", "0xFEB00000", (char *)NULL);
    _exit(127);
}

void adapter_start(const char *program, uint64_t memory)
{
    int to[2], from[2];

    if (pipe2(to, 0) || pipe2(from, 0))
        fail("a pipe: %s", strerror(errno));
    if (fork() == 0) {
        close(to[1]);
        close(from[0]);
        run_server(program, memory, to[0], from[1]);
    }
    close(to[0]);
    close(from[1]);
    requests_to = to[1];
    answers_from = from[0];
    memory_size = memory;
    /* A server without this request reports each event anyway. */
    post("events on", NULL, 0);
    flush_requests();
    next_answer();
    owed = 0;
}

uint32_t adapter_read(uint32_t offset)
{
    char text[64];

    snprintf(text, sizeof text, "readl 0x%llx", FIRST_REGISTER + offset);
    return (uint32_t)strtoull(ask(text, NULL, 0), NULL, 0);
}

void adapter_write(uint32_t offset, uint32_t value)
{
    char text[64];

    snprintf(text, sizeof text, "writel 0x%llx 0x%x", FIRST_REGISTER + offset, (unsigned)value);
    post(text, NULL, 0);
}

bool adapter_holds(uint64_t address, uint64_t size)
{
    return address <= memory_size && size <= memory_size - address;
}

void adapter_load(uint64_t address, void *into, uint32_t size)
{
    char text[64];

    snprintf(text, sizeof text, "read 0x%llx %u", (unsigned long long)address, (unsigned)size);
    if (bytes_of(ask(text, NULL, 0) + 2, into, size) != size)
        fail("`nicbench serve` answers a read with too few bytes");
}

void adapter_store(uint64_t address, const void *bytes, uint32_t size)
{
    char text[64];

    snprintf(text, sizeof text, "write 0x%llx %u 0x", (unsigned long long)address, (unsigned)size);
    post(text, bytes, size);
}

enum outcome adapter_step(enum kind kind)
{
    char text[64];

    snprintf(text, sizeof text, "step %s", kind_names[kind]);
    return number_of(ask(text, NULL, 0), outcome_names, OUTCOMES);
}

enum fate adapter_arrive(const uint8_t *frame, uint32_t size)
{
    return number_of(ask("arrive ", frame, size), fate_names, FATES);
}

uint32_t adapter_take_sent(uint8_t *into)
{
    uint32_t size;

    if (sent_count == 0)
        return 0;
    size = sent[sent_first].size;
    memcpy(into, sent[sent_first].bytes, size);
    sent_first = (sent_first + 1) % SENT_ROOM;
    sent_count--;
    return size;
}

bool adapter_line(void)
{
    collect();
    return is_asserted;
}

uint64_t adapter_requests(void)
{
    return asked;
}
