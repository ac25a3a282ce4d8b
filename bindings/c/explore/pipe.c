/* The calls of the test as requests of `nicbench serve`: so the test is a COMMAND of tools/races. */
#include "inside.h"
#include <stdarg.h>
#include <stdio.h>
#include <stdlib.h>
#include <string.h>

#define S xi_state

enum { REGISTERS = 0xFEB00000 };
bool xi_is_piped;
static bool is_raised;
static char line[1 << 18];

static unsigned digit(char c)
{
    return (unsigned)(c <= '9' ? c - '0' : (c | 32) - 'a' + 10);
}

static size_t bytes_of(const char *hex, uint8_t *into, size_t room)
{
    size_t count = 0;

    for (; hex[0] > ' ' && hex[1] > ' ' && count < room; hex += 2)
        into[count++] = (uint8_t)(digit(hex[0]) << 4 | digit(hex[1]));
    return count;
}

static void keep(struct frames *frames, const char *hex, uint32_t fate)
{
    uint32_t at = frames->begin[frames->count];

    if (frames->count == MOST_FRAMES || MOST_BYTES - at < LONGEST)
        xi_die("a run has too many frames");
    frames->fate[frames->count++] = (uint8_t)fate;
    frames->begin[frames->count] = at + (uint32_t)bytes_of(hex, frames->bytes + at, LONGEST);
}

static uint32_t word_of(const char *text, const char *const *names, size_t count)
{
    for (size_t n = 0; n < count; n++)
        if (!strncmp(text, names[n], strlen(names[n])))
            return (uint32_t)n;
    return NIC_REFUSED;
}

static uint32_t fate_of(const char *text)
{
    return word_of(text, xi_fates, 5);
}

static void hear(void)
{
    if (!strncmp(line, "IRQ", 3))
        is_raised = !strcmp(line, "IRQ raise 0\n");
    if (!strncmp(line, "frame ", 6))
        keep(&S->put, line + 6, 0);
    if (!strncmp(line, "arrived ", 8))
        keep(&S->arrived, strchr(line + 8, ' ') + 1, fate_of(line + 8));
}

/* The answer to the request that was printed, without its OK. Hears the lines before the answer. If the request is
 * refused, or the input ends, the program ends. */
static const char *answer(void)
{
    fflush(stdout);
    while (fgets(line, sizeof line, stdin)) {
        if (!strncmp(line, "OK", 2))
            return line[2] == ' ' ? line + 3 : line + 2;
        if (!strncmp(line, "ERR", 3) || !strncmp(line, "FAIL", 4)) {
            fprintf(stderr, "the server answers %s", line);
            exit(FOUND);
        }
        hear();
    }
    exit(FOUND);
}

static const char *ask(const char *format, ...)
{
    va_list words;

    va_start(words, format);
    vprintf(format, words);
    va_end(words);
    return answer();
}

/* Requests a row of the chart, if the environment has NIC_MARKS, as under tools/races. */
void xi_pipe_mark(const char *text)
{
    if (getenv("NIC_MARKS"))
        ask("mark %s\n", text);
}

static void print_hex(const void *bytes, size_t count)
{
    for (const uint8_t *at = bytes; count--; at++)
        printf("%02x", *at);
    printf("\n");
}

uint32_t xi_pipe_read(uint32_t offset)
{
    uint32_t value = (uint32_t)strtoull(ask("readl %#x\n", REGISTERS + offset), NULL, 16);

    xi_cut_in();
    return value;
}

void xi_pipe_write(uint32_t offset, uint32_t value)
{
    ask("writel %#x %#x\n", REGISTERS + offset, value);
    xi_cut_in();
}

void xi_pipe_load(uint64_t address, void *into, size_t count)
{
    bytes_of(ask("read %#llx %zu\n", (unsigned long long)address, count) + 2, into, count);
    xi_cut_in();
}

void xi_pipe_store(uint64_t address, const void *bytes, size_t count)
{
    printf("write %#llx %zu 0x", (unsigned long long)address, count);
    print_hex(bytes, count);
    answer();
    xi_cut_in();
}

static uint32_t outcome_of(const char *text)
{
    return word_of(text, xi_outcomes, 9);
}

/* Sends a request that begins a round. Returns the fate of a frame that arrives, the outcome of a step, or the number
 * of steps of `settle`. */
uint32_t xi_pipe_request(enum event event, uint32_t kind, const void *frame, size_t count)
{
    unsigned arrived = S->arrived.count;
    uint32_t result = 0;
    bool has_cut_in;

    if (event == STEP)
        result = outcome_of(ask("step %s\n", xi_actions[kind]));
    else if (event == SETTLE)
        result = (uint32_t)strtoull(ask("settle\n"), NULL, 0) + S->arrived.count - arrived;
    else {
        printf(event == ARRIVE ? "arrive " : "offer ");
        print_hex(frame, count);
        result = fate_of(answer());
    }
    if (event == ARRIVE)
        xi_add_frame(&S->arrived, frame, count, result);
    S->is_settling = event == SETTLE;
    xi_cut_in();
    has_cut_in = S->has_cut_in, S->is_settling = S->has_cut_in = false;
    return result + has_cut_in;
}

bool xi_pipe_line(void)
{
    return is_raised;
}

unsigned xi_pipe_choose(unsigned count)
{
    return (unsigned)strtoull(ask("choose %u\n", count), NULL, 0);
}

int xi_pipe(void)
{
    const char *fault;

    xi_is_piped = true;
    xi_prepare(false);
    xi_clear();
    ask("events on\n");
    fault = xi_test();
    if (fault)
        fprintf(stderr, "%s\n", fault);
    return fault ? FOUND : PASSES;
}
