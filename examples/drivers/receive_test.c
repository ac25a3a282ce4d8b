/* Tests a driver that receives frames, as a command of tools/races. Replace the part "The driver" by your driver.
 *
 * usage: receive_test right|wrong
 *
 * Requests go to standard output, and answers come from standard input. The exit status is 0 if each frame is received
 * once, in order and unchanged. Otherwise it is 1, and the fault is on standard error. `wrong` selects a driver
 * with a race.
 */
#include <stdarg.h>
#include <stdbool.h>
#include <stdio.h>
#include <stdlib.h>
#include <string.h>

#define FAIL(...) (fprintf(stderr, __VA_ARGS__), exit(1))

static bool line_is_up; /* the interrupt line */

/* Sends a request, and returns its answer without OK. Skips lines such as `frame HEX`. */
static const char *ask(const char *format, ...)
{
    static char line[131300];
    va_list words;

    va_start(words, format);
    vprintf(format, words);
    va_end(words);
    fflush(stdout);
    while (fgets(line, sizeof line, stdin)) {
        if (strncmp(line, "OK", 2) == 0)
            return line + 2;
        if (strncmp(line, "IRQ", 3) == 0)
            line_is_up = strcmp(line, "IRQ raise 0\n") == 0;
        if (strncmp(line, "ERR", 3) == 0 || strncmp(line, "FAIL", 4) == 0)
            FAIL("the server answers %s", line);
    }
    FAIL("the server has ended\n");
}

/* Ends a request with these bytes. */
static const char *ask_hex(const unsigned char *data, size_t size)
{
    while (size--)
        printf("%02x", *data++);
    return ask("\n");
}

static unsigned read_register(unsigned offset)
{
    return strtoul(ask("readl 0x%x\n", 0xFEB00000 + offset), 0, 16);
}

static void write_register(unsigned offset, unsigned value)
{
    ask("writel 0x%x 0x%x\n", 0xFEB00000 + offset, value);
}

static void read_memory(unsigned address, unsigned char *data, size_t size)
{
    const char *digits = ask("read 0x%x %zu\n", address, size) + 3;

    for (; size--; digits += 2)
        *data++ = strtoul((char[]){ digits[0], digits[1], 0 }, 0, 16);
}

static void write_memory(unsigned address, const unsigned char *data, size_t size)
{
    printf("write 0x%x %zu 0x", address, size);
    ask_hex(data, size);
}

static void deliver(const unsigned char *frame, size_t length);

/* The driver. It makes its accesses by the last four functions above, and passes each received frame to `deliver`. */

enum { CTRL = 0x0000, ICR = 0x00C0, IMS = 0x00D0, RCTL = 0x0100, RDBAL = 0x2800, RDLEN = 0x2808, RDT = 0x2818 };
enum { SLOTS = 8, RING = 0x1000, BUFFERS = 0x10000, BUFFER_SIZE = 2048 };
static unsigned next; /* the slot of the next frame */

/* Stores the descriptor of a slot that waits for a frame. */
static void store_descriptor(unsigned slot)
{
    unsigned buffer = BUFFERS + BUFFER_SIZE * slot;

    write_memory(RING + 16 * slot, (unsigned char[16]){ buffer, buffer >> 8, buffer >> 16, buffer >> 24 }, 16);
}

static void bring_up(void)
{
    for (unsigned slot = 0; slot < SLOTS; slot++)
        store_descriptor(slot);
    write_register(CTRL, 1 << 26); /* reset */
    write_register(RDBAL, RING);
    write_register(RDLEN, 16 * SLOTS);
    write_register(RDT, SLOTS - 1);
    write_register(RCTL, 0x04008002); /* receive, also broadcasts; without the CRC */
    write_register(IMS, 0x80); /* RXT0 */
}

/* Delivers all finished frames, and offers their slots again. */
static void take_frames(void)
{
    unsigned char end[5], frame[BUFFER_SIZE]; /* end: length, checksum and status of a descriptor */

    while (read_memory(RING + 16 * next + 8, end, 5), end[4] & 1) {
        size_t length = end[0] | end[1] << 8;

        read_memory(BUFFERS + BUFFER_SIZE * next, frame, length);
        deliver(frame, length);
        store_descriptor(next);
        write_register(RDT, next);
        next = (next + 1) % SLOTS;
    }
}

/* Handles an interrupt. In the wrong order, the read of ICR may clear the cause of a frame that isn't taken. */
static void interrupt(bool is_right)
{
    if (is_right)
        read_register(ICR);
    take_frames();
    if (!is_right)
        read_register(ICR);
}

/* The test */

static unsigned arrived, received; /* numbers of frames */

/* Makes a frame of 60 to 360 bytes to the adapter's address, and returns its length. */
static size_t make_frame(unsigned number, unsigned char frame[360])
{
    memset(frame, number, 360);
    memcpy(frame, "\2\0\0\0\0\1\2\0\0\0\0\11\x88\xb5", 14);
    return 60 + 100 * (number % 4);
}

/* Lets the next frame arrive, which the adapter must store in its packet buffer. */
static void arrive(void)
{
    unsigned char frame[360];
    size_t length = make_frame(arrived, frame);

    printf("arrive ");
    if (strcmp(ask_hex(frame, length), " stored\n") != 0)
        FAIL("frame %u wasn't stored\n", arrived);
    arrived++;
}

static void deliver(const unsigned char *frame, size_t length)
{
    unsigned char wanted[360];

    if (length != make_frame(received, wanted) || memcmp(frame, wanted, length) != 0)
        FAIL("other bytes were received instead of frame %u\n", received);
    received++;
}

/* In each round, the handler is called when one frame is finished and another one is waiting. */
int main(int argc, char **argv)
{
    bool is_right = argc == 2 && strcmp(argv[1], "right") == 0;

    if (argc != 2 || (!is_right && strcmp(argv[1], "wrong") != 0))
        FAIL("usage: receive_test right|wrong\n");
    bring_up();
    for (unsigned round = 0; round < 6; round++) {
        arrive();
        ask("settle\n");
        arrive();
        while (line_is_up)
            interrupt(is_right);
        ask("settle\n");
        while (line_is_up)
            interrupt(is_right);
        if (received < arrived)
            FAIL("frame %u was never received\n", received);
    }
}
