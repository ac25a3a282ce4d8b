#include "trace.h"

#include <errno.h>
#include <inttypes.h>
#include <stdlib.h>
#include <string.h>

#include "../shared/rounds.h"
#include "frame_check.h"
#include "report.h"
#include "rings.h"

enum { WORDS = 4, FLUSH = 1 << 16, TEXT = 120, MARK = 16, UDP_PORT = 36, DATA = 42 };

/* What was recorded. The meaning of the words is in `print_event`. */
struct event {
    enum event_kind {
        READ,
        WRITE,
        LOAD,
        STORE,
        POKE,
        STEP,
        ARRIVAL,
        SENT,
        LINE,
        LOST,
        VERDICT,
        ROUND,
        RX_RING,
        TX_RING
    } kind;
    uint32_t drawn;
    uint64_t words[WORDS];
};

static struct event *events;
static size_t used, room;
static FILE *all;
static bool in_round;
static uint32_t drawn;
static char settings[TEXT];
/* The rings as they were recorded last */
static struct ring receive_before, transmit_before;

static void record(enum event_kind kind, uint64_t first, uint64_t second, uint64_t third, uint64_t fourth)
{
    if (!in_round && all == NULL)
        return;
    if (used == room) {
        room = room ? 2 * room : FLUSH;
        events = realloc(events, room * sizeof *events);
        if (events == NULL)
            fail("out of memory");
    }
    events[used++] = (struct event){ kind, drawn, { first, second, third, fourth } };
}

static void print_access(FILE *file, const struct event *event)
{
    static const char *const names[] = { "read", "write", "load", "store" };
    const uint64_t *word = event->words;

    fprintf(file, "%s %" PRIx64, names[event->kind], word[0]);
    if (event->kind == READ || event->kind == WRITE)
        fprintf(file, " %08" PRIx64 "\n", word[1]);
    else
        fprintf(file, " %" PRIx64 " %" PRIu64 " %" PRIx64 "\n", word[1], word[2], word[3]);
}

static void print_event(FILE *file, const struct event *event)
{
    const uint64_t *word = event->words;
    char mark[MARK] = "";

    if (event->drawn)
        snprintf(mark, sizeof mark, " *%" PRIu32, event->drawn);
    switch (event->kind) {
    case POKE:
        fputs("poke\n", file);
        break;
    case STEP:
        fprintf(file, "step %s %s %" PRIu64 "%s\n", kind_names[word[0]], outcome_names[word[1]], word[2], mark);
        break;
    case ARRIVAL:
        fprintf(file, "arrive %s %" PRIu64 " %" PRIu64, fate_names[word[0]], word[1], word[2]);
        fprintf(file, " %08" PRIx64 "%s\n", word[3], mark);
        break;
    case SENT:
        fprintf(file, "sent %" PRIu64 " %" PRIu64 " %08" PRIx64 "%s\n", word[0], word[1], word[2],
                word[3] ? "" : " wrong");
        break;
    case LINE:
        fprintf(file, "line %" PRIu64 "\n", word[0]);
        break;
    case VERDICT:
        fprintf(file, "verdict %" PRIu64 "\n", word[0]);
        break;
    case LOST:
        fprintf(file, "lost %" PRIu64 "\n", word[0]);
        break;
    case ROUND:
        fprintf(file, "round %" PRIu64 " %s\n", word[0], settings);
        break;
    case RX_RING:
    case TX_RING:
        fprintf(file, "ring %s %" PRIx64, event->kind == RX_RING ? "rx" : "tx", word[0]);
        fprintf(file, " %" PRIu64 " %" PRIu64 " %" PRIu64 "\n", word[1], word[2], word[3]);
        break;
    default:
        print_access(file, event);
    }
}

static void print_events(FILE *file)
{
    for (size_t number = 0; number < used; number++)
        print_event(file, &events[number]);
}

static void flush(void)
{
    if (all != NULL)
        print_events(all);
    used = 0;
}

void trace_to(FILE *file)
{
    all = file;
}

static void record_ring(enum event_kind kind, const struct ring *ring, struct ring *before)
{
    *before = *ring;
    record(kind, ring->base, ring->bytes, ring->head, ring->tail);
}

static bool differs(const struct ring *one, const struct ring *other)
{
    return one->base != other->base || one->bytes != other->bytes || one->head != other->head ||
           one->tail != other->tail;
}

/* Records the rings that have changed, after the step or the access that changed them. */
static void record_changes(void)
{
    if (differs(&receive_ring, &receive_before))
        record_ring(RX_RING, &receive_ring, &receive_before);
    if (differs(&transmit_ring, &transmit_before))
        record_ring(TX_RING, &transmit_ring, &transmit_before);
}

void trace_begin(uint32_t round, const char *text)
{
    flush();
    snprintf(settings, sizeof settings, "%s", text);
    in_round = true;
    record(ROUND, round, 0, 0, 0);
    record_ring(RX_RING, &receive_ring, &receive_before);
    record_ring(TX_RING, &transmit_ring, &transmit_before);
}

void trace_write(const char *path)
{
    FILE *file = fopen(path, "w");

    if (file == NULL)
        fail("%s: %s", path, strerror(errno));
    print_events(file);
    if (fclose(file))
        fail("%s: %s", path, strerror(errno));
}

void trace_drawn(uint32_t number)
{
    drawn = number;
}

void trace_register(bool is_write, uint32_t offset, uint32_t value)
{
    record(is_write ? WRITE : READ, offset, value, 0, 0);
    record_changes();
}

void trace_memory(const struct access_record *access)
{
    record(access->is_store ? STORE : LOAD, access->instruction, access->address, access->size, access->value);
}

void trace_poke(void)
{
    record(POKE, 0, 0, 0, 0);
}

void trace_step(enum kind kind, enum outcome outcome, uint32_t slot)
{
    record(STEP, kind, outcome, slot, 0);
    record_changes();
}

void trace_arrival(enum fate fate, uint32_t number, const uint8_t *frame, uint32_t size)
{
    record(ARRIVAL, fate, number, size, frame_check(frame, size));
}

/* The number of a round's request, counted from 1; 0 for other frames. */
static uint32_t request_in(const uint8_t *frame, uint32_t size)
{
    struct round_header header;

    if (size < DATA + sizeof header || frame[UDP_PORT] != 0 || frame[UDP_PORT + 1] != ROUND_PORT)
        return 0;
    memcpy(&header, frame + DATA, sizeof header);
    return header.number - FIRST_REQUEST + 1;
}

void trace_sent(const uint8_t *frame, uint32_t size, bool is_right)
{
    record(SENT, request_in(frame, size), size, frame_check(frame, size), is_right);
}

void trace_line(bool level)
{
    record(LINE, level, 0, 0, 0);
}

void trace_lost(uint32_t number)
{
    record(LOST, number + 1, 0, 0, 0);
}

void trace_verdict(uint32_t verdict)
{
    record(VERDICT, verdict, 0, 0, 0);
    in_round = false;
}

void trace_end(void)
{
    flush();
}
