#include "echo_rounds.h"

#include <inttypes.h>
#include <stdio.h>
#include <string.h>

#include "../shared/rounds.h"
#include "adapter.h"
#include "dma.h"
#include "driver_accesses.h"
#include "internet_checksum.h"
#include "report.h"
#include "responder.h"
#include "rings.h"
#include "sweep.h"
#include "wire.h"

/* Places of fields in a frame */
enum {
    TYPE = 12,
    IP = 14,
    IP_LENGTH = 16,
    IP_IDENTIFICATION = 18,
    IP_PROTOCOL = 23,
    IP_CHECKSUM = 24,
    ICMP = 34,
    ICMP_CODE = 35,
    ICMP_CHECKSUM = 36,
    ICMP_ROUND = 38, /* the identifier */
    ICMP_NUMBER = 40, /* the sequence number */
    DATA = 42
};

enum {
    TYPE_IP = 0x0800,
    ICMP_PROTOCOL = 1,
    ECHO = 8,
    REPLY = 0,
    MOST_REQUESTS = 64,
    PROBE_EVERY = 200, /* points from one request of a probe to the next */
    DRAWN_LEAST = 5,   /* points of the drawn part, at least; a number below DRAWN_FEW or DRAWN_MANY is added */
    DRAWN_FEW = 20,
    DRAWN_MANY = 200,
    PATIENCE = 5000, /* points that a round waits for its replies, at most */
    AFTER_LAST = 40, /* points from the end of this wait to the verdict */
    BETWEEN = 30,    /* points between two rounds, at most */
    GAP = 20, /* accesses of rings from one point to the next, if steps aren't drawn */
    REPORT_EVERY = 100
};

/* A request is sent again and again until the host answers, and then rounds begin. */
static enum state { UNUSED, PROBING, BETWEEN_ROUNDS, DRAWN, SETTLING, AFTERWARDS, OVER } state;

static struct echo_options options;
static bool was_reset;

/* The round: its number and its requests, what came, and what was counted before it. */
static struct {
    uint32_t number, drawn, requests, countdown, waited, wrong, came[MOST_REQUESTS];
    uint64_t counted_before;
    bool is_cut; /* by a reset */
} current;

static struct {
    uint32_t rounds, failed, cut;
    uint64_t requests, right, lost, twice, wrong, missed, late;
} totals;

static uint32_t draw(uint32_t below)
{
    return mixed(options.seed * 7919 + current.number, current.drawn++) % below;
}

static void put16(uint8_t *bytes, uint32_t value)
{
    bytes[0] = (uint8_t)(value >> 8);
    bytes[1] = (uint8_t)value;
}

static uint32_t get16(const uint8_t *bytes)
{
    return (uint32_t)bytes[0] << 8 | bytes[1];
}

/* The number of frames that the adapter missed, that arrived while its receiver was off, or that the wire dropped. */
static uint64_t counted(void)
{
    return dma_counts.fates[MISSED] + dma_counts.fates[OFF] + wire_counts.dropped;
}

static void send_request(uint32_t round, uint32_t number)
{
    static const uint8_t head[] = { 2,    0, 0, 0, 0, 1, 2,  0, 0, 0, 0,  2, 8, 0, /* Ethernet */
                                    0x45, 0, 0, 0, 0, 0, 0,  0, /* IP */
                                    64,   1, 0, 0, 10, 0, 0, 2, 10, 0, 0, 1, ECHO };
    uint32_t data = data_size(round, number), size = DATA + data;
    uint8_t frame[FRAME_BYTES] = { 0 };

    memcpy(frame, head, sizeof head);
    put16(frame + IP_LENGTH, size - IP);
    put16(frame + IP_IDENTIFICATION, number + 1);
    put16(frame + IP_CHECKSUM, internet_checksum(frame + IP, ICMP - IP, 0));
    put16(frame + ICMP_ROUND, round);
    put16(frame + ICMP_NUMBER, number);
    for (uint32_t place = 0; place < data; place++)
        frame[DATA + place] = data_byte(round, number, place);
    put16(frame + ICMP_CHECKSUM, internet_checksum(frame + ICMP, size - ICMP, 0));
    wire_receive(frame, size, number + 1);
}

/* Whether a reply has the length and the data of its request, code 0, and right checksums. */
static bool is_right(const uint8_t *frame, uint32_t size)
{
    uint32_t round = get16(frame + ICMP_ROUND), number = get16(frame + ICMP_NUMBER), data = data_size(round, number);
    bool right = size >= DATA + data && get16(frame + IP_LENGTH) == DATA - IP + data && frame[ICMP_CODE] == 0;

    right = right && internet_checksum(frame + IP, ICMP - IP, 0) == 0 &&
            internet_checksum(frame + ICMP, DATA - ICMP + data, 0) == 0;
    for (uint32_t place = 0; right && place < data; place++)
        right = frame[DATA + place] == data_byte(round, number, place);
    return right;
}

static bool note_reply(const uint8_t *frame, uint32_t size)
{
    uint32_t round = get16(frame + ICMP_ROUND), number = get16(frame + ICMP_NUMBER);
    bool right = is_right(frame, size), in_round = state == DRAWN || state == SETTLING || state == AFTERWARDS;

    if (!right)
        current.wrong++;
    else if (round == 0 && state == PROBING) {
        state = BETWEEN_ROUNDS;
        current.countdown = BETWEEN;
    } else if (in_round && round == (current.number & 0xFFFF) && number < current.requests)
        current.came[number]++;
    else
        totals.late++;
    return right;
}

bool echo_answer(const uint8_t *frame, uint32_t size)
{
    if (size >= DATA && get16(frame + TYPE) == TYPE_IP && frame[IP_PROTOCOL] == ICMP_PROTOCOL && frame[ICMP] == REPLY)
        return note_reply(frame, size);
    responder_answer(frame, size);
    return true; /* the host may send other frames */
}

void echo_start(const struct echo_options *given)
{
    options = *given;
    if (options.most < 1 || options.most > MOST_REQUESTS || options.first < 1)
        fail("a round has from 1 to %d requests, and rounds are counted from 1", MOST_REQUESTS);
    current.number = options.first - 1;
    current.countdown = 1;
    state = PROBING;
}

static uint32_t missing(void)
{
    uint32_t count = 0;

    for (uint32_t number = 0; number < current.requests; number++)
        count += current.came[number] == 0;
    return count;
}

static uint32_t excused(void)
{
    return (uint32_t)(counted() - current.counted_before);
}

static void begin(void)
{
    current.number++;
    current.drawn = 0;
    memset(current.came, 0, sizeof current.came);
    current.requests = 1 + draw(options.most);
    current.wrong = current.waited = 0;
    current.is_cut = false;
    current.counted_before = counted();
    sweep_write(BOARD_REGISTERS + BOARD_ROUND, current.number);
    for (uint32_t number = 0; number < current.requests; number++)
        send_request(current.number, number);
    totals.requests += current.requests;
    current.countdown = DRAWN_LEAST + draw(draw(2) ? DRAWN_FEW : DRAWN_MANY);
    state = DRAWN;
}

/* Ends the drawn part of the round: what is left is played at once. */
static void settle(void)
{
    sweep_write(BOARD_REGISTERS + BOARD_ROUND, 0);
    state = SETTLING;
}

/* Counts the replies of the round. Returns what was wrong, by the bits VERDICT_... */
static uint32_t verdict(void)
{
    uint32_t gone = missing(), found = current.wrong ? VERDICT_BYTES : 0;

    for (uint32_t number = 0; number < current.requests; number++) {
        totals.right += current.came[number] > 0;
        totals.twice += current.came[number] > 1;
        if (current.came[number] > 1)
            found |= VERDICT_TWICE;
        if (current.came[number] == 0 && gone > excused())
            sweep_write(BOARD_REGISTERS + BOARD_LOST, number);
    }
    totals.wrong += current.wrong;
    totals.missed += gone < excused() ? gone : excused();
    if (gone > excused() && !current.is_cut) {
        totals.lost += gone - excused();
        found |= VERDICT_LOST;
    }
    return found | (dma_stopped() ? VERDICT_FAULT : 0);
}

static void report_failed(uint32_t found)
{
    printf("\n> fails: round %u: %s%s%s%s%u requests, %u replies missing, %u missed and counted, %u wrong\n",
           current.number, found & VERDICT_LOST ? "replies were lost; " : "",
           found & VERDICT_BYTES ? "replies had wrong bytes; " : "",
           found & VERDICT_TWICE ? "replies came twice; " : "", found & VERDICT_FAULT ? "an engine stopped; " : "",
           current.requests, missing(), excused(), current.wrong);
    fflush(stdout);
}

static void judge(void)
{
    uint32_t found = verdict();

    if (found)
        report_failed(found);
    sweep_write(BOARD_REGISTERS + BOARD_VERDICT, found);
    totals.rounds++;
    totals.failed += found != 0;
    totals.cut += current.is_cut;
    if (totals.rounds % REPORT_EVERY == 0) {
        printf("\n> progress round %u, %u failed\n", current.number, totals.failed);
        fflush(stdout);
    }
    state = current.is_cut ? PROBING : BETWEEN_ROUNDS;
    current.countdown = 1 + draw(BETWEEN);
    if (current.number >= options.last || totals.failed >= options.stop)
        state = OVER;
    else
        accesses_begin();
}

/* Ends a round because of a reset: what was in the adapter is lost. */
static void cut(void)
{
    current.is_cut = true;
    if (state == DRAWN)
        settle();
    judge();
}

static void probe(void)
{
    if (--current.countdown > 0)
        return;
    if (receive_ring.enabled && wire_waiting() == 0)
        send_request(0, 0);
    current.countdown = PROBE_EVERY;
}

/* Does what is due at a point in the present state. */
static void advance(void)
{
    if (state == PROBING)
        probe();
    else if (state == BETWEEN_ROUNDS && --current.countdown == 0)
        begin();
    else if (state == DRAWN && --current.countdown == 0)
        settle();
    else if (state == SETTLING && (missing() <= excused() || ++current.waited > PATIENCE)) {
        state = AFTERWARDS;
        current.countdown = AFTER_LAST;
    } else if (state == AFTERWARDS && --current.countdown == 0)
        judge();
}

void echo_point(enum echo_point point)
{
    bool in_round = state == DRAWN || state == SETTLING || state == AFTERWARDS;

    if (state == UNUSED || state == OVER)
        return;
    if (was_reset && in_round)
        cut();
    else
        advance();
    was_reset = false;
    if (point == AT_ECHO_REGISTER)
        accesses_watch();
    if (state != DRAWN || !sweep_draws())
        accesses_ask_after(GAP);
}

void echo_reset(void)
{
    was_reset = true;
}

bool echo_is_over(void)
{
    return state == OVER;
}

void echo_end(void)
{
    if (state == UNUSED)
        return;
    printf("\n> rounds %u played, %u failed; %" PRIu64 " requests, %" PRIu64 " right, %" PRIu64 " missed, %" PRIu64
           " lost, %" PRIu64 " twice, %" PRIu64 " wrong, %" PRIu64
           " of earlier rounds; %u rounds were cut by a reset\n> end\n",
           totals.rounds, totals.failed, totals.requests, totals.right, totals.missed, totals.lost, totals.twice,
           totals.wrong, totals.late, totals.cut);
    fflush(stdout);
}
