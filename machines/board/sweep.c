#include "sweep.h"

#include <errno.h>
#include <inttypes.h>
#include <limits.h>
#include <stdio.h>
#include <string.h>

#include "../shared/rounds.h"
#include "dma.h"
#include "driver_accesses.h"
#include "reached.h"
#include "report.h"
#include "steps.h"
#include "trace.h"
#include "wire.h"

enum { SETTLE_ROUNDS = 4096, SETTINGS_TEXT = 120 };

static bool draws, in_round, is_judged = true, has_failed;
static uint32_t seed, round_number;
static uint64_t generator;
static const char *folder;

/* The round in which only some drawn actions are played, and whether each is, by its number. `round` is 0 if all are
 * played. */
static struct {
    uint32_t round;
    bool is_played[1 << 16];
} only;

/* What a round draws first: the weight of each action, and the sum of the weights; the most actions at a point; and the
 * most accesses of rings from one point to the next. At accesses of registers and in calls of the test program, actions
 * are drawn with a chance of 1 in `often`. */
static struct {
    uint32_t weights[ACTIONS], sum, most, often, gap;
} settings;

/* The counts when the round began. */
static struct {
    uint64_t missed, excused, wrong;
} begun;

/* The number of the round's actions that were drawn so far. */
static uint32_t drawn_number;

static struct {
    uint64_t rounds, points[3], drawn, played;
} counts;

void sweep_start(uint32_t number, const char *path, bool drawn)
{
    draws = drawn;
    seed = number;
    folder = path;
}

void sweep_only(uint32_t round, const char *path)
{
    FILE *file = fopen(path, "r");
    uint32_t number;

    if (file == NULL)
        fail("%s: %s", path, strerror(errno));
    only.round = round;
    while (fscanf(file, "%" SCNu32, &number) == 1)
        if (number < sizeof only.is_played)
            only.is_played[number] = true;
    fclose(file);
}

bool sweep_draws(void)
{
    return draws;
}

static uint32_t draw(uint32_t below)
{
    uint64_t word;

    generator += 0x9E3779B97F4A7C15ull;
    word = (generator ^ generator >> 30) * 0xBF58476D1CE4E5B9ull;
    word = (word ^ word >> 27) * 0x94D049BB133111EBull;
    return (uint32_t)((word ^ word >> 31) >> 32) % below;
}

static void draw_settings(void)
{
    static const uint8_t weights[] = { 0, 1, 1, 2, 4, 8 }, most[] = { 1, 2, 4, 12, 120 }, gaps[] = { 1, 2, 5, 20 };

    settings.sum = 0;
    for (int action = 0; action < ACTIONS; action++)
        settings.sum += settings.weights[action] = weights[draw(sizeof weights)];
    if (settings.sum == 0)
        settings.sum = settings.weights[draw(ACTIONS)] = 1;
    settings.most = most[draw(sizeof most)];
    settings.often = 1 + draw(4);
    settings.gap = gaps[draw(sizeof gaps)];
}

/* The number of frames lost without a miss: they arrived while the receiver was off, or the wire dropped them. */
static uint64_t excused(void)
{
    return dma_counts.fates[OFF] + wire_counts.dropped;
}

static void begin_round(uint32_t number)
{
    const uint32_t *weight = settings.weights;
    char text[SETTINGS_TEXT];

    round_number = number;
    in_round = true;
    is_judged = false;
    begun.missed = dma_counts.fates[MISSED];
    begun.excused = excused();
    begun.wrong = wire_counts.wrong;
    counts.rounds++;
    drawn_number = 0;
    generator = ((uint64_t)seed << 32) + number;
    draw_settings();
    snprintf(text, sizeof text, "seed %u weights %u %u %u %u %u most %u often %u gap %u", seed, weight[0], weight[1],
             weight[2], weight[3], weight[4], settings.most, settings.often, settings.gap);
    trace_begin(number, text);
    reached_begin();
    accesses_begin();
    accesses_ask_after(1 + draw(settings.gap));
}

/* Ends the drawn part of a round: what is left is played at once. */
static void end_round(void)
{
    in_round = false;
    accesses_collect();
    accesses_ask_after(0);
    steps_settle(SETTLE_ROUNDS);
}

/* Whether the action that was drawn last is played. */
static bool is_played(void)
{
    return round_number != only.round || (drawn_number < sizeof only.is_played && only.is_played[drawn_number]);
}

static enum action drawn_action(void)
{
    uint32_t number = draw(settings.sum);
    int action = 0;

    for (; number >= settings.weights[action]; action++)
        number -= settings.weights[action];
    return (enum action)action;
}

static void play_drawn(void)
{
    for (uint32_t left = 1 + draw(settings.most); left > 0; left--) {
        enum action action = drawn_action();
        bool did;

        trace_drawn(++drawn_number);
        did = is_played() && steps_play(action);
        counts.drawn++;
        counts.played += did;
        if (did)
            reached_step();
    }
    trace_drawn(0);
}

void sweep_point(enum point point)
{
    if (!draws)
        return;
    accesses_collect();
    if (!in_round) {
        steps_settle(SETTLE_ROUNDS);
        return;
    }
    counts.points[point]++;
    if (point == AT_MEMORY || draw(settings.often) == 0)
        play_drawn();
    if (point == AT_MEMORY)
        accesses_ask_after(1 + draw(settings.gap));
}

static uint32_t poke(void)
{
    if (in_round)
        trace_poke();
    sweep_point(AT_POKE);
    return wire_waiting();
}

static uint32_t missed(void)
{
    return (uint32_t)(dma_counts.fates[MISSED] - begun.missed + excused() - begun.excused);
}

uint32_t sweep_read(uint32_t offset)
{
    switch (offset - BOARD_REGISTERS) {
    case BOARD_ROUND:
        return seed;
    case BOARD_POKE:
        return poke();
    case BOARD_MISSED:
        return missed();
    case BOARD_WRONG:
        return (uint32_t)(wire_counts.wrong - begun.wrong);
    case BOARD_STOPPED:
        return dma_stopped();
    case BOARD_DRAWS:
        return draws;
    default:
        return 0;
    }
}

/* Keeps the trace of the first round that fails. */
static void keep_trace(void)
{
    char path[PATH_MAX];

    if (has_failed || folder == NULL)
        return;
    has_failed = true;
    snprintf(path, sizeof path, "%s/failed.trace", folder);
    trace_write(path);
}

/* Takes the test program's verdict on a round. */
static void judge(uint32_t verdict)
{
    is_judged = true;
    accesses_end();
    trace_verdict(verdict);
    if (verdict != 0)
        keep_trace();
}

void sweep_write(uint32_t offset, uint32_t value)
{
    switch (offset - BOARD_REGISTERS) {
    case BOARD_ROUND:
        if (value != 0)
            begin_round(value);
        else if (in_round)
            end_round();
        break;
    case BOARD_LOST:
        trace_lost(value);
        break;
    case BOARD_VERDICT:
        judge(value);
        break;
    }
}

void sweep_end(void)
{
    char path[PATH_MAX];
    FILE *file;

    if (!draws || folder == NULL)
        return;
    if (!is_judged) {
        report("the guest has ended in round %u", round_number);
        keep_trace();
    }
    report("%" PRIu64 " rounds; steps drawn at %" PRIu64 " register accesses, %" PRIu64
           " accesses of rings and %" PRIu64 " calls of the test program; %" PRIu64 " steps drawn, %" PRIu64
           " did something",
           counts.rounds, counts.points[AT_REGISTER], counts.points[AT_MEMORY], counts.points[AT_POKE], counts.drawn,
           counts.played);
    snprintf(path, sizeof path, "%s/reached", folder);
    file = fopen(path, "w");
    if (file == NULL)
        fail("%s: %s", path, strerror(errno));
    reached_write(file);
    if (fclose(file))
        fail("%s: %s", path, strerror(errno));
}
