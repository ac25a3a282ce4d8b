/* Plays every schedule of a test, one after the other, each from its beginning: the calls of nic82540em_explore.h over
 * the library, without saved states, digests or known states. The explorer is compared with it.
 *
 * usage: TEST WORD [WORD] --explore N|every [--holds]
 *
 * Prints the number of schedules with 0, 1, 2 .. deviations. Prints for each outcome of the test, which is the variable
 * `outcome`, or 15 if the test fails, the number of schedules that have it, and one of these with the fewest deviations.
 */
#include <nic82540em_explore.h>
#include <stdio.h>
#include <stdlib.h>
#include <string.h>

enum { MOST = 16384, OUTCOMES = 16, FRAMES = 256, LONGEST = 1518, EVERY = 1000 };
enum { TX = NIC_PHY + 1, RX, HOLD_EEPROM, HOLD_PHY, ARRIVAL, IRQ, LATE_IRQ, HOLD_STEP, ANSWER };

struct nic82540em_options x_options = NIC82540EM_DEFAULTS;
unsigned outcome;

static struct nic82540em nic;
static struct frames {
    unsigned count, taken;
    size_t size[FRAMES];
    uint32_t fate[FRAMES];
    uint8_t bytes[FRAMES][LONGEST];
} put, arrived, offers;
static void (*handler)(void);
static uint32_t stepped = NIC_REFUSED; /* the kind of the x_step that begins, if one does */
static bool is_held;
static bool is_kept_out, is_late, has_cut_in;
static char memory[1 << 20];
static size_t memory_used;

/* The choices of a run: the number that was taken, and how many there were. The last one is no deviation. */
static struct { int taken, count; } choices[MOST];
static int choice_count, given; /* choices of this run; those that it takes from the run before */
static int depth;
static bool has_holds;

/* The deviations of a run, as text without the name of the place */
static char text[MOST][40];
static int deviations;
static unsigned place_round, place_access, place_sub;

static int choose(int count)
{
    if (choice_count == MOST)
        fprintf(stderr, "enumerate: a run has too many choices\n"), exit(3);
    if (choice_count >= given)
        choices[choice_count].taken = 0;
    choices[choice_count].count = count;
    return choices[choice_count++].taken;
}

static void note(const char *action)
{
    char sub[16] = "";

    if (place_sub)
        snprintf(sub, sizeof sub, "+%u", place_sub);
    snprintf(text[deviations++], sizeof *text, "%u.%u%s %s", place_round, place_access, sub, action);
}

static bool can(uint32_t kind)
{
    return nic82540em_possible(&nic) >> kind & 1;
}

static void keep(struct frames *frames, const void *bytes, size_t size, uint32_t fate)
{
    if (frames->count == FRAMES)
        fprintf(stderr, "enumerate: too many frames\n"), exit(3);
    memcpy(frames->bytes[frames->count], bytes, size);
    frames->size[frames->count] = size, frames->fate[frames->count++] = fate;
}

static uint32_t step(uint32_t kind)
{
    uint32_t result = nic82540em_step(&nic, kind);
    uint8_t frame[LONGEST];
    size_t size;

    while (result == NIC_PUT && (size = nic82540em_take_put(&nic, frame, sizeof frame)) > 0)
        keep(&put, frame, size, 0);
    return result;
}

static uint32_t deliver(const void *frame, size_t size)
{
    uint32_t fate = nic82540em_arrive(&nic, frame, size);

    keep(&arrived, frame, size, fate);
    return fate;
}

static void deliver_next(void)
{
    unsigned n = offers.taken++;

    deliver(offers.bytes[n], offers.size[n]);
}

/* The actor of an action: before one place, the transmit engine goes first, then the receive engine and the wire. */
static int actor(int action)
{
    return action == NIC_TXTAKE || action == NIC_TXPUT || action == TX ? 0 : action == IRQ ? 2 : 1;
}

static bool is_fast(int action)
{
    return action == NIC_EEPROM || action == NIC_PHY;
}

/* Whether an action may come after another one at the same place. A step and the next one of the same frame are only
 * tried as their pair. */
static bool may_follow(int last, int action)
{
    if (depth == EVERY || last < 0 || is_fast(last) || is_fast(action) || last == HOLD_EEPROM || last == HOLD_PHY)
        return true;
    if ((last == NIC_TXTAKE && action == NIC_TXPUT) || (last == NIC_RXDATA && action == NIC_RXDONE))
        return false;
    return actor(last) <= actor(action);
}

static bool may_cut_in(void)
{
    return handler && !is_kept_out && (is_late || nic82540em_line(&nic));
}

static bool is_possible(int action)
{
    switch (action) {
    case TX:
        return depth != EVERY && can(NIC_TXTAKE);
    case RX:
        return depth != EVERY && can(NIC_RXDATA);
    case ARRIVAL:
        return offers.taken < offers.count;
    case NIC_EEPROM: case NIC_PHY:
        return has_holds && can((uint32_t)action);
    default:
        return can((uint32_t)action);
    }
}

static void play(int action)
{
    static const char *const names[] = { "txtake", "txput", "rxdata", "rxdone", "eeprom", "phy", "tx", "rx", "", "", "arrive" };

    note(names[action]);
    if (action == ARRIVAL)
        deliver_next();
    else if (action == TX)
        step(NIC_TXTAKE), step(NIC_TXPUT);
    else if (action == RX)
        step(NIC_RXDATA), step(NIC_RXDONE);
    else
        step((uint32_t)action);
}

/* The EEPROM and the PHY each take a step if they have work, unless it is held. Returns the last hold, or -1. */
static int tick(void)
{
    int last = -1;

    for (int n = 0; n < 2; n++) {
        uint32_t kind = n ? NIC_PHY : NIC_EEPROM;
        if (!can(kind))
            continue;
        if (has_holds && deviations < depth && choose(2) == 1)
            note(n ? "hold phy" : "hold eeprom"), last = n ? HOLD_PHY : HOLD_EEPROM;
        else
            step(kind);
    }
    return last;
}

static void call_handler(void)
{
    is_kept_out = true, is_late = false, has_cut_in = true;
    handler();
    is_kept_out = false;
}

enum place { ACCESS, SUB, REQUEST };

/* A place of the test. `answers` is the number of answers to x_choose, or 0. Returns the answer. */
static int at(enum place place, bool has_steps, int answers)
{
    for (;;) {
        int last = -1;
        if (place == REQUEST)
            place_round++, place_access = place_sub = 0;
        else if (place == ACCESS)
            place_access++, place_sub = 0;
        else
            place_sub++;
        if (place == ACCESS)
            last = tick();
        for (;;) {
            int options[40], count = 0, taken;
            for (int action = 0; has_steps && action <= ARRIVAL; action++)
                if (action != HOLD_EEPROM && action != HOLD_PHY && may_follow(last, action) && is_possible(action))
                    options[count++] = action;
            if (may_cut_in() && may_follow(last, IRQ))
                options[count++] = IRQ;
            if (stepped <= NIC_PHY && has_holds && can(stepped))
                options[count++] = HOLD_STEP;
            for (int n = 1; n < answers; n++)
                options[count++] = ANSWER + n;
            taken = deviations < depth && count ? choose(count + 1) : 0;
            if (taken == 0)
                return 0;
            last = options[taken - 1];
            if (last == IRQ)
                break;
            if (last == HOLD_STEP) {
                note("hold step"), is_held = true;
                return 0;
            }
            if (last > ANSWER) {
                char name[24];
                snprintf(name, sizeof name, "choose %d", last - ANSWER);
                note(name);
                return last - ANSWER;
            }
            play(last);
        }
        note("irq");
        call_handler();
    }
}

/* The end of a call: the handler cuts in, unless it is late. */
static void cut_in(void)
{
    while (may_cut_in()) {
        if (!is_late) {
            place_sub++;
            if (deviations < depth && choose(2) == 1) {
                note("late irq"), is_late = true;
                return;
            }
        }
        call_handler();
    }
}

uint32_t x_read(uint32_t offset)
{
    uint32_t value;

    at(ACCESS, true, 0);
    value = nic82540em_read(&nic, offset);
    cut_in();
    return value;
}

void x_write(uint32_t offset, uint32_t value)
{
    at(ACCESS, true, 0);
    nic82540em_write(&nic, offset, value);
    cut_in();
}

void x_load(uint64_t address, void *into, size_t count)
{
    at(ACCESS, true, 0);
    nic82540em_load(&nic, address, into, count);
    cut_in();
}

void x_store(uint64_t address, const void *bytes, size_t count)
{
    at(ACCESS, true, 0);
    nic82540em_store(&nic, address, bytes, count);
    cut_in();
}

void x_touch(bool is_store, uint64_t address)
{
    (void)is_store, (void)address;
    at(ACCESS, true, 0);
    cut_in();
}

uint32_t x_arrive(const void *frame, size_t count)
{
    uint32_t fate;

    at(REQUEST, true, 0);
    fate = deliver(frame, count);
    cut_in();
    return fate;
}

void x_offer(const void *frame, size_t count)
{
    at(REQUEST, true, 0);
    keep(&offers, frame, count, 0);
    cut_in();
}

uint32_t x_step(uint32_t kind)
{
    uint32_t result;

    is_held = false, stepped = kind;
    at(REQUEST, true, 0);
    result = is_held ? NIC_NOTHING : step(kind);
    stepped = NIC_REFUSED;
    cut_in();
    return result;
}

static void between(void)
{
    if (may_cut_in())
        at(SUB, false, 0);
}

uint64_t x_settle(void)
{
    static const uint32_t cycle[] = { NIC_TXTAKE, NIC_TXPUT, NIC_RXDATA, NIC_RXDONE, NIC_EEPROM, NIC_PHY };
    uint64_t count = 0, before;

    has_cut_in = false;
    at(REQUEST, true, 0);
    has_cut_in = false;
    do {
        before = count;
        for (; offers.taken < offers.count; between())
            deliver_next(), count++;
        for (int n = 0; n < 6; n++) {
            uint32_t result = step(cycle[n]);
            count += result != NIC_NOTHING && result != NIC_WIREFULL;
            if (result != NIC_NOTHING)
                between();
        }
    } while (count != before);
    cut_in();
    return count + (has_cut_in || is_late);
}

bool x_line(void)
{
    at(SUB, true, 0);
    return nic82540em_line(&nic);
}

unsigned x_choose(unsigned count)
{
    return (unsigned)at(ACCESS, true, (int)count);
}

static size_t taken_from(const struct frames *frames, unsigned number, void *into, size_t room)
{
    size_t size = number < frames->count ? frames->size[number] : 0;

    memcpy(into, frames->bytes[number < frames->count ? number : 0], size < room ? size : room);
    return size;
}

unsigned x_put_count(void)
{
    return put.count;
}

unsigned x_arrived_count(void)
{
    return arrived.count;
}

size_t x_put(unsigned number, void *into, size_t room)
{
    return taken_from(&put, number, into, room);
}

size_t x_arrived(unsigned number, uint32_t *fate, void *into, size_t room)
{
    *fate = number < arrived.count ? arrived.fate[number] : NIC_REFUSED;
    return taken_from(&arrived, number, into, room);
}

void x_forget(void)
{
    put.count = arrived.count = 0;
    if (offers.taken == offers.count)
        offers.taken = offers.count = 0;
}

void *x_memory(size_t size)
{
    memory_used = (memory_used + 63) & ~(size_t)63;
    memory_used += size;
    return memory_used > sizeof memory ? NULL : memory + memory_used - size;
}

void x_handler(void (*new_handler)(void))
{
    if (handler || new_handler)
        at(SUB, true, 0);
    handler = new_handler, is_late = false;
    cut_in();
}

bool x_interrupts(bool is_on)
{
    bool before = !is_kept_out;

    if (handler && (is_on || before))
        at(SUB, true, 0);
    is_kept_out = !is_on;
    cut_in();
    return before;
}

/* The next choices after those of a run: the last one that has another option. Returns false if there is none. */
static bool next_choices(void)
{
    while (choice_count && choices[choice_count - 1].taken + 1 == choices[choice_count - 1].count)
        choice_count--;
    if (!choice_count)
        return false;
    choices[choice_count - 1].taken++;
    given = choice_count;
    return true;
}

static struct { unsigned long count; int deviations; char text[4096]; } found[OUTCOMES];

static void add_outcome(void)
{
    size_t size = 0;

    if (!found[outcome].count++ || deviations < found[outcome].deviations) {
        found[outcome].deviations = deviations, found[outcome].text[0] = 0;
        for (int n = 0; n < deviations; n++)
            size += (size_t)snprintf(found[outcome].text + size, sizeof found->text - size, "%s%s", n ? ";" : "", text[n]);
    }
}

int nic82540em_explore(int count, char **words, const char *(*test)(void *), void *argument)
{
    unsigned long tried[EVERY + 1] = { 0 }, most = 1000000;

    depth = EVERY;
    for (int n = 2; n < count; n++) {
        has_holds |= !strcmp(words[n], "--holds");
        if (!strcmp(words[n], "--explore") && strcmp(words[n + 1], "every"))
            depth = atoi(words[n + 1]);
    }
    do {
        put.count = arrived.count = offers.count = offers.taken = 0, outcome = 0;
        stepped = NIC_REFUSED, handler = NULL, is_kept_out = is_late = has_cut_in = false;
        choice_count = deviations = 0, place_round = place_access = place_sub = 0;
        nic82540em_new(&nic, &x_options);
        memset(memory, 0, memory_used), memory_used = 0;
        if (test(argument))
            outcome = OUTCOMES - 1;
        nic82540em_free(&nic);
        tried[deviations]++;
        add_outcome();
        if (!--most)
            return printf("too many\n"), 4;
    } while (next_choices());
    for (int n = 0; n <= EVERY; n++)
        if (tried[n])
            printf("tried %d %lu\n", n, tried[n]);
    for (int n = 0; n < OUTCOMES; n++)
        if (found[n].count)
            printf("outcome %d %lu %d %s\n", n, found[n].count, found[n].deviations, found[n].text);
    return 0;
}
