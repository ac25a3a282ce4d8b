/* What the runs of a search have seen, so that a pass shows how much it means. */
#include "inside.h"
#include <string.h>

#define B xi_book
#define S xi_state

enum { MOST_KINDS = 1024, MOST_SHOWN = 8 };
/* A kind of places: one register or table of registers, one offset in the descriptors of a ring, other memory, or one
 * call. `is_later`: it was reached from round 1 on. `has_deviation`: a deviation did something before it. */
static struct kind {
    struct place place;
    bool is_reached, is_later, has_deviation;
} kinds[MOST_KINDS];
static unsigned kind_count, order[MOST_KINDS]; /* in the order in which they were reached */
static struct {
    /* Of the receive and the transmit ring: whether there is one, it has wrapped, and no slot was offered, or free */
    bool has[2], wrapped[2], full[2];
    bool missed, in_send;
    uint64_t handled;
} seen;

static uint32_t peek(uint32_t offset)
{
    uint32_t value = 0;

    nic82540em_peek(&S->nic, offset, &value);
    return value;
}

/* A ring has advanced, or its tail was written. */
void xi_see_ring(bool sends, bool is_step)
{
    uint32_t from = sends ? NIC_TDBAL - NIC_RDBAL : 0, slots = B->rings[sends][2] / 16, head, tail;

    if (!slots || (seen.wrapped[sends] && seen.full[sends]))
        return;
    head = peek(from + NIC_RDH), tail = peek(from + NIC_RDT);
    seen.has[sends] = true;
    seen.wrapped[sends] |= is_step && head == 0;
    seen.full[sends] |= sends ? (tail + 1) % slots == head : is_step && head == tail;
}

void xi_see_fate(uint32_t fate)
{
    seen.missed |= fate == NIC_MISSED;
}

/* The handler runs. `in_send`: between a store in the transmit ring and the next write of TDT. */
void xi_see_handler(bool in_send)
{
    seen.handled++, seen.in_send |= in_send;
}

static const char *ring(char *into, size_t room, bool sends)
{
    const char *full = sends ? "full" : "dry", *wrapped = seen.wrapped[sends] ? "wrapped" : "never wrapped";

    if (!seen.has[sends])
        return sends ? "nothing was sent" : "nothing was received";
    snprintf(into, room, "the %s ring %s, and %s %s", sends ? "transmit" : "receive", wrapped,
             seen.full[sends] ? "was" : "was never", full);
    return into;
}

/* The kind of a place; NULL if there are too many kinds */
static struct kind *kind_of(struct place place)
{
    size_t at;

    if (place.event <= WRITE)
        place.address = xi_first_of_table((uint32_t)place.address);
    else if (place.event <= STORE)
        place.address = place.ring ? place.address % 16 : 1;
    else
        place.address = 0;
    at = (size_t)((place.address * 8 + (unsigned)place.event) * 4 + (unsigned)place.ring) * 0x9E3779B1 >> 7;
    for (size_t n = 0; n < MOST_KINDS; n++) {
        struct kind *kind = &kinds[(at + n) % MOST_KINDS];
        if (!kind->is_reached) {
            kind->is_reached = true, kind->place = place;
            order[kind_count++] = (unsigned)(kind - kinds);
        }
        if (kind->place.event == place.event && kind->place.ring == place.ring && kind->place.address == place.address)
            return kind;
    }
    return NULL;
}

/* A place that was seen before is found quickly. `knows_deviation`: so was a deviation before it. */
static struct seen_place {
    uint64_t address;
    uint32_t rings[2][3];
    bool is_seen, knows_deviation;
} seen_places[ENDED][64];

static struct seen_place *seen_here(void)
{
    return &seen_places[B->event][B->address * 0x9E3779B97F4A7C15u >> 58];
}

/* As memcmp, but without a call: it is needed at each place. */
static bool is_equal(const void *one, const void *other)
{
    uint64_t a[3], b[3];

    _Static_assert(sizeof a == sizeof B->rings, "the rings are three words");
    memcpy(a, one, sizeof a), memcpy(b, other, sizeof b);
    return !((a[0] ^ b[0]) | (a[1] ^ b[1]) | (a[2] ^ b[2]));
}

static bool is_here(const struct seen_place *seen_place)
{
    return seen_place->is_seen && seen_place->address == B->address && is_equal(seen_place->rings, B->rings);
}

/* The run has come to a place. */
void xi_see_place(void)
{
    struct seen_place *seen_place;
    struct kind *kind;

    if (B->event == ENDED || is_here(seen_place = seen_here()))
        return;
    kind = kind_of(xi_place());
    if (kind)
        kind->is_later |= B->round > 0;
    seen_place->address = B->address, seen_place->is_seen = B->round > 0, seen_place->knows_deviation = false;
    memcpy(seen_place->rings, B->rings, sizeof B->rings);
}

/* A deviation has done something before the place at which the run is. */
void xi_see_deviation(void)
{
    struct seen_place *seen_place;
    struct kind *kind;

    if (B->event == ENDED)
        return;
    seen_place = seen_here();
    if (is_here(seen_place) && seen_place->knows_deviation)
        return;
    kind = kind_of(xi_place());
    if (kind)
        kind->has_deviation = true;
    seen_place->knows_deviation = is_here(seen_place);
}

/* Calls a function with each kind of places, for another process. */
void xi_each_kind(void (*with)(const struct place *place, bool is_later, bool has_deviation))
{
    for (unsigned n = 0; n < kind_count; n++)
        with(&kinds[order[n]].place, kinds[order[n]].is_later, kinds[order[n]].has_deviation);
}

/* Adds what another process has told of a kind. */
void xi_add_kind(const struct place *place, bool is_later, bool has_deviation)
{
    struct kind *kind = kind_of(*place);

    if (kind)
        kind->is_later |= is_later, kind->has_deviation |= has_deviation;
}

/* The next kind without a deviation, those that were reached from round 1 on first. `at` counts from 0 on. Returns NULL
 * if there is none. */
static const struct kind *next_never(unsigned *at)
{
    for (; *at < 2 * kind_count; ++*at) {
        const struct kind *kind = &kinds[order[*at % kind_count]];
        if (!kind->has_deviation && kind->is_later == (*at < kind_count)) {
            ++*at;
            return kind;
        }
    }
    return NULL;
}

static const char *name_of(const struct kind *kind)
{
    static char name[32];

    xi_name(name, sizeof name, &kind->place);
    xi_without_slot(name);
    return name;
}

static void say_never(void)
{
    unsigned count = 0, later = 0, shown = 0;
    const struct kind *kind;

    for (unsigned at = 0; (kind = next_never(&at)) != NULL; count++)
        later += kind->is_later;
    xi_say("a deviation did something before %u of %u kinds of places%s", kind_count - count, kind_count,
           count ? "; never before " : "");
    for (unsigned at = 0; shown < later && shown < MOST_SHOWN; shown++)
        xi_say("%s%s", shown ? ", " : "", name_of(next_never(&at)));
    if (later > shown)
        xi_say(" and %u more", later - shown);
    if (count > later)
        xi_say("%s%u that only round 0 has", later ? ", nor before " : "", count - later);
    xi_say("\n");
}

/* Prints what the runs have seen. */
void xi_say_seen(void)
{
    char receive[96], transmit[96];
    const char *handler = seen.in_send ? "; the handler ran inside a send" : "; the handler never ran inside a send";

    if (!xi_has_command) /* of a command, the rings aren't looked at */
        xi_say("%s; %s; %s frame was missed%s\n", ring(receive, sizeof receive, false),
               ring(transmit, sizeof transmit, true), seen.missed ? "a" : "no", seen.handled ? handler : "");
    say_never();
    if (xi_impossible)
        xi_say("the test has ended %llu runs as impossible: these count as passing\n", (unsigned long long)xi_impossible);
    if (xi_untold())
        xi_say("the host's memory was changed without an access, first %s: by the test, or by inline assembly\n",
               xi_untold());
}

static void print_truth(const char *key, bool has, bool value)
{
    fprintf(xi_out, "\"%s\": %s, ", key, !has ? "null" : value ? "true" : "false");
}

/* Prints what the runs have seen as an object of JSON. */
void xi_print_seen(void)
{
    const struct kind *kind;

    fprintf(xi_out, "{");
    print_truth("receive_wrapped", seen.has[0], seen.wrapped[0]);
    print_truth("receive_dry", seen.has[0], seen.full[0]);
    print_truth("transmit_wrapped", seen.has[1], seen.wrapped[1]);
    print_truth("transmit_full", seen.has[1], seen.full[1]);
    print_truth("missed", true, seen.missed);
    print_truth("handler_in_send", seen.handled, seen.in_send);
    fprintf(xi_out, "\"reached\": %u, \"never\": [", kind_count);
    for (unsigned at = 0, n = 0; (kind = next_never(&at)) != NULL; n++)
        fputs(n ? ", " : "", xi_out), xi_print_string(xi_out, name_of(kind));
    fprintf(xi_out, "], \"untold\": ");
    if (xi_untold())
        xi_print_string(xi_out, xi_untold());
    else
        fprintf(xi_out, "null");
    fprintf(xi_out, "}");
}
