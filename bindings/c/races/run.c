/* The places of a run: the lines of COMMAND that are accesses, or begin rounds. */
#define _GNU_SOURCE
#include "races.h"
#include <stdlib.h>
#include <string.h>

#define B xi_book
#define S xi_state

static struct book book;
static struct state state;
struct book *const xi_book = &book;
struct state *const xi_state = &state;

static char *line; /* the one that is answered next, or NULL */
static size_t line_size;
static char name[MOST_NAME];
bool xr_is_at_place;
unsigned xr_options;
static unsigned offers; /* how many frames COMMAND has offered */

/* The place at which the run is. Of an access of a ring, the address counts from the ring's first byte, as in the name.
 */
static struct place place_here(void)
{
    struct place place = { B->event, 0, B->address, B->event == ENDED ? "the end" : xr_kept(name) };
    const char *target = strchr(name, ' ');
    unsigned slot, byte = 0;

    if ((B->event == LOAD || B->event == STORE) && target && sscanf(target + 2, "x[%u]+%u", &slot, &byte) >= 1)
        place.ring = target[1] == 'r' ? 1 : 2, place.address = 16 * (uint64_t)slot + byte;
    return place;
}

/* Begins a run: with a new adapter, and with a new process of COMMAND if `is_new` is true. */
void xi_begin(bool is_new)
{
    if (line && !is_new && xr_resets())
        while (B->event != ENDED) /* a run that was left: its process plays the next one */
            xi_to_test();
    xr_begin_share();
    memset(&book, 0, offsetof(struct book, path));
    S->fault = NULL, S->choice = 0, S->is_held = false, S->offered = 0, S->offers.count = S->arrived.count = 0;
    line = NULL, xr_options = offers = 0, xi_place_here = place_here;
    xi_device->reset();
    xr_begin_told();
    xr_begin_command(is_new);
}

static bool is_word(const char *word)
{
    size_t size = strlen(word);

    return line_size >= size && !memcmp(line, word, size) && (line_size == size || line[size] == ' ');
}

/* Whether this line isn't for the adapter, or would make the places of a run others: then answers it. */
static bool answers_here(void)
{
    static const char held[] = "OK nothing\n", ok[] = "OK\n", unknown[] = "FAIL unknown\n", off[] = "interleave 0";

    if (is_word("mark"))
        xr_tell(ok, sizeof ok - 1);
    else if (S->is_held) {
        xr_tell(held, sizeof held - 1);
        if (xr_is_shown)
            xi_log_request(NULL);
    } else if (is_word("save") || is_word("restore"))
        xr_tell(unknown, sizeof unknown - 1);
    else if (is_word("interleave")) {
        xr_tell(xr_told(), xr_answer(line, line_size));
        xr_answer(off, sizeof off - 1);
    } else
        return false;
    return true;
}

/* Counts what the request at which the run is has done, as events of PCT: its steps, and arrivals of offered frames. */
static void count_moves(size_t size)
{
    const char *text = xr_told(), *last = memrchr(text, '\n', size - 1);

    last = last ? last + 1 : text;
    if (!xr_is_at_place || memcmp(last, "OK", 2))
        return;
    if (B->event == OFFER)
        offers++;
    else if (B->event == STEP)
        B->moves += !xi_is_clock((int)B->address) && memcmp(last, "OK nothing", 10);
    else if (B->event == SETTLE) {
        B->moves += (unsigned)strtoull(last + 3, NULL, 16) + offers - S->offered;
        S->offered = offers;
    }
}

/* Answers the line at which the run is. */
static void answer(void)
{
    size_t size;

    xi_answer_bytes((const uint8_t *)line, line_size);
    xr_add_told(line, line_size), xr_add_told("\n", 1);
    if ((xr_is_shown && xr_answers_shown(line, line_size)) || answers_here()) {
        xr_add_told(S->is_held ? "held" : "", S->is_held ? 4 : 0);
        xi_answer(S->is_held), S->is_held = false;
        return;
    }
    size = xr_answer(line, line_size);
    count_moves(size);
    xi_answer_bytes((const uint8_t *)xr_told(), size), xr_add_told(xr_told(), size);
    if (xr_is_shown)
        xr_show_answer(line, line_size, xr_told(), size);
    else
        xr_tell(xr_told(), size);
    xi_change();
}

/* The event of a line, and the beginning of its name. Names of descriptors and addresses are those of memory. */
static enum event event_of(uint32_t kind, const char *target, const char **word)
{
    bool is_memory = !strncmp(target, "rx[", 3) || !strncmp(target, "tx[", 3) || !strncmp(target, "0x", 2);

    *word = "";
    switch (kind) {
    case NIC_COMES_READ: *word = "read "; return is_memory ? LOAD : READ;
    case NIC_COMES_WRITE: *word = "write "; return is_memory ? STORE : WRITE;
    case NIC_COMES_ARRIVE: return ARRIVE;
    case NIC_COMES_OFFER: return OFFER;
    case NIC_COMES_STEP: return STEP;
    case NIC_COMES_SETTLE: return SETTLE;
    default: return CHOOSE;
    }
}

/* The kind of the step that the line requests */
static unsigned step_of(void)
{
    const char *word = line + strcspn(line, " \t");
    size_t size = (size_t)(line + line_size - word);
    unsigned kind = 0;

    while (size && (*word == ' ' || *word == '\t'))
        word++, size--;
    while (kind < xi_device->kinds && (strlen(xi_device->steps[kind]) > size ||
                                       memcmp(word, xi_device->steps[kind], strlen(xi_device->steps[kind]))))
        kind++;
    return kind;
}

/* About how many deviations are possible here */
static unsigned options_of(const struct nic82540em_coming *coming)
{
    uint32_t can = nic82540em_can(&xr_server);
    unsigned steps = 0;

    if (coming->kind == NIC_COMES_CHOOSE)
        return coming->limit < MOST_ANSWERS ? coming->limit : MOST_ANSWERS;
    for (int n = 0; n < NIC_EEPROM; n++)
        steps += can >> n & 1;
    return steps + (can >> NIC_TXTAKE & 1) + (can >> NIC_RXDATA & 1) + (can >> 31);
}

/* Notes what the line is. Returns whether it is a place. */
static bool is_place(void)
{
    struct nic82540em_coming coming;
    char target[MOST_NAME] = "";
    const char *word;
    size_t size = nic82540em_comes(&xr_server, line, line_size, &coming, target, sizeof target - 1);

    if (coming.kind == NIC_COMES_NOTHING) {
        if (!size && !nic82540em_answers(&xr_server, 0))
            xi_die("memory is refused");
        return false;
    }
    target[size < sizeof target ? size : sizeof target - 1] = 0;
    B->event = event_of(coming.kind, target, &word);
    B->address = B->event == CHOOSE  ? coming.limit
                 : B->event == STEP  ? step_of()
                 : B->event <= WRITE ? coming.address - xr_given.registers
                                     : coming.address;
    snprintf(name, sizeof name, "%s%s", word, target);
    xi_has_offered |= B->event == OFFER, xi_has_chosen |= B->event == CHOOSE && coming.limit > 1;
    S->choice = 0;
    xr_options += options_of(&coming);
    if (B->event == CHOOSE)
        S->offers.count = S->offered; /* before `choose`, only its answer can be played */
    else
        xr_note_offers();
    return true;
}

static void end(void)
{
    B->event = ENDED, line = NULL;
    S->fault = xr_end_command();
}

/* Answers the line at which the run is, and goes on to the next place. */
void xi_to_test(void)
{
    if (B->event == ENDED)
        return;
    if (line) {
        if (B->event == CHOOSE)
            nic82540em_answers(&xr_server, S->choice);
        answer();
    }
    for (;;) {
        if (!xr_next_line(&line, &line_size)) {
            end();
            return;
        }
        xr_keep_line(line, line_size);
        if ((xr_is_at_place = is_place()))
            return;
        answer();
    }
}
