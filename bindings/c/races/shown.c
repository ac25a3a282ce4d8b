/* The log of a run of COMMAND: its lines and the adapter's, as log.c prints them.
 *
 * While a run is logged, the server reports steps, accesses and events before each answer. COMMAND gets of these lines
 * only what it has asked for itself. So `log` and `events` are answered here, and so are `frames` and `faults`, of
 * which the server keeps none while events are on.
 */
#include "races.h"
#include <stdlib.h>
#include <string.h>

#define B xi_book
#define S xi_state

enum { MOST_KEPT = 1 << 18 };
/* What isn't logged yet: the interrupt line may still change with it. */
enum what { NOTHING_WAITS, ACCESS, STEP_TAKEN, ARRIVAL_SEEN };
bool xr_is_shown;
static bool is_raised, tells_log, tells_events;
static char frames[MOST_KEPT], faults[MOST_KEPT]; /* that COMMAND hasn't fetched */
static struct {
    enum what what;
    char kind[32], outcome[32];
} waiting;
static const char *answered; /* the answer to the access or request that waits, without OK */
static const char *sent;     /* its line */
static size_t sent_size;
static uint8_t bytes[1 << 16];
static char fault_name[24], fault_reason[64]; /* of the last step, if it isn't logged yet */

bool xr_is_raised(void)
{
    return is_raised;
}

static bool is(const char *line, size_t size, const char *text)
{
    return strlen(text) == size && !memcmp(line, text, size);
}

static bool begins(const char *line, size_t size, const char *text)
{
    return size >= strlen(text) && !memcmp(line, text, strlen(text));
}

/* Begins a run: of one that is logged, the server reports all. */
void xr_begin_shown(void)
{
    is_raised = tells_log = tells_events = false, waiting.what = NOTHING_WAITS;
    frames[0] = faults[0] = fault_name[0] = 0;
    xr_is_shown = xi_given.log || xi_steps;
    if (xr_is_shown)
        xr_answer("log on", 6), xr_answer("events on", 9);
}

/* The bytes of an access */

static unsigned digit(char c)
{
    return (unsigned)(c <= '9' ? c - '0' : (c | 32) - 'a' + 10);
}

static size_t from_hex(const char *text, size_t size)
{
    size_t count = 0;

    if (size >= 2 && !memcmp(text, "0x", 2))
        text += 2, size -= 2;
    for (; size >= 2 && count < sizeof bytes; text += 2, size -= 2)
        bytes[count++] = (uint8_t)(digit(text[0]) << 4 | digit(text[1]));
    return count;
}

static size_t from_base64(const char *text, size_t size)
{
    static const char digits[] = "ABCDEFGHIJKLMNOPQRSTUVWXYZabcdefghijklmnopqrstuvwxyz0123456789+/";
    uint32_t value = 0;
    unsigned bits = 0;
    size_t count = 0;

    for (; size && *text != '=' && count < sizeof bytes; text++, size--) {
        const char *found = strchr(digits, *text);
        if (!*text || !found)
            break;
        value = value << 6 | (uint32_t)(found - digits), bits += 6;
        if (bits >= 8)
            bits -= 8, bytes[count++] = (uint8_t)(value >> bits);
    }
    return count;
}

static size_t from_number(uint64_t value, size_t width)
{
    for (size_t n = 0; n < width; n++)
        bytes[n] = (uint8_t)(value >> 8 * n);
    return width;
}

/* The word of a line with this number, from 0 on */
static const char *word_of(const char *line, size_t size, unsigned number, size_t *length)
{
    const char *end = line + size;

    for (;; number--) {
        while (line < end && (*line == ' ' || *line == '\t'))
            line++;
        for (*length = 0; line + *length < end && line[*length] != ' ' && line[*length] != '\t';)
            ++*length;
        if (!number)
            return line;
        line += *length;
    }
}

static uint64_t number_of(const char *word, size_t size)
{
    char text[32];

    snprintf(text, sizeof text, "%.*s", (int)size, word);
    return strtoull(text, NULL, begins(text, strlen(text), "0x") ? 16 : 10);
}

static size_t width_of(char last)
{
    return last == 'b' ? 1 : last == 'w' ? 2 : last == 'l' ? 4 : 8;
}

/* Stores the bytes that the access has read or written. Returns their number. */
static size_t take_bytes(void)
{
    size_t verb_size, size, answer_size = strcspn(answered, "\n");
    const char *verb = word_of(sent, sent_size, 0, &verb_size), *word;

    if (is(verb, verb_size, "read"))
        return from_hex(answered, answer_size);
    if (is(verb, verb_size, "b64read"))
        return from_base64(answered, answer_size);
    if (begins(verb, verb_size, "read"))
        return from_number(number_of(answered, answer_size), width_of(verb[verb_size - 1]));
    if (is(verb, verb_size, "memset")) {
        word = word_of(sent, sent_size, 3, &size);
        memset(bytes, (int)number_of(word, size), sizeof bytes);
        word = word_of(sent, sent_size, 2, &size);
        return (size_t)number_of(word, size);
    }
    if (begins(verb, verb_size, "write") && verb_size == 6)
        return word = word_of(sent, sent_size, 2, &size), from_number(number_of(word, size), width_of(verb[5]));
    word = word_of(sent, sent_size, 3, &size);
    return begins(verb, verb_size, "b64") ? from_base64(word, size) : from_hex(word, size);
}

static void log_access(void)
{
    size_t count = take_bytes();

    if (B->event > WRITE)
        xi_log_bytes(bytes, count);
    else
        xi_log_value((uint32_t)bytes[0] | (uint32_t)bytes[1] << 8 | (uint32_t)bytes[2] << 16 |
                     (uint32_t)bytes[3] << 24);
}

/* Keeps a frame that has arrived, or that was put on the wire: it is logged next. */
static void keep_frame(struct frames *frames, const char *hex, size_t size)
{
    size_t count = from_hex(hex, size);

    count = count < LONGEST ? count : LONGEST;
    frames->count = 1, frames->begin[0] = 0, frames->begin[1] = (uint32_t)count;
    memcpy(frames->bytes, bytes, count);
}

/* Logs the fault of the last step. */
static void log_fault(void)
{
    if (fault_name[0])
        xi_log_fault(fault_name, fault_reason);
    fault_name[0] = 0;
}

/* Lines */

/* Logs what waits. */
static void log_waiting(void)
{
    enum what what = waiting.what;

    waiting.what = NOTHING_WAITS;
    if (what == ACCESS)
        log_access();
    else if (what == STEP_TAKEN || what == ARRIVAL_SEEN)
        xi_log_step(waiting.kind, waiting.outcome, false);
}

/* Notes what a line of the server's log tells. */
static void hear_log(const char *line, size_t size)
{
    char kind[32], outcome[32];

    log_waiting();
    if (sscanf(line, "# step %31s -> %31s", kind, outcome) == 2) {
        if (!strcmp(outcome, "nothing"))
            return;
        waiting.what = STEP_TAKEN, S->put.count = 0;
        memcpy(waiting.kind, kind, sizeof kind), memcpy(waiting.outcome, outcome, sizeof outcome);
    } else if (begins(line, size, "# arrive "))
        keep_frame(&S->arrived, line + 9, size - 9);
    else if (xr_is_at_place && B->event <= STORE)
        waiting.what = ACCESS;
}

static void append(char *kept, const char *before, const char *text, size_t size)
{
    size_t end = strlen(kept);

    if (end + size + 4 < MOST_KEPT)
        snprintf(kept + end, MOST_KEPT - end, "%s%.*s", before, (int)size, text);
}

/* Notes what an event tells, and keeps it until COMMAND fetches it. */
static void hear_event(const char *line, size_t size)
{
    char ring[8];
    unsigned slot;

    if (begins(line, size, "frame "))
        keep_frame(&S->put, line + 6, size - 6);
    if (sscanf(line, "fault %7s %u %63[^\n]", ring, &slot, fault_reason) == 3)
        snprintf(fault_name, sizeof fault_name, "%s[%u]", ring, slot);
    if (begins(line, size, "IRQ"))
        is_raised = is(line, size, "IRQ raise 0");
    else if (begins(line, size, "frame ") && !tells_events)
        append(frames, " 0x", line + 6, size - 6);
    else if (begins(line, size, "fault ") && !tells_events)
        append(faults, " ", line + 6, size - 6);
    else if (begins(line, size, "arrived ")) {
        waiting.what = ARRIVAL_SEEN;
        snprintf(waiting.kind, sizeof waiting.kind, "arrive");
        sscanf(line + 8, "%31s", waiting.outcome);
    }
}

/* Hears the lines before an answer, and tells COMMAND those that it gets. Returns the size of these lines. */
static size_t hear(const char *told, size_t size)
{
    size_t at = 0;

    log_fault();
    for (;;) {
        const char *line = told + at, *end = memchr(line, '\n', size - at);
        size_t length = end ? (size_t)(end - line) : size - at;
        if (!end || at + length + 1 == size)
            return at;
        if (line[0] == '#')
            hear_log(line, length);
        else
            hear_event(line, length);
        if (line[0] == '#' ? tells_log : tells_events || begins(line, length, "IRQ"))
            xr_tell(line, length + 1);
        at += length + 1;
    }
}

/* Logs a request that is no access. Those that let the adapter take steps come before these. */
static void log_request(const char *answer)
{
    char fate[16] = "";

    if (B->event == CHOOSE)
        xi_log_value((uint32_t)number_of(answer, strcspn(answer, "\n")));
    else if (B->event == ARRIVE) {
        sscanf(answer, "%15s", fate);
        keep_frame(&S->arrived, sent + 7, sent_size - 7);
        xi_log_request(fate);
    } else
        xi_log_request(NULL);
}

/* Logs the line at which the run is, with its answer, and tells COMMAND what it gets of it. */
void xr_show_answer(const char *line, size_t size, const char *told, size_t told_size)
{
    size_t at = told_size - 1;

    while (at && told[at - 1] != '\n')
        at--;
    sent = line, sent_size = size, answered = told + at + (begins(told + at, told_size - at, "OK ") ? 3 : 2);
    if (xr_is_at_place && B->event > STORE)
        log_request(answered);
    hear(told, told_size);
    log_waiting(), log_fault();
    xr_tell(told + at, told_size - at);
}

/* After a deviation or a default step: hears what it has done. Returns its outcome, or the fate of a frame. */
const char *xr_show_step(void)
{
    static char result[32];
    size_t size = xr_answer("line", 4);

    sent = "", sent_size = 0, answered = "";
    hear(xr_told(), size);
    memcpy(result, waiting.outcome, sizeof result);
    waiting.what = NOTHING_WAITS;
    return result;
}

static void tell_kept(char *kept)
{
    xr_tell("OK", 2), xr_tell(kept, strlen(kept)), xr_tell("\n", 1);
    kept[0] = 0;
}

/* The server's log stays on. */
static void set_log(bool has_targets, bool is_on)
{
    tells_log = is_on;
    xr_answer(has_targets ? "log targets" : "log on", has_targets ? 11 : 6);
    xr_tell("OK\n", 3);
}

/* Answers a line about the log or about events. Returns whether the line was one. */
bool xr_answers_shown(const char *line, size_t size)
{
    char mark[128];

    if (is(line, size, "frames"))
        tell_kept(frames);
    else if (is(line, size, "faults"))
        tell_kept(faults);
    else if (is(line, size, "events on") || is(line, size, "events off"))
        tells_events = line[size - 1] == 'n', xr_tell("OK\n", 3);
    else if (is(line, size, "log on") || is(line, size, "log targets") || is(line, size, "log off"))
        set_log(line[4] == 't', line[5] != 'f');
    else if (begins(line, size, "mark ")) {
        snprintf(mark, sizeof mark, "%.*s", (int)size - 5, line + 5);
        xi_log_mark(mark, false);
        xr_tell("OK\n", 3);
    } else
        return false;
    return true;
}
