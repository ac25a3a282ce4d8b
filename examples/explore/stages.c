/* The tests `stages`, `cuts`, `offers` and `exchange` of examples/drivers in C.
 *
 * usage: stages DRIVER | TEST:DRIVER [OPTION..]
 *
 * With a digit before it, such as 2cuts:right, the test is repeated. With a comma, such as 2,cuts:right, driver and
 * adapter are initialized each time. With a dot, such as 2.cuts:right, frames are received and sent in between, until
 * both rings are at slot 0 again.
 */
#include "driver.h"
#include <stdio.h>
#include <string.h>

static const unsigned LENGTHS[] = { 60, 257, 640, 1000, 1280, 1518 }; /* by the number of receive buffers */

/* The traffic of a test */

static bool is_ok(void)
{
    return !t->fault;
}

static void fail(const char *format, unsigned one, unsigned two, unsigned three)
{
    if (t->fault)
        return;
    snprintf(t->text, sizeof t->text, format, one, two, three);
    t->fault = t->text;
}

/* Makes the next frame. Returns its length. */
static unsigned make_long(uint8_t *frame, bool is_received, unsigned length)
{
    static const uint8_t to[] = { 2, 0, 0, 0, 0, 1, 2, 0, 0, 0, 0, 9, 0x88, 0xB5 };

    memset(frame, (int)++t->number, length);
    memcpy(frame, to, sizeof to);
    if (!is_received)
        frame[5] = 9, frame[11] = 1;
    return length;
}

/* Makes the next frame, which takes this number of receive buffers. */
static unsigned make(uint8_t *frame, bool is_received, int slots)
{
    return make_long(frame, is_received, LENGTHS[slots - 1]);
}

static void arrive_long(unsigned bytes)
{
    uint8_t frame[LONGEST_FRAME];
    unsigned length = make_long(frame, true, bytes);

    if (x_arrive(frame, length) == NIC_STORED)
        t->came[t->came_count++] = known_of(frame, length);
}

static void arrive(int slots)
{
    arrive_long(LENGTHS[slots - 1]);
}

static void offer_frame(int slots)
{
    uint8_t frame[LONGEST_FRAME];
    unsigned length = make(frame, true, slots);

    x_offer(frame, length);
}

/* Plays the steps that receive a frame in these slots, except the last write-back. */
static void move(int slots)
{
    for (int n = 0; n < 2 * slots - 1; n++)
        x_step(n % 2 ? NIC_RXDONE : NIC_RXDATA);
}

static bool send_frame(const uint8_t *frame, unsigned length)
{
    bool is_accepted = send(frame, length);

    if (is_accepted)
        t->out[t->sent_count++] = known_of(frame, length);
    if (t->sent > (int)x_put_count())
        fail("the buffer of frame %u was freed before the frame was on the wire", (unsigned)t->sent - 1, 0, 0);
    return is_accepted;
}

static void handle(void)
{
    for (int n = 0; n < PATIENCE && is_ok(); n++) {
        if (!x_line())
            return;
        interrupt();
    }
    fail("the line is still asserted after %u calls of the handler", PATIENCE, 0, 0);
}

static void settle(void)
{
    handle();
    for (int n = 0; n < PATIENCE && is_ok(); n++) {
        if (x_settle() == 0 && !x_line())
            break;
        handle();
    }
}

/* What is compared */

static void compare(const char *verb, const struct known *wanted, unsigned count, const struct known *got,
                    unsigned got_count)
{
    char text[64];

    for (unsigned n = 0; n < count && is_ok(); n++)
        if (n == got_count) {
            snprintf(text, sizeof text, "frame %%u was never %s", verb);
            fail(text, n, 0, 0);
        } else if (got[n].length != wanted[n].length) {
            snprintf(text, sizeof text, "frame %%u was %s with %%u bytes instead of %%u", verb);
            fail(text, n, got[n].length, wanted[n].length);
        } else if (got[n].hash != wanted[n].hash) {
            snprintf(text, sizeof text, "frame %%u was %s with wrong bytes", verb);
            fail(text, n, 0, 0);
        }
    if (is_ok() && got_count != count) {
        snprintf(text, sizeof text, "a frame was %s that never was", verb);
        fail(text, 0, 0, 0);
    }
}

/* Stores what is known of the frames on the wire, at most MOST. Returns their number. */
static unsigned wire(struct known *put)
{
    uint8_t frame[LONGEST_FRAME];
    unsigned count = x_put_count();

    for (unsigned n = 0; n < count && n < MOST; n++) {
        unsigned length = (unsigned)x_put(n, frame, sizeof frame);
        put[n] = known_of(frame, length);
    }
    return count < MOST ? count : MOST;
}

static void compare_both(void)
{
    struct known put[MOST];

    compare("received", t->came, t->came_count, t->received, t->received_count);
    compare("sent", t->out, t->sent_count, put, wire(put));
}

/* Unless the test has failed, forgets what was compared, so runs with different pasts come to the same state. */
static void forget(void)
{
    if (!is_ok())
        return;
    t->sent -= (int)x_put_count();
    t->came_count = t->received_count = t->sent_count = t->answer_count = t->missed = 0;
    memset(t->came, 0, sizeof t->came), memset(t->received, 0, sizeof t->received);
    memset(t->out, 0, sizeof t->out), memset(t->answers, 0, sizeof t->answers);
    x_forget();
}

static void finish(void)
{
    settle();
    compare_both();
    forget();
}

static void finish_arrivals(void)
{
    struct known stored[MOST];
    unsigned count = 0, missed = 0, all;

    settle();
    all = x_arrived_count();
    for (unsigned n = 0; n < all && n < MOST; n++) {
        uint8_t frame[LONGEST_FRAME];
        uint32_t fate;
        unsigned length = (unsigned)x_arrived(n, &fate, frame, sizeof frame);
        stored[count] = known_of(frame, length);
        count += fate == NIC_STORED, missed += fate == NIC_MISSED;
    }
    compare("received", stored, count, t->received, t->received_count);
    if (t->missed != missed)
        fail("%u missed frames were counted instead of %u", t->missed, missed, 0);
    forget();
}

/* The test `offers` */

static void offers(void)
{
    for (int count = 1; count <= 6 && is_ok(); count++) {
        arrive(1);
        x_settle();
        offer_frame(count);
        offer_frame(1);
        finish_arrivals();
    }
    x_write(NIC_PBA, 2);
    for (int n = 0; n < 3 && is_ok(); n++) {
        arrive(6);
        arrive(3);
        offer_frame(3);
        finish_arrivals();
    }
}

/* The test `cuts`: the handler cuts in, and sends an answer to each received frame */

static void send_answer(uint8_t *frame, unsigned size)
{
    uint8_t answer[MOST_SLOTS * RX_BUFFER];

    memcpy(answer, frame, size);
    memcpy(answer, frame + 6, 6), memcpy(answer + 6, frame, 6);
    answer[12] = 0x88, answer[13] = 0xB6;
    if (send(answer, size))
        t->answers[t->answer_count++] = known_of(answer, size);
}

static bool has(const struct known *list, unsigned count, struct known one)
{
    while (count-- && (list[count].hash != one.hash || list[count].length != one.length))
        ;
    return count + 1;
}

/* Settles until nothing happens and the handler sends no answer, at most PATIENCE times. Then compares the answers and
 * the test's own frames apart, since they may be mixed on the wire. */
static void finish_answers(void)
{
    struct known put[MOST], own[MOST], other[MOST];
    unsigned own_count = 0, other_count = 0, count;

    for (int n = 0; n < PATIENCE && is_ok(); n++) {
        unsigned before = t->answer_count;
        if (x_settle() == 0 && t->answer_count == before)
            break;
    }
    count = wire(put);
    for (unsigned n = 0; n < count; n++)
        if (has(t->answers, t->answer_count, put[n]))
            other[other_count++] = put[n];
        else
            own[own_count++] = put[n];
    compare("received", t->came, t->came_count, t->received, t->received_count);
    compare("sent", t->out, t->sent_count, own, own_count);
    compare("sent as an answer", t->answers, t->answer_count, other, other_count);
    forget();
}

static void cuts(void)
{
    t->receiver = send_answer;
    x_handler(handle);
    for (int count = 1; count <= 6 && is_ok(); count++) {
        uint8_t frame[LONGEST_FRAME];
        arrive(count);
        move(count);
        for (int n = 0; n < 2 && is_ok(); n++) {
            unsigned length = make(frame, false, n ? 7 - count : 1);
            send_frame(frame, length);
        }
        if (is_ok())
            finish_answers();
    }
}

/* The test `stages` */

static void work_is_left(void)
{
    for (int count = 1; count <= 6 && is_ok(); count++) {
        arrive(1);
        x_settle();
        arrive(count);
        if (count % 2)
            move(count);
        finish();
    }
}

static void receive_ring_is_dry(void)
{
    static const int slots[] = { 1, 2, 3, 4, 5, 6, 1, 1, 1, 1, 1, 1 };

    for (unsigned n = 0; n < sizeof slots / sizeof *slots && is_ok(); n++)
        arrive(slots[n]);
    if (is_ok()) {
        x_settle();
        finish();
    }
}

/* Sends a frame until the driver accepts it. */
static void send_at_last(int slots)
{
    uint8_t frame[LONGEST_FRAME];
    unsigned length = make(frame, false, slots);

    for (int n = 0; n < PATIENCE && is_ok(); n++) {
        handle();
        if (!is_ok() || send_frame(frame, length))
            return;
        x_step(NIC_TXTAKE);
        x_step(NIC_TXPUT);
    }
    fail("a frame was rejected %u times", PATIENCE, 0, 0);
}

static void transmit_ring_is_full(void)
{
    static const int slots[] = { 1, 2, 3, 4, 5, 6, 1, 2, 3 };
    uint8_t frame[LONGEST_FRAME];
    bool is_full = false;

    for (int n = 0; n < 8 && is_ok() && !is_full; n++) {
        unsigned length = make(frame, false, 1 + n % 6);
        is_full = !send_frame(frame, length);
    }
    for (unsigned n = 0; n < sizeof slots / sizeof *slots && is_ok(); n++)
        send_at_last(slots[n]);
    if (is_ok())
        finish();
}

static void stages(void)
{
    work_is_left();
    if (is_ok())
        receive_ring_is_dry();
    if (is_ok())
        transmit_ring_is_full();
}

/* The test `exchange`: frames arrive and are sent, and then some are sent without a pause */

static void exchange(void)
{
    static const unsigned lengths[] = { 60, 257, 1518, 60, 256, 1518 };
    uint8_t frame[LONGEST_FRAME];

    for (int n = 0; n < 6 && is_ok(); n++) {
        arrive_long(lengths[2 * n % 6]);
        send_frame(frame, make_long(frame, false, lengths[n]));
        x_settle();
        arrive_long(lengths[(2 * n + 1) % 6]);
        handle();
        x_settle();
        handle();
        compare_both();
        forget();
    }
    for (int n = 6; n < 14 && is_ok(); n++)
        send_frame(frame, make_long(frame, false, lengths[n % 6]));
    if (!is_ok())
        return;
    x_settle();
    handle();
    compare_both();
    forget();
}

static void play(const char *name)
{
    if (!strchr(name, ':'))
        stages();
    else if (*name == 'o')
        offers();
    else if (*name == 'e')
        exchange();
    else
        cuts();
}

static void begin(void)
{
    t->receive_at = t->transmit_at = t->number = 0, t->sent = 0, t->free = SLOTS - 1;
    for (unsigned n = 0; n < SLOTS; n++)
        t->buffers[n] = n;
    for (unsigned n = 0; n < SPARE; n++)
        t->pool[n] = SLOTS + n;
    bring_up();
}

/* Receives and sends frames until both rings are at slot 0 and the driver has taken back what it sent. So all runs come
 * to the same slots, and to the same number of free ones. */
static void meet(void)
{
    x_handler(NULL);
    t->receiver = NULL;
    while (t->receive_at && is_ok()) {
        arrive(1);
        x_settle();
        finish();
    }
    do {
        send_at_last(1);
        x_settle();
        finish();
    } while (t->transmit_at && is_ok());
    t->number = 0;
}

static const char *test(void *word)
{
    const char *name = word, *driver;
    int times = *name > '0' && *name <= '9' ? *name++ - '0' : 1;
    bool begins_again = *name == ',' && name++, meets = *name == '.' && name++;

    driver = strchr(name, ':') ? strchr(name, ':') + 1 : name;
    t = x_memory(sizeof *t);
    while (t->bug < BUGS && strcmp(driver, driver_names[t->bug]))
        t->bug++;
    if (t->bug == BUGS)
        return "there is no such driver";
    begin();
    while (is_ok()) {
        play(name);
        if (--times == 0)
            break;
        if (begins_again && is_ok())
            begin();
        if (meets && is_ok())
            meet();
    }
    return t->fault;
}

int main(int count, char **words)
{
    static char right[] = "right";

    return nic82540em_explore(count, words, test, count > 1 && words[1][0] != '-' ? words[1] : right);
}
