/* Rounds of a sweep. A round sends requests by UDP; the wire's other end checks their bytes, and sends the replies
 * that they ask for. Meanwhile the board plays drawn steps. Then the round is judged. */
#include <stdio.h>
#include <stdlib.h>
#include <string.h>
#include <sys/socket.h>

#include "../shared/rounds.h"
#include "interface.h"
#include "traffic.h"

enum {
    SOURCE_PORT = 4000,
    ROOM = 4 << 20, /* bytes of the socket's receive buffer */
    SECONDS = 1,
    REPORT_EVERY = 100, /* rounds */
    /* How long to wait, in milliseconds, if no further reply comes: while steps are drawn, at the end of the round,
     * and for the driver's watchdog, which looks after the rings every 2 seconds. */
    WAIT_DRAWN = 5,
    WAIT_AT_ONCE = 60,
    WAIT_LEFT = 20,
    WAIT_LEFT_AT_ONCE = 400,
    WAIT_WATCHDOG = 5000,
    TRIES = 2000 /* the most tries to send a request while the transmit ring is full */
};

/* How many requests a round sends, and how many replies each request asks for. */
enum style { MANY_REQUESTS, SOME_OF_EACH, MANY_REPLIES, STYLES };

static volatile uint32_t *board;
static int datagram_socket;
static uint32_t seed;

/* The round: its number, what it draws, and what came. */
static struct {
    uint32_t number, drawn, requests, replies;
    uint32_t right, twice, wrong, late;
    uint8_t came[MOST_REPLIES];
} current;

static struct {
    uint64_t rounds, failed, right, missed;
} totals;

static uint32_t reg(uint32_t at)
{
    return board[at / 4];
}

static void set(uint32_t at, uint32_t value)
{
    board[at / 4] = value;
}

static uint32_t draw(uint32_t below)
{
    return mixed(current.number * 7919 + seed, current.drawn++) % below;
}

static bool is_right(const uint8_t *data, uint32_t size, const struct round_header *header)
{
    bool right = header->number < MOST_REPLIES && size == data_size(header->round, header->number);

    for (uint32_t place = sizeof *header; right && place < size; place++)
        right = data[place] == data_byte(header->round, header->number, place);
    return right;
}

/* Notes a reply. A reply of an earlier round doesn't count if its bytes are right. */
static void note(const uint8_t *data, uint32_t size)
{
    struct round_header header = { 0 };

    if (size >= sizeof header)
        memcpy(&header, data, sizeof header);
    if (size < sizeof header || !is_right(data, size, &header)) {
        current.wrong++;
        return;
    }
    if (header.round != current.number)
        return;
    if (current.came[header.number]++)
        current.twice++;
    else
        current.right++;
}

static void receive_all(void)
{
    uint8_t data[2048];
    ssize_t size;

    while ((size = recv(datagram_socket, data, sizeof data, MSG_DONTWAIT)) >= 0)
        note(data, (uint32_t)size);
}

/* Waits until `wanted` right replies have come, or no further one comes for `milliseconds`. Returns whether they have
 * come. The board may play steps at each read of BOARD_POKE. */
static bool wait_for(uint32_t wanted, unsigned milliseconds, unsigned pause)
{
    uint32_t last = current.right;
    double since = now();

    for (;;) {
        reg(BOARD_POKE);
        receive_all();
        if (current.right >= wanted)
            return true;
        if (current.right != last) {
            last = current.right;
            since = now();
        }
        if (now() - since > milliseconds / 1e3)
            return false;
        pause_for(pause);
    }
}

static uint32_t replies_of_request(enum style style)
{
    if (style == MANY_REQUESTS)
        return draw(3);
    return style == SOME_OF_EACH ? 1 + draw(8) : 8 + draw(40);
}

static uint32_t fill(uint8_t *data, const struct round_header *header)
{
    uint32_t size = data_size(header->round, header->number);

    memcpy(data, header, sizeof *header);
    for (uint32_t place = sizeof *header; place < size; place++)
        data[place] = data_byte(header->round, header->number, place);
    return size;
}

static void send_request(uint32_t number, uint32_t replies)
{
    struct round_header header = { current.number, FIRST_REQUEST + number, current.replies, replies };
    uint8_t data[MOST_DATA];
    uint32_t size = fill(data, &header);
    int tries = 0;

    while (send(datagram_socket, data, size, MSG_DONTWAIT) != (ssize_t)size && tries++ < TRIES) {
        reg(BOARD_POKE);
        receive_all();
        pause_for(50);
    }
    current.replies += replies;
}

static void send_requests(void)
{
    enum style style = draw(STYLES);

    current.requests = style == MANY_REQUESTS ? 2 + draw(30) : 1 + draw(8);
    for (uint32_t number = 0; number < current.requests; number++) {
        send_request(number, replies_of_request(style));
        if (draw(3) == 0) {
            reg(BOARD_POKE);
            receive_all();
        }
        if (draw(4) == 0)
            pause_for(10 + draw(200));
    }
}

/* The number of the round's replies without those that BOARD_MISSED counts. */
static uint32_t expected(void)
{
    uint32_t missed = reg(BOARD_MISSED);

    return missed < current.replies ? current.replies - missed : 0;
}

static void receive_replies(void)
{
    bool draws = reg(BOARD_DRAWS);
    uint32_t before;

    wait_for(current.replies, draws ? WAIT_DRAWN : WAIT_AT_ONCE, 40);
    set(BOARD_ROUND, 0);
    if (current.right >= expected() || wait_for(expected(), draws ? WAIT_LEFT : WAIT_LEFT_AT_ONCE, 1000))
        return;
    before = current.right;
    wait_for(expected(), WAIT_WATCHDOG, 100000);
    current.late = current.right - before;
}

/* Tells the board which replies didn't come. */
static void report_lost(void)
{
    for (uint32_t number = 0; number < current.replies; number++)
        if (!current.came[number])
            set(BOARD_LOST, number);
}

static uint32_t verdict(void)
{
    bool is_lost = current.right < expected() && reg(BOARD_WRONG) == 0;

    return (current.late ? VERDICT_LATE : 0) | (is_lost ? VERDICT_LOST : 0) | (current.wrong ? VERDICT_BYTES : 0) |
           (current.twice ? VERDICT_TWICE : 0) | (reg(BOARD_WRONG) ? VERDICT_REQUEST : 0) |
           (reg(BOARD_STOPPED) ? VERDICT_FAULT : 0) | (kernel_log_warnings() ? VERDICT_KERNEL : 0);
}

/* Prints what was wrong, and the numbers of requests and replies. */
static void explain(uint32_t found)
{
    static const char *const texts[] = { "replies came only after the watchdog",
                                         "replies were lost",
                                         "replies have wrong bytes",
                                         "replies came twice",
                                         "requests have wrong bytes on the wire",
                                         "an engine of the adapter has stopped",
                                         "the kernel warned" };

    for (unsigned bit = 0; bit < sizeof texts / sizeof *texts; bit++)
        if (found >> bit & 1)
            printf("%s; ", texts[bit]);
    printf("%u requests, %u replies, %u right, %u late, %u missed", current.requests, current.replies, current.right,
           current.late, reg(BOARD_MISSED));
    if (found & VERDICT_KERNEL)
        printf("; the kernel: %s", kernel_log_first());
    printf("\n");
}

static uint32_t play(uint32_t number)
{
    uint32_t found;

    memset(&current, 0, sizeof current);
    current.number = number;
    set(BOARD_ROUND, number);
    send_requests();
    receive_replies();
    found = verdict();
    if (found & VERDICT_LOST)
        report_lost();
    set(BOARD_VERDICT, found);
    return found;
}

/* After a round that has failed: takes the interface down and up, and plays the round again by itself. */
static void play_alone(const char *interface, uint32_t number)
{
    uint32_t found;

    restart_interface(interface);
    kernel_log_skip();
    found = play(number);
    printf(TO_USER "alone: round %u %s", number, found ? "fails: " : "passes\n");
    if (found)
        explain(found);
}

static void open_round_socket(const char *host)
{
    struct sockaddr_in source = { .sin_family = AF_INET, .sin_port = htons(SOURCE_PORT) },
                       to = address_of(host, ROUND_PORT);
    int room = ROOM;

    datagram_socket = open_socket(SOCK_DGRAM, SECONDS);
    if (setsockopt(datagram_socket, SOL_SOCKET, SO_RCVBUFFORCE, &room, sizeof room) ||
        bind(datagram_socket, (struct sockaddr *)&source, sizeof source) ||
        connect(datagram_socket, (struct sockaddr *)&to, sizeof to)) {
        perror("rounds");
        exit(1);
    }
}

static void play_next(const char *interface, uint32_t number, bool apart)
{
    uint32_t found;

    if (apart)
        restart_interface(interface);
    found = play(number);
    totals.rounds++;
    totals.failed += found != 0;
    totals.right += current.right;
    totals.missed += reg(BOARD_MISSED);
    if (found) {
        printf(TO_USER "fails: round %u: ", number);
        explain(found);
        if (!apart)
            play_alone(interface, number);
        restart_interface(interface);
        kernel_log_skip();
    }
    if (number % REPORT_EVERY == 0)
        printf(TO_USER "progress round %u\n", number);
    fflush(stdout);
}

int rounds(const char *host, const char *interface, char **numbers)
{
    uint32_t number = (uint32_t)atoi(numbers[0]), last = (uint32_t)atoi(numbers[1]),
             stop = (uint32_t)atoi(numbers[2]);
    bool apart = atoi(numbers[3]);

    board = board_registers(interface);
    seed = reg(BOARD_ROUND);
    open_round_socket(host);
    kernel_log_start();
    printf(TO_USER "begins\n");
    fflush(stdout);
    for (; number <= last && totals.failed < stop; number++)
        play_next(interface, number, apart);
    printf(TO_USER "rounds %llu played, %llu failed, %llu replies right, %llu missed and counted\n",
           (unsigned long long)totals.rounds, (unsigned long long)totals.failed, (unsigned long long)totals.right,
           (unsigned long long)totals.missed);
    return totals.failed != 0;
}
