/* A host on DPDK's driver for the adapter: it has the address 10.0.0.1, and answers ARP and pings.
 *
 *   host EAL-WORDS.. -- PINGS
 *
 * It sends PINGS pings to 10.0.0.2, with 0 to 1,472 bytes of data, and ends when all are answered, or when no reply
 * comes for 30 seconds. With 0 it only answers, and doesn't end. Lines that begin with `> ` are for the script that
 * started the guest.
 */
#include <rte_cycles.h>
#include <rte_eal.h>
#include <rte_ethdev.h>
#include <rte_mbuf.h>
#include <stdbool.h>
#include <stdio.h>
#include <stdlib.h>
#include <string.h>

enum {
    RING = 64,
    BUFFERS = 1023,
    BURST = 32,
    LINK_TRIES = 50,
    SEND_TRIES = 100000,
    IN_FLIGHT = 8, /* pings without a reply */
    PATIENCE = 30, /* seconds without a reply */
    MOST_DATA = 1472,
    SHORTEST = 60
};

/* Places in a frame */
enum { TYPE = 12, IP = 14, LENGTH = 16, PROTOCOL = 23, IP_SUM = 24, SOURCE_IP = 26, TARGET_IP = 30 };
enum { ICMP = 34, DATA = 42 };
enum { ARP_OPERATION = 20, ARP_SENDER = 22, ARP_TARGET = 32, ARP_TARGET_IP = 38, ARP_END = 42 };
enum { ECHO = 8, REPLY = 0, ICMP_PROTOCOL = 1, TYPE_IP = 0x0800, TYPE_ARP = 0x0806 };

static const uint8_t own[6] = { 2, 0, 0, 0, 0, 1 }, other[6] = { 2, 0, 0, 0, 0, 2 };
static const uint8_t own_ip[4] = { 10, 0, 0, 1 }, other_ip[4] = { 10, 0, 0, 2 };

static struct rte_mempool *pool;
static struct {
    uint64_t received, sent, echoed, right, wrong;
} counts;

static unsigned get16(const uint8_t *bytes)
{
    return (unsigned)bytes[0] << 8 | bytes[1];
}

static void put16(uint8_t *bytes, unsigned value)
{
    bytes[0] = (uint8_t)(value >> 8);
    bytes[1] = (uint8_t)value;
}

/* The Internet checksum of some bytes (RFC 1071): 0 if they contain their right checksum. */
static unsigned checksum(const uint8_t *bytes, unsigned size)
{
    uint32_t sum = size & 1 ? (uint32_t)bytes[size - 1] << 8 : 0;

    for (unsigned at = 0; at + 1 < size; at += 2)
        sum += get16(bytes + at);
    while (sum >> 16)
        sum = (sum & 0xFFFF) + (sum >> 16);
    return ~sum & 0xFFFF;
}

static void transmit(struct rte_mbuf *buffer)
{
    for (int left = SEND_TRIES; left > 0; left--)
        if (rte_eth_tx_burst(0, 0, &buffer, 1) == 1) {
            counts.sent++;
            return;
        }
    printf("> failed transmit: the ring is full\n");
    rte_pktmbuf_free(buffer);
}

static unsigned data_of(unsigned number)
{
    return number * 97 % (MOST_DATA + 1);
}

static uint8_t byte_of(unsigned number, unsigned place)
{
    return (uint8_t)(place * 7 + number);
}

static void ping(unsigned number)
{
    struct rte_mbuf *buffer = rte_pktmbuf_alloc(pool);
    unsigned data = data_of(number), size = DATA + data, room = size < SHORTEST ? SHORTEST : size;
    uint8_t *frame = (uint8_t *)rte_pktmbuf_append(buffer, (uint16_t)room);

    memset(frame, 0, room);
    memcpy(frame, other, sizeof other);
    memcpy(frame + sizeof other, own, sizeof own);
    put16(frame + TYPE, TYPE_IP);
    frame[IP] = 0x45;
    put16(frame + LENGTH, size - IP);
    frame[PROTOCOL - 1] = 64;
    frame[PROTOCOL] = ICMP_PROTOCOL;
    memcpy(frame + SOURCE_IP, own_ip, sizeof own_ip);
    memcpy(frame + TARGET_IP, other_ip, sizeof other_ip);
    put16(frame + IP_SUM, checksum(frame + IP, ICMP - IP));
    frame[ICMP] = ECHO;
    put16(frame + ICMP + 6, number);
    for (unsigned place = 0; place < data; place++)
        frame[DATA + place] = byte_of(number, place);
    put16(frame + ICMP + 2, checksum(frame + ICMP, size - ICMP));
    transmit(buffer);
}

static void note_reply(const uint8_t *frame, unsigned size)
{
    unsigned number = get16(frame + ICMP + 6), data = data_of(number);
    bool right = size >= DATA + data && get16(frame + LENGTH) == DATA - IP + data &&
                 checksum(frame + IP, ICMP - IP) == 0 && checksum(frame + ICMP, DATA - ICMP + data) == 0;

    for (unsigned place = 0; right && place < data; place++)
        right = frame[DATA + place] == byte_of(number, place);
    counts.right += right;
    counts.wrong += !right;
}

/* Sends a frame back to its sender. */
static void turn(struct rte_mbuf *buffer, uint8_t *frame)
{
    memcpy(frame, frame + sizeof own, sizeof own);
    memcpy(frame + sizeof own, own, sizeof own);
    transmit(buffer);
}

static void answer_arp(struct rte_mbuf *buffer, uint8_t *frame)
{
    uint8_t asked[10];

    put16(frame + ARP_OPERATION, 2);
    memcpy(asked, frame + ARP_SENDER, sizeof asked);
    memcpy(frame + ARP_SENDER, own, sizeof own);
    memcpy(frame + ARP_SENDER + sizeof own, own_ip, sizeof own_ip);
    memcpy(frame + ARP_TARGET, asked, sizeof asked);
    turn(buffer, frame);
}

static void answer_echo(struct rte_mbuf *buffer, uint8_t *frame, unsigned size)
{
    unsigned end = IP + get16(frame + LENGTH);

    counts.echoed++;
    memcpy(frame + TARGET_IP, frame + SOURCE_IP, sizeof own_ip);
    memcpy(frame + SOURCE_IP, own_ip, sizeof own_ip);
    frame[ICMP] = REPLY;
    put16(frame + ICMP + 2, 0);
    put16(frame + ICMP + 2, checksum(frame + ICMP, end - ICMP));
    rte_pktmbuf_trim(buffer, (uint16_t)(size - end));
    turn(buffer, frame);
}

static void handle(struct rte_mbuf *buffer)
{
    uint8_t *frame = rte_pktmbuf_mtod(buffer, uint8_t *);
    unsigned size = rte_pktmbuf_data_len(buffer), type = size < DATA ? 0 : get16(frame + TYPE);
    bool is_ping = type == TYPE_IP && frame[PROTOCOL] == ICMP_PROTOCOL && IP + get16(frame + LENGTH) <= size;

    counts.received++;
    if (type == TYPE_ARP && get16(frame + ARP_OPERATION) == 1 && !memcmp(frame + ARP_TARGET_IP, own_ip, 4)) {
        answer_arp(buffer, frame);
        return;
    }
    if (is_ping && frame[ICMP] == ECHO && !memcmp(frame + TARGET_IP, own_ip, sizeof own_ip)) {
        answer_echo(buffer, frame, size);
        return;
    }
    if (is_ping && frame[ICMP] == REPLY)
        note_reply(frame, size);
    rte_pktmbuf_free(buffer);
}

/* Starts the adapter, and waits for the link, at most five seconds. Returns whether the link is up. */
static bool start(void)
{
    struct rte_eth_conf none = { 0 };
    struct rte_eth_dev_info info = { 0 };
    struct rte_eth_link link = { 0 };
    uint16_t receive = RING, transmit_size = RING;
    bool started;

    pool = rte_pktmbuf_pool_create("buffers", BUFFERS, BURST, 0, RTE_MBUF_DEFAULT_BUF_SIZE, 0);
    started = pool != NULL && rte_eth_dev_info_get(0, &info) == 0 && rte_eth_dev_configure(0, 1, 1, &none) == 0 &&
              rte_eth_dev_adjust_nb_rx_tx_desc(0, &receive, &transmit_size) == 0 &&
              rte_eth_rx_queue_setup(0, 0, receive, 0, NULL, pool) == 0 &&
              rte_eth_tx_queue_setup(0, 0, transmit_size, 0, NULL) == 0 && rte_eth_dev_start(0) == 0;
    for (int left = LINK_TRIES; started && left > 0 && !link.link_status; left--) {
        rte_eth_link_get_nowait(0, &link);
        rte_delay_ms(100);
    }
    printf("> %s start: driver %s, rings of %u and %u, link %u Mb/s %s duplex\n",
           started && link.link_status ? "passed" : "failed", info.driver_name ? info.driver_name : "none", receive,
           transmit_size, link.link_speed, link.link_duplex ? "full" : "half");
    fflush(stdout);
    return started && link.link_status;
}

static void receive_all(void)
{
    struct rte_mbuf *buffers[BURST];
    uint16_t count = rte_eth_rx_burst(0, 0, buffers, BURST);

    for (uint16_t at = 0; at < count; at++)
        handle(buffers[at]);
}

static void send_pings(unsigned pings)
{
    uint64_t replies = 0, last = rte_get_timer_cycles(), patience = PATIENCE * rte_get_timer_hz();

    for (unsigned sent = 0; replies < pings && rte_get_timer_cycles() - last < patience;) {
        receive_all();
        if (replies != counts.right + counts.wrong)
            last = rte_get_timer_cycles();
        replies = counts.right + counts.wrong;
        if (sent < pings && sent < replies + IN_FLIGHT)
            ping(sent++);
    }
    printf("> %s ping: %lu of %u replies, %lu wrong\n",
           counts.right == pings && counts.wrong == 0 ? "passed" : "failed", (unsigned long)counts.right, pings,
           (unsigned long)counts.wrong);
}

int main(int count, char **words)
{
    int used = rte_eal_init(count, words);

    if (used < 0 || used + 1 >= count || rte_eth_dev_count_avail() != 1) {
        printf("> failed start: DPDK finds no adapter\n");
        return 1;
    }
    if (!start())
        return 1;
    if (atoi(words[used + 1]) > 0)
        send_pings((unsigned)atoi(words[used + 1]));
    else
        for (;;)
            receive_all();
    rte_eth_dev_stop(0);
    rte_eth_dev_close(0);
    return 0;
}
