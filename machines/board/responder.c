#include "responder.h"

#include <stdbool.h>
#include <string.h>

#include "../shared/rounds.h"
#include "adapter.h"
#include "internet_checksum.h"
#include "wire.h"

/* Places of fields in a frame */
enum {
    DESTINATION = 0,
    SOURCE = 6,
    TYPE = 12,
    ARP_OPERATION = 20,
    ARP_SENDER = 22, /* Ethernet address, then IP address; the target's follow */
    ARP_TARGET = 32,
    ARP_TARGET_IP = 38,
    ARP_END = 42,
    IP = 14,
    IP_LENGTH = 16,
    IP_FRAGMENT = 20,
    IP_PROTOCOL = 23,
    IP_CHECKSUM = 24,
    IP_SOURCE = 26,
    IP_DESTINATION = 30,
    IP_END = 34,
    ICMP_TYPE = 34,
    ICMP_CHECKSUM = 36,
    UDP_SOURCE = 34,
    UDP_DESTINATION = 36,
    UDP_LENGTH = 38,
    UDP_CHECKSUM = 40,
    DATA = 42
};

enum {
    TYPE_IP = 0x0800,
    TYPE_ARP = 0x0806,
    TYPE_IPV6 = 0x86DD,
    ICMP = 1,
    UDP = 17,
    REQUEST = 1,
    REPLY = 2,
    ECHO = 8,
    FRAGMENT_OFFSET = 0x1FFF
};

static const uint8_t own_address[6] = { 2, 0, 0, 0, 0, 2 }, own_ip[4] = { 10, 0, 0, 2 };

static uint32_t get16(const uint8_t *bytes)
{
    return (uint32_t)bytes[0] << 8 | bytes[1];
}

static void put16(uint8_t *bytes, uint32_t value)
{
    bytes[0] = (uint8_t)(value >> 8);
    bytes[1] = (uint8_t)value;
}

static void swap(uint8_t *one, uint8_t *other, uint32_t size)
{
    uint8_t kept[16];

    memcpy(kept, one, size);
    memcpy(one, other, size);
    memcpy(other, kept, size);
}

static void answer_arp(uint8_t *frame)
{
    if (get16(frame + ARP_OPERATION) != REQUEST || memcmp(frame + ARP_TARGET_IP, own_ip, 4) != 0)
        return;
    memcpy(frame + DESTINATION, frame + SOURCE, 6);
    memcpy(frame + SOURCE, own_address, 6);
    put16(frame + ARP_OPERATION, REPLY);
    swap(frame + ARP_SENDER, frame + ARP_TARGET, 10);
    memcpy(frame + ARP_SENDER, own_address, 6);
    wire_receive(frame, ARP_END, 0);
}

/* What an Internet checksum becomes after a word that it covers has become smaller by `less` (RFC 1624). */
static uint32_t adjusted(uint32_t checksum, uint32_t less)
{
    uint32_t sum = checksum + less;

    return (sum & 0xFFFF) + (sum >> 16);
}

/* Answers an echo request, or its first fragment: its type becomes that of a reply. */
static void answer_echo(uint8_t *frame, uint32_t size)
{
    if (frame[ICMP_TYPE] != ECHO)
        return;
    frame[ICMP_TYPE] = 0;
    put16(frame + ICMP_CHECKSUM, adjusted(get16(frame + ICMP_CHECKSUM), ECHO << 8));
    wire_receive(frame, size, 0);
}

/* The sum over the pseudo header of UDP. */
static uint32_t pseudo_sum(const uint8_t *frame)
{
    return UDP + get16(frame + UDP_LENGTH) + (uint16_t)~internet_checksum(frame + IP_SOURCE, 8, 0);
}

/* Whether the checksums and the bytes of a round's request are right. */
static bool is_right(const uint8_t *frame, uint32_t size, const struct round_header *header)
{
    uint32_t data = size - DATA;
    bool right = get16(frame + UDP_LENGTH) == size - UDP_SOURCE && internet_checksum(frame + IP, IP_END - IP, 0) == 0;

    right = right && internet_checksum(frame + UDP_SOURCE, size - UDP_SOURCE, pseudo_sum(frame)) == 0;
    right = right && data == data_size(header->round, header->number);
    for (uint32_t place = sizeof *header; right && place < data; place++)
        right = frame[DATA + place] == data_byte(header->round, header->number, place);
    return right;
}

/* Sends reply `number` to a request of a round, in which addresses and ports are swapped already. */
static void send_reply(const uint8_t *request, const struct round_header *asked, uint32_t number)
{
    struct round_header header = { asked->round, number, asked->number, 0 };
    uint32_t data = data_size(asked->round, number), size = DATA + data;
    uint8_t frame[FRAME_BYTES];

    memcpy(frame, request, DATA);
    put16(frame + IP_LENGTH, size - IP);
    put16(frame + IP_CHECKSUM, 0);
    put16(frame + IP_CHECKSUM, internet_checksum(frame + IP, IP_END - IP, 0));
    put16(frame + UDP_LENGTH, size - UDP_SOURCE);
    put16(frame + UDP_CHECKSUM, 0);
    memcpy(frame + DATA, &header, sizeof header);
    for (uint32_t place = sizeof header; place < data; place++)
        frame[DATA + place] = data_byte(asked->round, number, place);
    uint32_t sum = internet_checksum(frame + UDP_SOURCE, size - UDP_SOURCE, pseudo_sum(frame));
    put16(frame + UDP_CHECKSUM, sum ? sum : 0xFFFF);
    wire_receive(frame, size, number + 1);
}

static bool answer_round(const uint8_t *frame, uint32_t size)
{
    struct round_header header;

    if (size < DATA + sizeof header)
        return false;
    memcpy(&header, frame + DATA, sizeof header);
    if (!is_right(frame, size, &header))
        return false;
    for (uint32_t number = 0; number < header.replies && number < MOST_REPLIES; number++)
        send_reply(frame, &header, header.first + number);
    return true;
}

static bool answer_udp(uint8_t *frame, uint32_t size)
{
    swap(frame + UDP_SOURCE, frame + UDP_DESTINATION, 2);
    if (get16(frame + UDP_SOURCE) == ROUND_PORT)
        return answer_round(frame, size);
    wire_receive(frame, size, 0);
    return true;
}

static bool answer_ip(uint8_t *frame, uint32_t size)
{
    uint32_t end = IP + get16(frame + IP_LENGTH);

    if (frame[IP] != 0x45 || memcmp(frame + IP_DESTINATION, own_ip, 4) != 0 || end > size || end < IP_END)
        return true; /* for another host, or with options */
    memcpy(frame + DESTINATION, frame + SOURCE, 6);
    memcpy(frame + SOURCE, own_address, 6);
    swap(frame + IP_SOURCE, frame + IP_DESTINATION, 4);
    if (get16(frame + IP_FRAGMENT) & FRAGMENT_OFFSET)
        wire_receive(frame, end, 0); /* the head of the datagram is in the first fragment */
    else if (frame[IP_PROTOCOL] == ICMP && end >= DATA)
        answer_echo(frame, end);
    else if (frame[IP_PROTOCOL] == UDP && end >= DATA)
        return answer_udp(frame, end);
    return true;
}

bool responder_answer(const uint8_t *sent, uint32_t size)
{
    uint8_t frame[FRAME_BYTES];

    if (size < ARP_END || size > sizeof frame)
        return false;
    memcpy(frame, sent, size);
    if (get16(frame + TYPE) == TYPE_IP)
        return answer_ip(frame, size);
    if (get16(frame + TYPE) == TYPE_ARP)
        answer_arp(frame);
    return get16(frame + TYPE) == TYPE_ARP || get16(frame + TYPE) == TYPE_IPV6;
}
