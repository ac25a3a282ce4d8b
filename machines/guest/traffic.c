/* UDP and TCP traffic with each byte compared, and rounds of a sweep. One program for the guest and for the wire's
 * other end.
 *
 *   traffic serve                      at the other end: echoes UDP, takes and sends bytes by TCP, sends to groups
 *   traffic udp HOST COUNT             COUNT datagrams of each size, each of which must come back
 *   traffic put|get HOST BYTES         BYTES by TCP
 *   traffic groups HOST                datagrams to a group that is joined, and to one that isn't
 *   traffic rounds HOST INTERFACE FIRST LAST STOP APART
 *                                      rounds FIRST to LAST; ends after STOP rounds have failed; with APART 1, the
 *                                      interface is taken down and up before each round
 */
#include "traffic.h"

#include <arpa/inet.h>
#include <stdio.h>
#include <stdlib.h>
#include <string.h>
#include <sys/socket.h>
#include <sys/time.h>
#include <time.h>

struct sockaddr_in address_of(const char *host, uint16_t port)
{
    struct sockaddr_in address = { .sin_family = AF_INET, .sin_port = htons(port) };

    inet_aton(host, &address.sin_addr);
    return address;
}

int open_socket(int type, unsigned seconds)
{
    struct timeval limit = { seconds, 0 };
    int number = socket(AF_INET, type, 0);

    if (number < 0 || setsockopt(number, SOL_SOCKET, SO_RCVTIMEO, &limit, sizeof limit) ||
        setsockopt(number, SOL_SOCKET, SO_SNDTIMEO, &limit, sizeof limit)) {
        perror("socket");
        exit(1);
    }
    return number;
}

double now(void)
{
    struct timespec time;

    clock_gettime(CLOCK_MONOTONIC, &time);
    return time.tv_sec + time.tv_nsec / 1e9;
}

void pause_for(unsigned microseconds)
{
    struct timespec time = { microseconds / 1000000, microseconds % 1000000 * 1000 };

    nanosleep(&time, NULL);
}

static bool is(const char *word, const char *name, int count, int wanted)
{
    return strcmp(word, name) == 0 && count == wanted;
}

int main(int count, char **words)
{
    const char *word = count > 1 ? words[1] : "";

    if (is(word, "serve", count, 2))
        return serve();
    if (is(word, "udp", count, 4))
        return datagrams(words[2], (unsigned)atoi(words[3]));
    if (is(word, "put", count, 4) || is(word, "get", count, 4))
        return transfer(words[2], word[0] == 'p', strtoull(words[3], NULL, 0));
    if (is(word, "groups", count, 3))
        return groups(words[2]);
    if (is(word, "rounds", count, 8))
        return rounds(words[2], words[3], words + 4);
    fputs("usage: traffic serve | udp HOST COUNT | put|get HOST BYTES | groups HOST |"
          " rounds HOST INTERFACE FIRST LAST STOP APART\n",
          stderr);
    return 2;
}
