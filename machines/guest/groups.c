/* Multicast: what the other end sends to a group must come while the group is joined, and mustn't otherwise. */
#include <arpa/inet.h>
#include <stdio.h>
#include <string.h>
#include <sys/socket.h>
#include <unistd.h>

#include "traffic.h"

enum { COUNT = 20, SECONDS = 1 };

/* Asks the other end for datagrams to a group. */
static void ask(int asker, const char *host, uint16_t port)
{
    struct sockaddr_in address = address_of(host, port);

    for (uint8_t number = 0; number < COUNT; number++) {
        sendto(asker, &number, 1, 0, (struct sockaddr *)&address, sizeof address);
        pause_for(1000);
    }
}

/* Asks for datagrams, and returns how many of them come. */
static unsigned received(int listener, int asker, const char *host, uint16_t port)
{
    uint8_t data[64];
    unsigned count = 0;

    ask(asker, host, port);
    while (count < COUNT && read(listener, data, sizeof data) == 1)
        count++;
    return count;
}

static void change_membership(int socket, int change)
{
    struct ip_mreqn group = { .imr_ifindex = 0 };

    inet_aton(GROUP, &group.imr_multiaddr);
    inet_aton("10.0.0.1", &group.imr_address);
    if (setsockopt(socket, IPPROTO_IP, change, &group, sizeof group))
        perror("group");
}

int groups(const char *host)
{
    struct sockaddr_in any = { .sin_family = AF_INET, .sin_port = htons(GROUP_PORT) };
    int listener = open_socket(SOCK_DGRAM, SECONDS), asker = open_socket(SOCK_DGRAM, SECONDS);
    unsigned before, joined, other, after;

    if (bind(listener, (struct sockaddr *)&any, sizeof any)) {
        perror("groups");
        return 1;
    }
    before = received(listener, asker, host, GROUP_PORT);
    change_membership(listener, IP_ADD_MEMBERSHIP);
    joined = received(listener, asker, host, GROUP_PORT);
    other = received(listener, asker, host, GROUP_PORT + 1);
    change_membership(listener, IP_DROP_MEMBERSHIP);
    after = received(listener, asker, host, GROUP_PORT);
    printf("%u of %u datagrams to a joined group came, %u of %u others", joined, COUNT, before + other + after,
           3 * COUNT);
    return joined != COUNT || before + other + after != 0;
}
