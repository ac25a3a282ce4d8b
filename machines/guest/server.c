/* The other end, on this host's side of the wire. */
#include <arpa/inet.h>
#include <poll.h>
#include <stdio.h>
#include <stdlib.h>
#include <signal.h>
#include <sys/prctl.h>
#include <sys/socket.h>
#include <unistd.h>

#include "traffic.h"

enum { SECONDS = 20 };

static int bound(int type, uint16_t port)
{
    struct sockaddr_in address = { .sin_family = AF_INET, .sin_port = htons(port) };
    int number = open_socket(type, SECONDS), yes = 1;

    setsockopt(number, SOL_SOCKET, SO_REUSEADDR, &yes, sizeof yes);
    if (bind(number, (struct sockaddr *)&address, sizeof address) || (type == SOCK_STREAM && listen(number, 4))) {
        perror("serve");
        exit(1);
    }
    return number;
}

/* Sends a datagram back. `group` is the group to which a datagram goes instead, or NULL. */
static void echo(int socket, const char *group)
{
    static uint8_t data[1 << 16];
    struct sockaddr_in from;
    socklen_t size = sizeof from;
    ssize_t count = recvfrom(socket, data, sizeof data, 0, (struct sockaddr *)&from, &size);

    if (group != NULL) {
        struct in_addr interface = address_of("10.0.0.2", 0).sin_addr;

        setsockopt(socket, IPPROTO_IP, IP_MULTICAST_IF, &interface, sizeof interface);
        from = address_of(group, GROUP_PORT);
    }
    if (count >= 0)
        sendto(socket, data, count, 0, (struct sockaddr *)&from, sizeof from);
}

static void take(int listener)
{
    int connection = accept(listener, NULL, NULL);
    struct transfer asked;
    uint64_t right = 0;

    if (connection < 0)
        return;
    if (read(connection, &asked, sizeof asked) != sizeof asked)
        perror("serve");
    else if (!asked.takes)
        send_pattern(connection, asked.bytes, false);
    else if (receive_pattern(connection, asked.bytes, &right, false) != asked.bytes ||
             write(connection, &right, sizeof right) < 0)
        perror("serve");
    close(connection);
}

int serve(void)
{
    struct pollfd waits[] = {
        { bound(SOCK_DGRAM, TRAFFIC_PORT), POLLIN, 0 },
        { bound(SOCK_STREAM, TRAFFIC_PORT), POLLIN, 0 },
        { bound(SOCK_DGRAM, GROUP_PORT), POLLIN, 0 },
        { bound(SOCK_DGRAM, GROUP_PORT + 1), POLLIN, 0 },
    };

    prctl(PR_SET_PDEATHSIG, SIGTERM); /* this process ends when the board ends */
    for (;;) {
        poll(waits, sizeof waits / sizeof *waits, -1);
        if (waits[0].revents)
            echo(waits[0].fd, NULL);
        if (waits[1].revents)
            take(waits[1].fd);
        if (waits[2].revents)
            echo(waits[2].fd, GROUP);
        if (waits[3].revents)
            echo(waits[3].fd, OTHER_GROUP);
    }
}
