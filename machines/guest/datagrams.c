/* Datagrams by UDP, each of which the other end sends back. */
#include <stdio.h>
#include <string.h>
#include <sys/socket.h>
#include <unistd.h>

#include "traffic.h"

enum { LONGEST = 1472, SECONDS = 2 };

static bool comes_back(int socket, unsigned size, unsigned number)
{
    uint8_t sent[LONGEST], received[LONGEST + 1];

    for (unsigned place = 0; place < size; place++)
        sent[place] = pattern(number * 977ull + place);
    if (write(socket, sent, size) != (ssize_t)size)
        return false;
    return read(socket, received, sizeof received) == (ssize_t)size && memcmp(sent, received, size) == 0;
}

static unsigned exchanged(int socket, unsigned size, unsigned count)
{
    unsigned right = 0;

    for (unsigned number = 0; number < count; number++)
        right += comes_back(socket, size, number);
    return right;
}

int datagrams(const char *host, unsigned count)
{
    static const unsigned sizes[] = { 1, 18, 19, 100, 500, 1000, 1471, 1472 };
    enum { SIZES = sizeof sizes / sizeof *sizes };
    struct sockaddr_in address = address_of(host, TRAFFIC_PORT);
    int socket = open_socket(SOCK_DGRAM, SECONDS);
    unsigned right = 0;
    double begun = now();

    if (connect(socket, (struct sockaddr *)&address, sizeof address)) {
        perror("connect");
        return 1;
    }
    for (unsigned place = 0; place < SIZES; place++)
        right += exchanged(socket, sizes[place], count);
    printf("%u of %u datagrams of %u to %u bytes came back, %.0f a second", right, SIZES * count, sizes[0],
           sizes[SIZES - 1], right / (now() - begun));
    return right != SIZES * count;
}
