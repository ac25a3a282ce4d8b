/* Bytes by TCP. */
#include <stdio.h>
#include <string.h>
#include <sys/socket.h>
#include <unistd.h>

#include "traffic.h"

enum { BLOCK = 1 << 16, SECONDS = 20, MEGABYTE = 1000000 };

static uint8_t block[BLOCK];

static void report_progress(uint64_t before, uint64_t after, uint64_t all)
{
    enum { STEP = 5 * MEGABYTE };

    if (before / STEP != after / STEP)
        fprintf(stderr, TO_USER "progress %llu of %llu MB\n", (unsigned long long)after / MEGABYTE,
                (unsigned long long)all / MEGABYTE);
}

static size_t fill(uint64_t from, uint64_t left)
{
    size_t size = left < BLOCK ? left : BLOCK;

    for (size_t place = 0; place < size; place++)
        block[place] = pattern(from + place);
    return size;
}

uint64_t send_pattern(int socket, uint64_t bytes, bool reports)
{
    uint64_t sent = 0;

    while (sent < bytes) {
        ssize_t count = write(socket, block, fill(sent, bytes - sent));

        if (count <= 0)
            break;
        sent += count;
        if (reports)
            report_progress(sent - count, sent, bytes);
    }
    return sent;
}

static uint64_t right_bytes(uint64_t from, size_t size)
{
    uint64_t right = 0;

    for (size_t place = 0; place < size; place++)
        right += block[place] == pattern(from + place);
    return right;
}

uint64_t receive_pattern(int socket, uint64_t bytes, uint64_t *right, bool reports)
{
    uint64_t received = 0;

    *right = 0;
    while (received < bytes) {
        ssize_t count = read(socket, block, bytes - received < BLOCK ? bytes - received : BLOCK);

        if (count <= 0)
            break;
        *right += right_bytes(received, count);
        received += count;
        if (reports)
            report_progress(received - count, received, bytes);
    }
    return received;
}

int transfer(const char *host, bool puts, uint64_t bytes)
{
    struct sockaddr_in address = address_of(host, TRAFFIC_PORT);
    struct transfer asked = { puts, bytes };
    int socket = open_socket(SOCK_STREAM, SECONDS);
    uint64_t right = 0;
    double begun = now();

    if (connect(socket, (struct sockaddr *)&address, sizeof address)) {
        perror("connect");
        return 1;
    }
    if (write(socket, &asked, sizeof asked) != sizeof asked)
        perror("write");
    if (!puts)
        receive_pattern(socket, bytes, &right, true);
    else if (send_pattern(socket, bytes, true) != bytes || read(socket, &right, sizeof right) != sizeof right)
        perror("put");
    printf("%s %.1f MB, %.1f MB/s; ", puts ? "sent" : "received", right / 1e6, right / (now() - begun) / MEGABYTE);
    return right != bytes;
}
