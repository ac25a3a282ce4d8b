/* Parts of the test program. */
#ifndef TRAFFIC_H
#define TRAFFIC_H

#include <netinet/in.h>
#include <stdbool.h>
#include <stdint.h>

/* How lines begin that are for the script that started the guest (init). */
#define TO_USER "> "

enum { TRAFFIC_PORT = 7, GROUP_PORT = 8 };

/* The multicast group of the stage `groups`, and another one. */
#define GROUP "239.1.2.3"
#define OTHER_GROUP "239.4.5.6"

/* A byte of a test's data. */
static inline uint8_t pattern(uint64_t place)
{
    return (uint8_t)(place * 7 + (place >> 8) * 13 + (place >> 16));
}

/* What a client asks of the server by TCP: to take bytes and count the right ones, or to send bytes. */
struct transfer {
    uint64_t takes, bytes;
};

struct sockaddr_in address_of(const char *host, uint16_t port);

/* A socket with a limit of time for each call. Ends the program if the socket can't be made. */
int open_socket(int type, unsigned seconds);

/* Monotonic time in seconds; and a pause in microseconds. */
double now(void);
void pause_for(unsigned microseconds);

/* Writes and reads bytes of the pattern over TCP. Both return the number of bytes; the second one counts the right
 * ones. */
uint64_t send_pattern(int socket, uint64_t bytes, bool reports);
uint64_t receive_pattern(int socket, uint64_t bytes, uint64_t *right, bool reports);

/* The commands. Each returns the exit status. */
int serve(void);
int datagrams(const char *host, unsigned count);
int transfer(const char *host, bool puts, uint64_t bytes);
int groups(const char *host);
int rounds(const char *host, const char *interface, char **numbers);

#endif
