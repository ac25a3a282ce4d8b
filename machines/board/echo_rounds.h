/* Rounds of a sweep without a program in the guest. The wire's other end sends ICMP echo requests, of drawn number and
 * sizes, to 10.0.0.1 and judges the replies. So every driver can be swept whose host answers pings. Waits are counted
 * in points (`echo_point`), not in time. */
#ifndef ECHO_ROUNDS_H
#define ECHO_ROUNDS_H

#include <stdbool.h>
#include <stdint.h>

/* Rounds from `first` to `last`, of at most `most` requests, until `stop` rounds have failed. */
struct echo_options {
    uint32_t seed, first, last, most, stop;
};

void echo_start(const struct echo_options *options);

/* Where the driver is: at an access of a register, or at an access of a ring at which the plugin asks. */
enum echo_point { AT_ECHO_REGISTER, AT_ECHO_MEMORY };
void echo_point(enum echo_point point);

/* Notes that the driver resets the adapter: frames may be lost in this round. */
void echo_reset(void);

/* Takes a frame of the guest, as the wire's other end. Returns false for a wrong reply. */
bool echo_answer(const uint8_t *frame, uint32_t size);

/* Whether the last round was judged, or `stop` rounds have failed. */
bool echo_is_over(void);

/* Prints the counts. */
void echo_end(void);

#endif
