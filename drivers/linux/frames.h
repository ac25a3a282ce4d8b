/* Frames of a test: they arrive, and are sent. In the end, what a user would see is compared. */
#ifndef FRAMES_H
#define FRAMES_H
#include "test.h"

/* The numbers of the test's words, and what is left for other actors to do */
extern struct frames {
    unsigned receives, sends, bytes;  /* frames to receive and to send, and their lengths */
    unsigned received, sent, compared; /* frames that were offered and sent, and sent ones that were compared */
    unsigned sends_left, works_left, reads_left; /* what other actors may do */
    bool is_down;                     /* the driver may drop frames that it has not sent */
    bool has_run;                     /* an actor has run since this was cleared */
} frames;

void offer_to(const u8 *address); /* a frame for this address arrives by the schedule */
void offer(void);                 /* a frame for the interface's own address */
bool send(void);                  /* returns false if the queue is stopped */
void freed(unsigned number);      /* the driver frees frame `number`, so it was sent */
/* Lets all actors and the adapter do all their work, and compares all frames. If frames may be lost, some may be missing,
 * but no frame is received twice, with wrong bytes, or in another order. Returns what is wrong, or NULL. */
const char *check(bool may_lose);
const char *fault(void);          /* what is wrong so far, or NULL */
void wait_for_link(void);         /* until the carrier is on, and work that is due is done */

#endif
