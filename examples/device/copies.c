/* A driver of the copier, which sleeps until its copies are done, and its test.
 *
 *     ./copies right --explore every
 *
 * The other drivers have a bug each:
 *
 *     tail    writes TAIL before the descriptor is stored
 *     late    its handler looks at the descriptors before it reads CAUSE
 *     head    takes a copy for done when HEAD has passed its slot
 */
#include "copier.h"
#include <string.h>

enum { FROM = 0x4000, TO = 0x8000, SIZE = 64, SLOTS = 4, COPIES = 3 };

static struct driver {
    bool writes_tail_first, looks_first, trusts_head;
    unsigned next, done; /* slots: of the next copy, and of the oldest one that isn't done */
    unsigned waits;      /* copies that were begun and aren't done */
} my;

static uint32_t slot_at(unsigned slot)
{
    return COPIER_RING + (uint32_t)sizeof(struct copier_descriptor) * slot;
}

static void bring_up(void)
{
    x_write(COPIER_CONTROL, COPIER_RESET);
    x_write(COPIER_BASE, COPIER_RING), x_write(COPIER_SLOTS, SLOTS);
    x_write(COPIER_MASK, COPIER_DONE | COPIER_BAD);
    x_write(COPIER_CONTROL, COPIER_ENABLE);
}

static void begin_copy(uint32_t from, uint32_t to, uint32_t length)
{
    struct copier_descriptor one = { from, to, length, 0 };
    unsigned slot = my.next;

    my.next = (my.next + 1) % SLOTS;
    if (my.writes_tail_first)
        x_write(COPIER_TAIL, my.next);
    x_store(slot_at(slot), &one, sizeof one);
    my.waits++;
    if (!my.writes_tail_first)
        x_write(COPIER_TAIL, my.next);
}

static bool is_done(unsigned slot)
{
    uint32_t status;

    if (my.trusts_head)
        return x_read(COPIER_HEAD) != slot;
    x_load(slot_at(slot) + offsetof(struct copier_descriptor, status), &status, sizeof status);
    return status & COPIER_DONE;
}

static void take_done(void)
{
    for (; my.waits && is_done(my.done); my.waits--)
        my.done = (my.done + 1) % SLOTS;
}

static void interrupt(void)
{
    if (my.looks_first) {
        take_done();
        x_read(COPIER_CAUSE);
    } else {
        x_read(COPIER_CAUSE); /* first: a copy that is done later raises the line again */
        take_done();
    }
}

static const char *compare(void)
{
    uint8_t bytes[SIZE];

    for (unsigned n = 0; n < COPIES; n++) {
        x_load(TO + SIZE * n, bytes, SIZE);
        for (unsigned at = 0; at < SIZE; at++)
            if (bytes[at] != n + 1)
                return "a copy is called done, and its bytes aren't there";
    }
    return NULL;
}

static const char *test(void *word)
{
    uint8_t bytes[SIZE];

    my = (struct driver){ !strcmp(word, "tail"), !strcmp(word, "late"), !strcmp(word, "head"), 0, 0, 0 };
    bring_up();
    x_handler(interrupt);
    for (unsigned n = 0; n < COPIES; n++) {
        memset(bytes, (int)n + 1, SIZE);
        x_store(FROM + SIZE * n, bytes, SIZE);
        begin_copy(FROM + SIZE * n, TO + SIZE * n, SIZE);
    }
    while (my.waits && x_settle())
        ;
    return my.waits ? "the driver sleeps, and a copy is done" : compare();
}

int main(int count, char **words)
{
    x_use(&copier);
    return nic82540em_explore(count, words, test, count > 1 ? words[1] : "right");
}
