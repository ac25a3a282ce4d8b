/* Explores the schedules of the driver in pointers.c.
 *
 * usage: pointers right|late [OPTION..]
 */
#include "pointers.h"
#include <nic82540em_explore.h>
#include <string.h>

enum { ROUNDS = 6, SIZE = 60 };
static struct all {
    struct receiver receiver;
    unsigned arrived, count;
    bool is_wrong;
} *t;

uint32_t register_read(uint32_t offset)
{
    return x_read(offset);
}

void register_write(uint32_t offset, uint32_t value)
{
    x_write(offset, value);
}

static void deliver(const uint8_t *frame, unsigned length)
{
    t->is_wrong |= length != SIZE || frame[14] != t->count++;
}

static void arrive(void)
{
    uint8_t frame[SIZE] = { 2, 0, 0, 0, 0, 1, 2, 0, 0, 0, 0, 9, 0x88, 0xB5 };

    frame[14] = (uint8_t)t->arrived++;
    x_arrive(frame, sizeof frame);
}

static const char *receives(void *word)
{
    uint64_t size;

    t = x_memory(sizeof *t);
    t->receiver.is_late = strcmp(word, "late") == 0, t->receiver.deliver = deliver;
    receiver_begin(&t->receiver, x_host(&size));
    for (int round = 0; round < ROUNDS; round++) {
        arrive(), arrive();
        x_step(NIC_RXDATA), x_step(NIC_RXDONE);
        do
            while (x_line())
                receiver_interrupt(&t->receiver);
        while (x_settle() || x_line());
        if (t->is_wrong)
            return "a frame was received with wrong bytes";
        if (t->count != t->arrived)
            return "a frame was never received";
    }
    return NULL;
}

int main(int count, char **words)
{
    static char right[] = "right";

    return nic82540em_explore(count, words, receives, count > 1 && words[1][0] != '-' ? words[1] : right);
}
