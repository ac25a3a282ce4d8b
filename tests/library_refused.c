/* Makes each call of rattle_alloc fail in turn, with a heap in place of heap.c. A call of libnic82540em that is then
 * refused must change nothing. At the end, no block may be left. */
#include <nic82540em.h>
#include <stdio.h>
#include <stdlib.h>

struct tried {
    bool ok;
    void *block;
};

static char nothing;
static long left, live; /* allocations until one fails, and blocks that aren't freed */

static struct tried tried(void *block)
{
    struct tried result = { block != NULL, block != NULL ? block : &nothing };

    live += block != NULL;
    return result;
}

struct tried rattle_alloc(size_t size, size_t align);
struct tried rattle_realloc(void *block, size_t kept, size_t size, size_t align);
void rattle_dealloc(void *block);

struct tried rattle_alloc(size_t size, size_t align)
{
    return tried(left-- == 0 ? NULL : malloc(size != 0 ? size : align));
}

struct tried rattle_realloc(void *block, size_t kept, size_t size, size_t align)
{
    (void)kept;
    live--;
    return tried(realloc(block, size != 0 ? size : align));
}

void rattle_dealloc(void *block)
{
    live--;
    free(block);
}

#define CHECK(fact) ((fact) ? (void)0 : (fprintf(stderr, "%s is false\n", #fact), exit(1)))

int main(void)
{
    struct nic82540em nic = NIC82540EM_NONE, copy = NIC82540EM_NONE;
    struct nic82540em_options options = NIC82540EM_DEFAULTS;
    struct nic82540em_event event;
    static const char schedule[] = "1.0 rx before settle\n1.1 tx before read VET\n1.2 choose 2 before choose\n";
    uint32_t value = 7;
    long refused, ends = 0;

    options.memory = 4096;
    for (refused = 0;; refused++) {
        left = refused;
        if (nic82540em_new(&nic, &options))
            break;
        CHECK(live == 0 && !nic.held);
    }
    CHECK(refused > 0);
    printf("new: refused at each of %ld allocations\n", refused);
    nic82540em_write(&nic, NIC_VET, 0x1234);
    for (refused = 0;; refused++) {
        long before = live;

        left = refused;
        if (nic82540em_copy(&nic, &copy))
            break;
        CHECK(live == before && !copy.held);
    }
    CHECK(refused > 0);
    printf("copy: refused at each of %ld allocations\n", refused);
    left = 0;
    nic82540em_events(&nic, true);
    CHECK(nic82540em_arrive(&nic, "frame", 5) == NIC_OFF && nic82540em_take_event(&nic, &event) && event.what == NIC_ARRIVED);
    for (refused = 0; left = refused, !nic82540em_offer(&nic, "frame", 5); refused++)
        CHECK(nic82540em_settle(&nic) == 0 && !nic82540em_take_event(&nic, &event));
    CHECK(refused > 0 && nic82540em_settle(&nic) == 0 && nic82540em_take_event(&nic, &event) && event.what == NIC_ARRIVED);
    printf("offer: refused at each of %ld allocations\n", refused);
    for (refused = 0;; refused++) {
        long before = live;

        left = refused;
        value = nic82540em_play(&nic, schedule, sizeof schedule - 1);
        CHECK(value == 0 || (value == NIC_REFUSED && live == before));
        if (left >= 0) /* no allocation failed */
            break;
        ends += value == NIC_REFUSED;
    }
    CHECK(value == 0);
    printf("play: %ld of %ld allocations end it\n", ends, refused);
    left = 0;
    CHECK(nic82540em_begin_round(&nic, NIC_BY_SETTLE) && nic82540em_read(&nic, NIC_VET) == 0x1234);
    CHECK(nic82540em_choose(&nic, 9) == 2 && left == 0);
    left = 0;
    CHECK(nic82540em_peek(&copy, NIC_VET, &value) && value == 0x1234);
    CHECK(nic82540em_read(&nic, NIC_VET) == 0x1234 && nic82540em_settle(&nic) == 0);
    CHECK(nic82540em_possible(&nic) == 0 && nic82540em_digest(&nic) == nic82540em_digest(&copy));
    CHECK(nic82540em_state_digest(&nic, 1) == nic82540em_state_digest(&copy, 1));
    nic82540em_free(&nic);
    nic82540em_free(&copy);
    CHECK(live == 0);
    puts("no block is left");
    return 0;
}
