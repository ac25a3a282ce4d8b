/* Prints how many bytes of its stack a thread has used in calls of libnic82540em, with what an empty thread uses left
 * out. The stack is painted before the thread runs. */
#include <nic82540em.h>
#include <pthread.h>
#include <stdio.h>
#include <stdlib.h>
#include <string.h>

enum { STACK = 1 << 20, PAINT = 0xA5, DESCRIPTORS = 8, TX = 0x1000, RX = 0x2000, BUFFERS = 0x10000 };

static unsigned char frame[1518];

#define CHECK(fact) ((fact) ? (void)0 : (fprintf(stderr, "%s is false\n", #fact), exit(1)))

static void *nothing(void *given)
{
    return given;
}

/* Makes rings of eight descriptors. Those to be sent have 1,518 bytes. */
static void begin(struct nic82540em *nic)
{
    unsigned char descriptor[16];
    int n;

    for (n = 0; n < DESCRIPTORS; n++) {
        memset(descriptor, 0, sizeof descriptor);
        descriptor[1] = n, descriptor[2] = BUFFERS >> 16;
        descriptor[8] = 1518 & 255, descriptor[9] = 1518 >> 8, descriptor[11] = 9; /* EOP, RS */
        CHECK(nic82540em_store(nic, TX + 16 * n, descriptor, 16));
        descriptor[1] = 0x40 + n, descriptor[11] = 0;
        CHECK(nic82540em_store(nic, RX + 16 * n, descriptor, 16));
    }
    nic82540em_write(nic, NIC_TDBAL, TX);
    nic82540em_write(nic, NIC_TDLEN, 16 * DESCRIPTORS);
    nic82540em_write(nic, NIC_RDBAL, RX);
    nic82540em_write(nic, NIC_RDLEN, 16 * DESCRIPTORS);
    nic82540em_write(nic, NIC_RDT, DESCRIPTORS - 1);
    nic82540em_write(nic, NIC_IMS, 0xFFFFFFFF);
    nic82540em_write(nic, NIC_RCTL, 0x801A);
    nic82540em_write(nic, NIC_TCTL, 2);
}

/* Makes each call at least once, with frames in all parts of the adapter. */
static void *calls(void *given)
{
    static const char schedule[] = "1.0 rx before settle\n1.1 tx before read VET\n1.2 choose 2 before choose\n";
    static char text[4096];
    static unsigned char bytes[65536];
    struct nic82540em nic = NIC82540EM_NONE, copy = NIC82540EM_NONE;
    struct nic82540em_options options = NIC82540EM_DEFAULTS;
    struct nic82540em_event event;
    uint32_t value;
    void *memory;
    int n;

    memset(frame, 0xFF, sizeof frame);
    CHECK(nic82540em_new(&nic, &options));
    nic82540em_events(&nic, true);
    begin(&nic);
    nic82540em_ticks(&nic, true);
    CHECK(nic82540em_interleave(&nic, 100, 7));
    for (n = 0; n < 64; n++) {
        CHECK(nic82540em_offer(&nic, frame, sizeof frame));
        nic82540em_arrive(&nic, frame, 60 + n);
        nic82540em_write(&nic, NIC_TDT, n % DESCRIPTORS);
        nic82540em_read(&nic, NIC_ICR);
        nic82540em_write(&nic, NIC_EERD, 1);
        nic82540em_write(&nic, NIC_MDIC, 0x08210000);
        nic82540em_step(&nic, n % 6);
    }
    CHECK(nic82540em_pace(&nic, 3));
    nic82540em_choose(&nic, 5);
    CHECK(nic82540em_load(&nic, RX, bytes, sizeof bytes));
    CHECK(nic82540em_store(&nic, BUFFERS, bytes, sizeof bytes));
    CHECK(nic82540em_copy(&nic, &copy));
    nic82540em_fill_wire(&copy, true);
    nic82540em_settle(&copy);
    nic82540em_settle(&nic);
    while (nic82540em_take_put(&nic, bytes, sizeof bytes))
        nic82540em_write(&nic, NIC_TDT, DESCRIPTORS - 1);
    while (nic82540em_take_event(&nic, &event))
        nic82540em_line(&nic);
    nic82540em_write(&nic, NIC_CTRL, 1 << 26);
    CHECK(nic82540em_schedule(&nic, nic82540em_accesses(&nic) + 1, NIC_PHY));
    nic82540em_recount(&nic, 0);
    CHECK(nic82540em_play(&copy, schedule, strlen(schedule)) == 0);
    nic82540em_begin_round(&copy, 1);
    nic82540em_settle(&copy);
    CHECK(nic82540em_peek(&nic, NIC_STATUS, &value));
    nic82540em_possible(&nic);
    nic82540em_memory(&nic, &memory);
    nic82540em_digest(&nic);
    nic82540em_state_digest(&nic, 1);
    nic82540em_waiting_received(&nic);
    nic82540em_waiting_transmit(&nic);
    CHECK(nic82540em_print(&nic, text, sizeof text) < sizeof text);
    nic82540em_free(&nic);
    nic82540em_free(&copy);
    return given;
}

/* The bytes of the stack of a thread that this function has changed. */
static size_t used(void *(*run)(void *))
{
    unsigned char *stack = aligned_alloc(4096, STACK);
    pthread_attr_t attributes;
    pthread_t thread;
    size_t place = 0;

    CHECK(stack != NULL);
    memset(stack, PAINT, STACK);
    CHECK(pthread_attr_init(&attributes) == 0 && pthread_attr_setstack(&attributes, stack, STACK) == 0);
    CHECK(pthread_create(&thread, &attributes, run, NULL) == 0 && pthread_join(thread, NULL) == 0);
    while (place < STACK && stack[place] == PAINT)
        place++;
    free(stack);
    return STACK - place;
}

int main(void)
{
    size_t empty = used(nothing);

    printf("%zu\n", used(calls) - empty);
    return 0;
}
