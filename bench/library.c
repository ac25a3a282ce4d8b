/* Times calls of libnic82540em.a, and accesses of an array for comparison. Prints a line for each row: the name, the
 * number of calls, and the seconds. */
#define _POSIX_C_SOURCE 199309L
#include <nic82540em.h>
#include <stdio.h>
#include <string.h>
#include <time.h>

enum { RING = 0x1000, BUFFER = 0x2000, RING_BYTES = 128, SLOTS = 8, FRAME_BYTES = 60 };

static struct nic82540em nic;
static volatile uint32_t array[1024];
static uint32_t sum;

static double now(void)
{
    struct timespec time;

    clock_gettime(CLOCK_MONOTONIC, &time);
    return (double)time.tv_sec + (double)time.tv_nsec * 1e-9;
}

static void array_read(uint32_t number)
{
    sum += array[number % 1024];
}

static void array_write(uint32_t number)
{
    array[number % 1024] = number;
}

static void register_read(uint32_t number)
{
    (void)number;
    sum += nic82540em_read(&nic, NIC_STATUS);
}

static void register_write(uint32_t number)
{
    nic82540em_write(&nic, NIC_VET, number);
}

static void load(uint32_t number)
{
    uint8_t bytes[16];

    nic82540em_load(&nic, RING + number % 1024, bytes, sizeof bytes);
    sum += bytes[0];
}

static void store(uint32_t number)
{
    uint8_t bytes[16] = { 0 };

    nic82540em_store(&nic, 0x8000 + number % 1024, bytes, sizeof bytes);
}

static void idle_step(uint32_t number)
{
    sum += nic82540em_step(&nic, number % 6);
}

/* A frame arrives and is written to memory. Then its descriptor is offered again. */
static void receive(uint32_t number)
{
    static const uint8_t frame[FRAME_BYTES] = { 0xFF, 0xFF, 0xFF, 0xFF, 0xFF, 0xFF };

    (void)number;
    sum += nic82540em_arrive(&nic, frame, sizeof frame) != NIC_STORED;
    sum += nic82540em_step(&nic, NIC_RXDATA) != NIC_MOVED;
    sum += nic82540em_step(&nic, NIC_RXDONE) != NIC_DONE;
    nic82540em_write(&nic, NIC_RDT, (nic82540em_read(&nic, NIC_RDH) + SLOTS - 1) % SLOTS);
}

static void run(const char *name, void (*call)(uint32_t), uint32_t count)
{
    double start = now();

    for (uint32_t number = 0; number < count; number++)
        call(number);
    printf("%s,%u,%.9f\n", name, count, now() - start);
}

static void set_up(void)
{
    uint8_t descriptor[16] = { 0 };

    for (unsigned slot = 0; slot < SLOTS; slot++) {
        descriptor[1] = (uint8_t)((BUFFER >> 8) + 8 * slot);
        nic82540em_store(&nic, RING + 16 * slot, descriptor, sizeof descriptor);
    }
    nic82540em_write(&nic, NIC_RDBAL, RING);
    nic82540em_write(&nic, NIC_RDLEN, RING_BYTES);
    nic82540em_write(&nic, NIC_RCTL, NIC_RCTL_EN | NIC_RCTL_BAM);
    nic82540em_write(&nic, NIC_RDT, SLOTS - 1);
}

int main(void)
{
    const struct nic82540em_options options = NIC82540EM_DEFAULTS;
    uint32_t faults;

    if (!nic82540em_new(&nic, &options))
        return 1;
    run("read of a C array", array_read, 200000000);
    run("write of a C array", array_write, 200000000);
    run("register read", register_read, 50000000);
    run("register write", register_write, 50000000);
    run("load of 16 bytes", load, 50000000);
    run("store of 16 bytes", store, 50000000);
    run("step with nothing to do", idle_step, 50000000);
    set_up();
    faults = sum = 0;
    run("frame of 60 bytes received", receive, 2000000);
    faults = sum;
    nic82540em_interleave(&nic, 3, 7);
    run("register read, up to 3 steps", register_read, 10000000);
    nic82540em_free(&nic);
    return faults != 0;
}
