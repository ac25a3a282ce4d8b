/* A fuzzer of a driver. The input's bytes choose which steps the adapter takes before which accesses of the driver. The
 * driver must receive all frames, in order and with their bytes.
 *
 * With libFuzzer:  clang -fsanitize=fuzzer,address -o fuzz fuzz_driver.c $(pkg-config --cflags --libs nic82540em)
 * With AFL++ or by itself:  cc -DALONE -o fuzz fuzz_driver.c ..; ./fuzz FILE..; without FILE it makes 2,000 inputs.
 *
 * With -DLATE=1 or -DPREFETCH=1, the driver has a race. A fuzzer finds each within seconds. To fuzz your own driver,
 * call it in place of `start` and `interrupt`, and compare in `received` what it received.
 */
#include <nic82540em.h>
#include <stdio.h>
#include <stdlib.h>
#include <string.h>

#ifndef LATE
#define LATE 0 /* takes frames before it reads ICR: a frame that is finished after the look may never be reported */
#endif
#ifndef PREFETCH
#define PREFETCH 0 /* loads a buffer before the status of its descriptor: the bytes may be old */
#endif

enum { MEMORY = 1 << 16, RING = 0x1000, BUFFERS = 0x4000, BUFFER_BYTES = 2048, DESCRIPTOR_BYTES = 16, SLOTS = 8 };
enum { FRAMES = 6, FRAME_BYTES = 60, STATUS = 12 };

/* The driver, and what it received. */
struct driver {
    struct nic82540em nic;
    uint32_t next;
    int received;
};

static void fails(const char *what, int number)
{
    fprintf(stderr, "frame %d %s\n", number, what);
    abort();
}

/* The bytes of a frame: to all stations, with its number. */
static void make_frame(uint8_t *frame, int number)
{
    memset(frame, number + 1, FRAME_BYTES);
    memset(frame, 0xFF, 6);
}

static void received(struct driver *driver, const uint8_t *frame)
{
    uint8_t wanted[FRAME_BYTES];

    make_frame(wanted, driver->received);
    if (memcmp(frame, wanted, sizeof wanted) != 0)
        fails("has other bytes", driver->received);
    driver->received++;
}

/* Offers a slot of the ring to the adapter. */
static void offer(struct driver *driver, uint32_t slot)
{
    uint32_t address = BUFFERS + slot * BUFFER_BYTES;
    const uint8_t descriptor[DESCRIPTOR_BYTES] = { address & 0xFF, address >> 8 & 0xFF, address >> 16 & 0xFF };

    nic82540em_store(&driver->nic, RING + slot * DESCRIPTOR_BYTES, descriptor, sizeof descriptor);
}

static void start(struct driver *driver)
{
    for (uint32_t slot = 0; slot < SLOTS; slot++)
        offer(driver, slot);
    nic82540em_write(&driver->nic, NIC_RDBAL, RING);
    nic82540em_write(&driver->nic, NIC_RDLEN, SLOTS * DESCRIPTOR_BYTES);
    nic82540em_write(&driver->nic, NIC_RDT, SLOTS - 1);
    nic82540em_write(&driver->nic, NIC_RCTL, NIC_RCTL_EN | NIC_RCTL_BAM);
    nic82540em_write(&driver->nic, NIC_IMS, NIC_RXT0);
}

/* Takes each frame whose descriptor is done. */
static void take_frames(struct driver *driver)
{
    uint8_t frame[FRAME_BYTES], status;

    for (;;) {
        uint32_t buffer = BUFFERS + driver->next * BUFFER_BYTES;

        if (PREFETCH)
            nic82540em_load(&driver->nic, buffer, frame, sizeof frame);
        nic82540em_load(&driver->nic, RING + driver->next * DESCRIPTOR_BYTES + STATUS, &status, 1);
        if (!(status & NIC_RXD_DD))
            return;
        if (!PREFETCH)
            nic82540em_load(&driver->nic, buffer, frame, sizeof frame);
        received(driver, frame);
        offer(driver, driver->next);
        nic82540em_write(&driver->nic, NIC_RDT, driver->next);
        driver->next = (driver->next + 1) % SLOTS;
    }
}

static void interrupt(struct driver *driver)
{
    if (LATE)
        take_frames(driver);
    nic82540em_read(&driver->nic, NIC_ICR);
    if (!LATE)
        take_frames(driver);
}

/* Schedules a step for each byte. Bit 0 chooses the step. Bits 1 to 3 are the number of accesses between it and the step
 * before; for the first step, between it and now. */
static void schedule(struct driver *driver, const uint8_t *data, size_t size)
{
    uint64_t access = nic82540em_accesses(&driver->nic);

    for (size_t place = 0; place < size; place++) {
        access += data[place] / 2 % 8;
        nic82540em_schedule(&driver->nic, access, data[place] % 2 ? NIC_RXDONE : NIC_RXDATA);
    }
}

int LLVMFuzzerTestOneInput(const uint8_t *data, size_t size);

/* Two frames arrive, and the first one is finished. In the end, all steps were taken, and the driver has both. */
static void play_round(struct driver *driver, int first)
{
    uint8_t frame[FRAME_BYTES];

    for (int number = first; number < first + 2; number++) {
        make_frame(frame, number);
        if (nic82540em_arrive(&driver->nic, frame, sizeof frame) != NIC_STORED)
            abort();
    }
    nic82540em_step(&driver->nic, NIC_RXDATA);
    nic82540em_step(&driver->nic, NIC_RXDONE);
    do {
        while (nic82540em_line(&driver->nic))
            interrupt(driver);
    } while (nic82540em_settle(&driver->nic) > 0);
    if (driver->received < first + 2)
        fails("was never received", driver->received);
}

int LLVMFuzzerTestOneInput(const uint8_t *data, size_t size)
{
    struct driver driver = { NIC82540EM_NONE, 0, 0 };
    struct nic82540em_options options = NIC82540EM_DEFAULTS;

    options.memory = MEMORY;
    if (!nic82540em_new(&driver.nic, &options))
        abort();
    start(&driver);
    schedule(&driver, data, size);
    for (int number = 0; number < FRAMES; number += 2)
        play_round(&driver, number);
    nic82540em_free(&driver.nic);
    return 0;
}

#ifdef ALONE
#include "alone.h"

int main(int argc, char **argv)
{
    return run_alone(argc, argv, 20);
}
#endif
