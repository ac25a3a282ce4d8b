/* A fuzzer of registers, descriptors, frames and steps. Two adapters get the same calls, which the input's bytes
 * choose. Their answers must be equal, and must be answers that the header allows.
 *
 * With libFuzzer:  clang -fsanitize=fuzzer,address -o fuzz fuzz.c $(pkg-config --cflags --libs nic82540em)
 * With AFL++ or by itself:  cc -DALONE -o fuzz fuzz.c ..; ./fuzz FILE..; without FILE it makes 2,000 inputs itself.
 *
 * fuzz_driver.c fuzzes a driver.
 */
#include <nic82540em.h>
#include <stdio.h>
#include <stdlib.h>
#include <string.h>

enum { MEMORY = 1 << 16, MOST_FRAME = 1518 };

#define CHECK(fact) ((fact) ? (void)0 : (fprintf(stderr, "%s:%d: %s is false\n", __FILE__, __LINE__, #fact), abort()))

struct input {
    const uint8_t *at, *end;
};

/* The next bytes of the input as a number; zeros after its end. */
static uint32_t take(struct input *input, int bytes)
{
    uint32_t value = 0;

    while (bytes--)
        value = value << 8 | (input->at < input->end ? *input->at++ : 0);
    return value;
}

/* A register: mostly one that the driver uses. */
static uint32_t offset_of(struct input *input)
{
    static const uint32_t known[] = {
        NIC_CTRL, NIC_STATUS, NIC_EERD, NIC_MDIC, NIC_ICR, NIC_ICS, NIC_IMS, NIC_IMC, NIC_RCTL, NIC_TCTL, NIC_PBA,
        NIC_RDBAL, NIC_RDLEN, NIC_RDH, NIC_RDT, NIC_TDBAL, NIC_TDLEN, NIC_TDH, NIC_TDT, NIC_MPC, NIC_RAL, NIC_RAH,
    };
    uint32_t number = take(input, 1);

    return number < 250 ? known[number % (sizeof known / sizeof *known)] : take(input, 4);
}

static void take_frames(struct nic82540em *one, struct nic82540em *two)
{
    uint8_t first[MOST_FRAME], second[MOST_FRAME];
    size_t length;

    do {
        length = nic82540em_take_put(one, first, sizeof first);
        CHECK(length == nic82540em_take_put(two, second, sizeof second));
        CHECK(length <= MOST_FRAME && memcmp(first, second, length) == 0);
    } while (length > 0);
}

/* One call, on both adapters. */
static void play(struct nic82540em *one, struct nic82540em *two, struct input *input)
{
    uint8_t bytes[64] = { 0 }, back[64] = { 0 };
    uint32_t kind = take(input, 1), offset, value, count;
    uint64_t access;

    switch (kind % 10) {
    case 0:
        offset = offset_of(input);
        CHECK(nic82540em_read(one, offset) == nic82540em_read(two, offset));
        break;
    case 1:
        offset = offset_of(input);
        value = take(input, 4);
        nic82540em_write(one, offset, value);
        nic82540em_write(two, offset, value);
        break;
    case 2:
        offset = take(input, 3);
        count = take(input, 1) % sizeof bytes;
        for (uint32_t place = 0; place < count; place++)
            bytes[place] = take(input, 1);
        value = nic82540em_store(one, offset, bytes, count);
        CHECK(value == (offset + count <= MEMORY));
        CHECK(value == nic82540em_store(two, offset, bytes, count));
        CHECK(value == nic82540em_load(one, offset, back, count) && value == nic82540em_load(two, offset, back, count));
        break;
    case 3:
        count = take(input, 2) % (MOST_FRAME + 2);
        {
            uint8_t *frame = malloc(count + 1);
            memset(frame, 0xFF, count + 1);
            value = nic82540em_arrive(one, frame, count);
            CHECK(value <= NIC_STORED && value == nic82540em_arrive(two, frame, count));
            free(frame);
        }
        break;
    case 4:
        CHECK(nic82540em_settle(one) == nic82540em_settle(two));
        break;
    case 5:
        value = take(input, 1) % 4;
        CHECK(nic82540em_interleave(one, value, kind) && nic82540em_interleave(two, value, kind));
        break;
    case 6:
        count = take(input, 1) % 7;
        access = nic82540em_accesses(one) + take(input, 1) % 4;
        value = nic82540em_schedule(one, access, count);
        CHECK(value == nic82540em_schedule(two, access, count));
        CHECK(count < 6 || !value);
        break;
    case 7:
        offset = offset_of(input);
        CHECK(nic82540em_peek(one, offset, &value) && nic82540em_peek(two, offset, &count) && value == count);
        break;
    default:
        value = nic82540em_step(one, kind % 7);
        CHECK(value == nic82540em_step(two, kind % 7));
        CHECK(kind % 7 == 6 ? value == NIC_REFUSED : value <= NIC_FAULT);
    }
    CHECK(nic82540em_line(one) == nic82540em_line(two));
    CHECK(nic82540em_accesses(one) == nic82540em_accesses(two));
    take_frames(one, two);
}

int LLVMFuzzerTestOneInput(const uint8_t *data, size_t size);

int LLVMFuzzerTestOneInput(const uint8_t *data, size_t size)
{
    struct nic82540em one = NIC82540EM_NONE, two = NIC82540EM_NONE;
    struct nic82540em_options options = NIC82540EM_DEFAULTS;
    struct input input = { data, data + size };

    options.memory = MEMORY;
    if (!nic82540em_new(&one, &options) || !nic82540em_new(&two, &options))
        abort();
    while (input.at < input.end)
        play(&one, &two, &input);
    nic82540em_free(&one);
    nic82540em_free(&two);
    return 0;
}

#ifdef ALONE
#include "alone.h"

int main(int argc, char **argv)
{
    return run_alone(argc, argv, 400);
}
#endif
