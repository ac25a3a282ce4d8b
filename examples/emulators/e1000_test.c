/* A test of an 82540EM with QEMU's libqtest: sets the PCI device up, sends and receives frames, and follows the interrupt
 * line.
 *
 * It runs on QEMU's e1000 and on `nicbench serve`:
 *
 *   cc -o e1000_test e1000_test.c libqtest_client.c
 *   QTEST_QEMU_BINARY=./qemu-system-nicbench ./e1000_test
 *   QTEST_QEMU_BINARY=./qemu-system-tcg ./e1000_test
 *
 * Use QEMU itself instead of qemu-system-tcg if it has the accelerator qtest. Compile with -DLIBQTEST='"libqtest.h"' for
 * QEMU's libqtest.
 */
#ifdef LIBQTEST
#include LIBQTEST
#else
#define _DEFAULT_SOURCE
#include "libqtest_client.h"
#endif

#include <stdio.h>
#include <stdlib.h>
#include <string.h>
#include <sys/socket.h>
#include <sys/time.h>
#include <unistd.h>

/* PCI configuration: the ports, the devices, and what is written there */
enum { ADDRESS_PORT = 0xCF8, DATA_PORT = 0xCFC, BRIDGE = 1, DEVICE = 4 };
enum { ID = 0x00, COMMAND = 0x04, BAR0 = 0x10, ROUTES = 0x60, MEMORY_AND_MASTER = 6, INTERRUPT = 11 };
static const uint32_t REGISTERS = 0xE0000000, INTERRUPT_STATUS = 1 << 19;

/* Registers and their bits */
enum { CTRL = 0x0000, STATUS = 0x0008, EERD = 0x0014, MDIC = 0x0020, ICR = 0x00C0, IMS = 0x00D0, IMC = 0x00D8 };
enum { RCTL = 0x0100, TCTL = 0x0400, RAL = 0x5400, RAH = 0x5404 };
enum { RDBAL = 0x2800, RDBAH = 0x2804, RDLEN = 0x2808, RDH = 0x2810, RDT = 0x2818, TDBAL = 0x3800, TDH = 0x3810, TDT = 0x3818 };
enum { LINK_UP = 2, TXDW = 1, RXT0 = 0x80, DONE = 1, END_OF_PACKET = 2, READY = 1 << 28 };

/* Memory: two rings of eight descriptors, and their buffers. The tests of QEMU use memory from 1 MiB on. */
enum { SLOTS = 8, BUFFER = 2048, RECEIVE_RING = 0x100000, TRANSMIT_RING = 0x101000 };
enum { RECEIVE_BUFFERS = 0x110000, TRANSMIT_BUFFERS = 0x120000 };
enum { SECOND = 1000000000, PATIENCE = 1000, LONGEST = 1518 };

static const uint8_t OURS[6] = { 0x52, 0x54, 0, 0x12, 0x34, 0x57 };
static QTestState *machine;
static int wire; /* our end of the socket of the netdev */
static unsigned checks;

static void check(bool is_right, const char *what, uint64_t got)
{
    checks++;
    if (!is_right) {
        fprintf(stderr, "e1000_test: check %u failed: %s: 0x%llx\n", checks, what, (unsigned long long)got);
        qtest_quit(machine);
        exit(1);
    }
}

/* Accesses */

static uint32_t read_register(unsigned offset)
{
    return qtest_readl(machine, REGISTERS + offset);
}

static void write_register(unsigned offset, uint32_t value)
{
    qtest_writel(machine, REGISTERS + offset, value);
}

static uint32_t read_configuration(unsigned device, unsigned offset)
{
    qtest_outl(machine, ADDRESS_PORT, 0x80000000 | device << 11 | offset);
    return qtest_inl(machine, DATA_PORT);
}

static void write_configuration(unsigned device, unsigned offset, uint32_t value)
{
    qtest_outl(machine, ADDRESS_PORT, 0x80000000 | device << 11 | offset);
    qtest_outl(machine, DATA_PORT, value);
}

static bool is_interrupted(void)
{
    return qtest_get_irq(machine, INTERRUPT);
}

/* The wire: each frame has four bytes of length before it. */

static void put_on_wire(const uint8_t *frame, uint32_t size)
{
    uint8_t bytes[4 + LONGEST] = { size >> 24, size >> 16, size >> 8, size };

    memcpy(bytes + 4, frame, size);
    check(write(wire, bytes, 4 + size) == 4 + (ssize_t)size, "a frame goes on the wire", size);
}

static uint32_t take_from_wire(uint8_t *frame)
{
    uint8_t head[4];
    uint32_t size;

    check(recv(wire, head, 4, MSG_WAITALL) == 4, "a frame comes from the wire", 0);
    size = (uint32_t)head[0] << 24 | head[1] << 16 | head[2] << 8 | head[3];
    check(size <= LONGEST && recv(wire, frame, size, MSG_WAITALL) == (ssize_t)size, "the frame is complete", size);
    return size;
}

/* Makes a frame with a number in it, and returns its size. */
static uint32_t make_frame(uint8_t *frame, const uint8_t *to, unsigned number, uint32_t size)
{
    memset(frame, number, size);
    memcpy(frame, to, 6);
    memcpy(frame + 6, "\2\0\0\0\0\x9\x88\xb5", 8);
    return size;
}

/* The parts of the test */

static void set_up_device(void)
{
    uint32_t word = read_configuration(DEVICE, ID);

    check(word == 0x100E8086, "the id of the device", word);
    write_configuration(DEVICE, BAR0, 0xFFFFFFFF);
    word = read_configuration(DEVICE, BAR0);
    check(word == 0xFFFE0000, "the size of the registers", word);
    write_configuration(DEVICE, BAR0, REGISTERS);
    word = read_configuration(DEVICE, BAR0);
    check(word == REGISTERS, "the address of the registers", word);
    write_configuration(DEVICE, COMMAND, MEMORY_AND_MASTER);
    word = read_configuration(DEVICE, COMMAND);
    check((word & 0xFFFF) == MEMORY_AND_MASTER, "the command register", word);
    check(qtest_inw(machine, DATA_PORT) == MEMORY_AND_MASTER, "the command register as a word", 0);
    check(!(word & INTERRUPT_STATUS), "no interrupt in the status", word);
    write_configuration(BRIDGE, ROUTES, INTERRUPT * 0x01010101);
    qtest_irq_intercept_in(machine, "ioapic");
    check(!is_interrupted(), "no interrupt at the start", 0);
}

static void bring_link_up(void)
{
    write_register(IMC, 0xFFFFFFFF);
    write_register(CTRL, 0x40);        /* SLU */
    write_register(MDIC, 0x04201200);  /* restart autonegotiation */
    qtest_clock_step(machine, SECOND);
    check(read_register(MDIC) & READY, "the command of the PHY is complete", read_register(MDIC));
    check(read_register(STATUS) & LINK_UP, "the link is up", read_register(STATUS));
}

static void read_eeprom(void)
{
    uint16_t word[64], sum = 0;

    for (unsigned number = 0; number < 64; number++) {
        write_register(EERD, number << 8 | 1);
        check(read_register(EERD) & 0x10, "the EEPROM answers", read_register(EERD));
        sum += word[number] = read_register(EERD) >> 16;
    }
    check(sum == 0xBABA, "the checksum of the EEPROM", sum);
    for (unsigned number = 0; number < 3; number++)
        check(word[number] == (OURS[2 * number] | OURS[2 * number + 1] << 8), "the EEPROM's address", word[number]);
    check(read_register(RAL) == 0x12005452, "RAL", read_register(RAL));
    check(read_register(RAH) == 0x80005734, "RAH", read_register(RAH));
}

static void set_up_rings(void)
{
    qtest_memset(machine, RECEIVE_RING, 0, 16 * SLOTS);
    qtest_memset(machine, TRANSMIT_RING, 0, 16 * SLOTS);
    for (unsigned slot = 0; slot < SLOTS; slot++)
        qtest_writeq(machine, RECEIVE_RING + 16 * slot, RECEIVE_BUFFERS + BUFFER * slot);
    for (unsigned ring = 0; ring < 2; ring++) {
        unsigned first = ring ? TDBAL : RDBAL;

        write_register(first, ring ? TRANSMIT_RING : RECEIVE_RING);
        write_register(first + RDBAH - RDBAL, 0);
        write_register(first + RDLEN - RDBAL, 16 * SLOTS);
        write_register(first + RDH - RDBAL, 0);
        write_register(first + RDT - RDBAL, ring ? 0 : SLOTS - 1);
    }
    write_register(TCTL, 0x400FA);     /* send, pad short frames */
    write_register(RCTL, 0x04008002);  /* receive, also broadcasts; without the CRC */
    qtest_clock_step(machine, 2 * (int64_t)SECOND); /* QEMU doesn't receive for a second after a write of RCTL */
    read_register(ICR);
    write_register(IMS, TXDW | RXT0);
    check(!is_interrupted(), "no interrupt before the first frame", 0);
}

/* A frame goes from memory to the wire, and TXDW is the cause of an interrupt. */
static void send_frame(unsigned slot, uint32_t size)
{
    uint8_t frame[LONGEST], seen[LONGEST];
    uint32_t causes;

    make_frame(frame, (const uint8_t *)"\2\0\0\0\0\x9", slot + 1, size);
    qtest_memwrite(machine, TRANSMIT_BUFFERS + BUFFER * slot, frame, size);
    qtest_writeq(machine, TRANSMIT_RING + 16 * slot, TRANSMIT_BUFFERS + BUFFER * slot);
    qtest_writeq(machine, TRANSMIT_RING + 16 * slot + 8, size | 0x0B000000); /* EOP, IFCS, RS */
    write_register(TDT, slot + 1);
    check(take_from_wire(seen) == size && memcmp(seen, frame, size) == 0, "the bytes of a frame that is sent", size);
    check(qtest_readb(machine, TRANSMIT_RING + 16 * slot + 12) & DONE, "the descriptor is written back", slot);
    check(read_register(TDH) == slot + 1, "TDH", read_register(TDH));
    check(is_interrupted(), "an interrupt for a frame that is sent", slot);
    check(read_configuration(DEVICE, COMMAND) & INTERRUPT_STATUS, "the interrupt in the status", slot);
    causes = read_register(ICR);
    check(causes & TXDW && !(causes & RXT0), "the causes of a frame that is sent", causes);
    check(!is_interrupted(), "the read of ICR lowers the interrupt", slot);
}

/* Waits until a frame that was put on the wire has caused an interrupt. */
static void await_interrupt(void)
{
    unsigned turns = 0;

    while (!is_interrupted() && turns++ < PATIENCE) {
        qtest_clock_step(machine, 1000);
        usleep(100);
    }
    check(turns < PATIENCE, "an interrupt for a frame that arrived", turns);
}

/* A frame goes from the wire to memory, and RXT0 is the cause of an interrupt. */
static void receive_frame(unsigned slot, const uint8_t *to, uint32_t size)
{
    uint8_t frame[LONGEST], seen[LONGEST];
    uint64_t end;
    uint32_t causes;

    put_on_wire(frame, make_frame(frame, to, 0x80 + slot, size));
    await_interrupt();
    end = qtest_readq(machine, RECEIVE_RING + 16 * slot + 8);
    check((end & 0xFFFF) == size, "the length of a frame that arrived", end);
    check((end >> 32 & (DONE | END_OF_PACKET)) == (DONE | END_OF_PACKET), "its status", end);
    qtest_memread(machine, RECEIVE_BUFFERS + BUFFER * slot, seen, size);
    check(memcmp(seen, frame, size) == 0, "its bytes", size);
    check(read_register(RDH) == slot + 1, "RDH", read_register(RDH));
    causes = read_register(ICR);
    check(causes & RXT0, "the causes of a frame that arrived", causes);
    check(!is_interrupted(), "the read of ICR lowers the interrupt", slot);
}

int main(void)
{
    struct timeval limit = { .tv_sec = 60 };
    uint8_t frame[LONGEST];
    int ends[2];

    if (socketpair(AF_UNIX, SOCK_STREAM, 0, ends))
        return 1;
    wire = ends[0];
    setsockopt(wire, SOL_SOCKET, SO_RCVTIMEO, &limit, sizeof limit);
    machine = qtest_initf("-nodefaults -machine pc -m 64M -netdev socket,id=net,fd=%d "
                          "-device e1000,netdev=net,addr=4,mac=52:54:00:12:34:57", ends[1]);
    close(ends[1]);
    set_up_device();
    bring_link_up();
    read_eeprom();
    set_up_rings();
    send_frame(0, 60);
    send_frame(1, 1514);
    receive_frame(0, OURS, 60);
    receive_frame(1, (const uint8_t *)"\xff\xff\xff\xff\xff\xff", 1514);
    /* The filter rejects a frame to another address, so the next frame is in the next slot. */
    put_on_wire(frame, make_frame(frame, (const uint8_t *)"\2\0\0\0\0\x7", 1, 100));
    receive_frame(2, OURS, 100);
    send_frame(2, 61);
    qtest_quit(machine);
    printf("e1000_test: %u checks passed\n", checks);
    return 0;
}
