#!/usr/bin/env python3
"""Tests a driver that receives frames, as a command of `tools/races`. Replace the class Driver by your driver.

usage: receive_test.py right|wrong

Requests go to standard output, and answers come from standard input. The exit status is 0 if each frame is received
once, in order and unchanged. Otherwise it is 1, and the fault is on standard error. `wrong` selects a driver with a
race.
"""

import struct
import sys


class Adapter:
    """The registers, the memory and the interrupt line."""

    line_is_up = False

    def ask(self, request):
        """Sends a request, and returns its answer without OK. Skips lines such as `frame HEX`."""
        print(request, flush=True)
        for line in sys.stdin:
            word, _, rest = line.rstrip().partition(" ")
            if word == "OK":
                return rest
            if word == "IRQ":
                self.line_is_up = rest == "raise 0"
            if word in ("ERR", "FAIL"):
                sys.exit(f"the server answers {word} {rest}")
        sys.exit("the server has ended")

    def read_register(self, offset):
        return int(self.ask(f"readl {0xFEB00000 + offset:#x}"), 0)

    def write_register(self, offset, value):
        self.ask(f"writel {0xFEB00000 + offset:#x} {value:#x}")

    def read_memory(self, address, size):
        return bytes.fromhex(self.ask(f"read {address:#x} {size}")[2:])

    def write_memory(self, address, data):
        self.ask(f"write {address:#x} {len(data)} 0x{data.hex()}")


# The driver. It makes its accesses by the last four functions above, and passes each received frame to `deliver`.

CTRL, ICR, IMS, RCTL, RDBAL, RDLEN, RDT = 0x0000, 0x00C0, 0x00D0, 0x0100, 0x2800, 0x2808, 0x2818
SLOTS, RING, BUFFERS, BUFFER_SIZE = 8, 0x1000, 0x10000, 2048


class Driver:
    def __init__(self, adapter, deliver, is_right):
        self.adapter, self.deliver, self.is_right = adapter, deliver, is_right
        self.next = 0  # the slot of the next frame

    def store_descriptor(self, slot):
        """Stores the descriptor of a slot that waits for a frame."""
        self.adapter.write_memory(RING + 16 * slot, struct.pack("<QQ", BUFFERS + BUFFER_SIZE * slot, 0))

    def bring_up(self):
        for slot in range(SLOTS):
            self.store_descriptor(slot)
        write = self.adapter.write_register
        write(CTRL, 1 << 26)  # reset
        write(RDBAL, RING)
        write(RDLEN, 16 * SLOTS)
        write(RDT, SLOTS - 1)
        write(RCTL, 0x04008002)  # receive, also broadcasts; without the CRC
        write(IMS, 0x80)  # RXT0

    def take_frames(self):
        """Delivers all finished frames, and offers their slots again."""
        while True:
            length, _, status = struct.unpack("<HHB", self.adapter.read_memory(RING + 16 * self.next + 8, 5))
            if not status & 1:
                return
            self.deliver(self.adapter.read_memory(BUFFERS + BUFFER_SIZE * self.next, length))
            self.store_descriptor(self.next)
            self.adapter.write_register(RDT, self.next)
            self.next = (self.next + 1) % SLOTS

    def interrupt(self):
        """Handles an interrupt. In the wrong order, the read of ICR may clear the cause of a frame that isn't taken."""
        if self.is_right:
            self.adapter.read_register(ICR)
        self.take_frames()
        if not self.is_right:
            self.adapter.read_register(ICR)


# The test


def frame_of(number):
    """Returns a frame of 60 to 360 bytes to the adapter's address."""
    return bytes.fromhex("02000000000102000000000988b5").ljust(60 + 100 * (number % 4), bytes([number]))


def arrive(adapter, number):
    """Lets a frame arrive, which the adapter must store in its packet buffer."""
    if adapter.ask(f"arrive {frame_of(number).hex()}") != "stored":
        sys.exit(f"frame {number} wasn't stored")


def compare(received, arrived):
    """Compares the frames that the driver received with those that arrived."""
    for number, frame in enumerate(received):
        if frame != frame_of(number):
            sys.exit(f"other bytes were received instead of frame {number}")
    if len(received) < arrived:
        sys.exit(f"frame {len(received)} was never received")


def run(is_right):
    """In each round, the handler is called when one frame is finished and another one is waiting."""
    adapter, received = Adapter(), []
    driver = Driver(adapter, received.append, is_right)
    driver.bring_up()
    for number in range(0, 12, 2):
        arrive(adapter, number)
        adapter.ask("settle")
        arrive(adapter, number + 1)
        while adapter.line_is_up:
            driver.interrupt()
        adapter.ask("settle")
        while adapter.line_is_up:
            driver.interrupt()
        compare(received, number + 2)


def status_of_run(is_right):
    """Runs the test, and returns its exit status."""
    try:
        run(is_right)
    except SystemExit as fault:
        print(fault, file=sys.stderr, flush=True)
        return 1
    return 0


if sys.argv[1:] not in (["right"], ["wrong"]):
    sys.exit("usage: receive_test.py right|wrong")
while True:
    status = status_of_run(sys.argv[1] == "right")
    print(f"reset {status}", flush=True)
    if sys.stdin.readline() != "OK\n":  # OK: tools/races plays another run in this process, with a new adapter
        sys.exit(status)
