"""A guest with a small driver and a host that answers pings, in the place of QEMU. The driver or the host may have a
bug.

usage: board .. -- python3 machines/tests/guests/echo_guest.py SOCKET BUG

The board starts this script as it starts QEMU (linux_hostile.py). BUG is one of:
    none    replies are right
    byte    two bytes of every 40th reply are changed
    twice   every 40th reply is sent twice
    lost    every 40th request isn't answered
    length  the driver reads the length of a frame before DD
    reset   no bug, but the driver resets the adapter now and then
"""

import os
import struct
import sys

from linux_hostile import MEMORY, Guest, start_qtest

CTRL, STATUS, ICR, RCTL, TCTL, RECEIVE, TRANSMIT = 0, 8, 0xC0, 0x100, 0x400, 0x2800, 0x3800
RST, SLU, ENABLE, SECRC, BAM = 1 << 26, 1 << 6, 1 << 1, 1 << 26, 1 << 15
DD, EOP_IFCS_RS = 1, 0xB
SLOTS, BUFFER = 32, 2048
RINGS = {RECEIVE: 0x10000, TRANSMIT: 0x11000}
BUFFERS = {RECEIVE: 0x20000, TRANSMIT: 0x40000}
BUG_EVERY, RESET_EVERY = 40, 25  # frames
ICMP, ECHO = 34, 8
DESCRIPTOR = struct.Struct("<QHHBBH")


class Host(Guest):
    """The driver, and the host above it."""

    def __init__(self, bug):
        super().__init__(1)
        self.bug, self.frames = bug, 0

    def up(self):
        """Starts the adapter."""
        self.clean, self.free = 0, 0
        self.write(CTRL, RST)
        for ring, base in RINGS.items():
            for slot in range(SLOTS):
                # a transmit slot with DD is free
                status = DD if ring == TRANSMIT else 0
                self.put(ring, slot, DESCRIPTOR.pack(BUFFERS[ring] + slot * BUFFER, 0, 0, status, 0, 0))
            for offset, value in ((0, base), (4, 0), (8, 16 * SLOTS), (0x10, 0), (0x18, 0)):
                self.write(ring + offset, value)
        self.write(RECEIVE + 0x18, SLOTS - 1)
        self.write(CTRL, SLU)
        self.write(TCTL, ENABLE)
        self.write(RCTL, ENABLE | SECRC | BAM)

    def put(self, ring, slot, data):
        os.pwrite(MEMORY, data, RINGS[ring] + 16 * slot)

    def get(self, ring, slot):
        """The length and the status of a descriptor."""
        _, length, _, status, _, _ = DESCRIPTOR.unpack(os.pread(MEMORY, 16, RINGS[ring] + 16 * slot))
        return length, status

    def poll(self):
        """Takes the next frame from the ring, if it is finished. The board may play steps at each read of a register.
        """
        self.read(ICR)
        early, _ = self.get(RECEIVE, self.clean)
        self.read(STATUS)
        length, status = self.get(RECEIVE, self.clean)
        if not status & DD:
            return
        length = early if self.bug == "length" else length
        self.handle(bytearray(os.pread(MEMORY, length, BUFFERS[RECEIVE] + self.clean * BUFFER)))
        self.put(RECEIVE, self.clean, DESCRIPTOR.pack(BUFFERS[RECEIVE] + self.clean * BUFFER, 0, 0, 0, 0, 0))
        self.write(RECEIVE + 0x18, self.clean)
        self.clean = (self.clean + 1) % SLOTS
        if self.bug == "reset" and self.frames % RESET_EVERY == 0:
            self.frames += 1
            self.up()

    def transmit(self, frame):
        while not self.get(TRANSMIT, self.free)[1] & DD:
            self.read(STATUS)
        buffer = BUFFERS[TRANSMIT] + self.free * BUFFER
        os.pwrite(MEMORY, frame, buffer)
        self.put(TRANSMIT, self.free, struct.pack("<QHBBI", buffer, len(frame), 0, EOP_IFCS_RS, 0))
        self.free = (self.free + 1) % SLOTS
        self.write(TRANSMIT + 0x18, self.free)

    def handle(self, frame):
        """Answers a frame if it is a ping."""
        if len(frame) < ICMP + 8 or frame[12:14] != b"\x08\0" or frame[ICMP] != ECHO:
            return
        self.frames += 1
        has_bug = self.frames % BUG_EVERY == 0
        frame[0:12] = frame[6:12] + frame[0:6]
        frame[26:34] = frame[30:34] + frame[26:30]
        sum_then = int.from_bytes(frame[ICMP + 2:ICMP + 4], "big") + (ECHO << 8)
        frame[ICMP] = 0
        frame[ICMP + 2:ICMP + 4] = ((sum_then & 0xFFFF) + (sum_then >> 16)).to_bytes(2, "big")
        if has_bug and self.bug == "byte":
            frame[-1] ^= 1
            frame[42] ^= 1
        for _ in range(2 if has_bug and self.bug == "twice" else 0 if has_bug and self.bug == "lost" else 1):
            self.transmit(bytes(frame))


def main():
    path, bug = sys.argv[1:]
    start_qtest(path)
    host = Host(bug)
    host.start()
    host.up()
    while True:
        host.poll()


main()
