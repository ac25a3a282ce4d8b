"""A guest that does its worst to the board of machines/, in the place of QEMU.

usage: board .. -- python3 machines/tests/guests/linux_hostile.py SOCKET SEED MESSAGES

The board starts this script with descriptor 3, the connection of QEMU's x-pci-proxy-dev, and descriptor 4, the guest's
memory. SOCKET is where QEMU would answer qtest. The script sends drawn accesses, each of which the board must answer
within ten seconds. Rings and descriptors are in memory, wild, or halfway outside; sizes and addresses of accesses are
arbitrary. It prints 'N messages were answered'.
"""

import os
import random
import socket
import struct
import sys
import threading

CONNECTION, MEMORY = 3, 4
SYNC, RETURN, CONFIGURATION_WRITE, CONFIGURATION_READ, BAR_WRITE, BAR_READ, SET_INTERRUPT, RESET = range(8)
REGISTERS, WINDOW = 0xFEB00000, 0xC000
ENABLE, PROMISCUOUS = 2, 0x18
WILD = (0, 1, 0xF, 0x7F, 0x80, 0xFFF, 0x1000, 0x7FFFFFFF, 0x80000000, 0xFFFFFFFF, 0xFEB00000, 0xC8)
HEADER, ANSWER_SECONDS = struct.Struct("<iiQ"), 10


class Guest:
    """The guest's end of the connection."""

    def __init__(self, seed):
        self.draw = random.Random(seed)
        self.connection = socket.socket(fileno=CONNECTION)
        self.connection.settimeout(ANSWER_SECONDS)
        self.size = os.fstat(MEMORY).st_size
        self.answered = 0

    def send(self, command, data, files=()):
        message = HEADER.pack(command, 0, len(data)) + data
        if files:
            socket.send_fds(self.connection, [message], files)
        else:
            self.connection.sendall(message)

    def ask(self, command, data):
        """Sends a message, and returns the value of its answer."""
        self.send(command, data)
        answer = b""
        while len(answer) < HEADER.size + 8:
            part = self.connection.recv(HEADER.size + 8 - len(answer))
            if not part:
                sys.exit(f"the board ended after {self.answered} messages")
            answer += part
        self.answered += 1
        return struct.unpack_from("<Q", answer, HEADER.size)[0]

    def write(self, offset, value):
        return self.ask(BAR_WRITE, struct.pack("<QQIB7x", REGISTERS + offset, value & 0xFFFFFFFF, 4, 1))

    def read(self, offset):
        return self.ask(BAR_READ, struct.pack("<QQIB7x", REGISTERS + offset, 0, 4, 1))

    def number(self):
        """A number that may be at a limit, in memory, or anywhere."""
        kind = self.draw.randrange(4)
        if kind == 0:
            return self.draw.choice(WILD)
        if kind == 1:
            return self.draw.randrange(self.size)
        return self.draw.getrandbits(self.draw.choice((4, 8, 12, 16, 32)))

    def start(self):
        """Shares memory, and sets up the function."""
        half = self.size // 2
        addresses = [0, half + 4096] + [0] * 6  # with a hole
        sizes, offsets = [half, half - 4096] + [0] * 6, [0, half + 4096] + [0] * 6
        self.send(SYNC, struct.pack("<24Q", *addresses, *sizes, *offsets), [MEMORY, MEMORY])
        for offset, value in ((0x10, REGISTERS), (0x14, WINDOW), (4, 7), (0x3C, 11)):
            self.ask(CONFIGURATION_WRITE, struct.pack("<IIi", offset, value, 4 if offset < 0x3C else 1))

    def descriptors(self, count):
        """Drawn descriptors, most of which have an address in memory and a size of a frame."""
        data = bytearray(self.draw.randbytes(16 * count))
        for at in range(0, len(data), 16):
            if self.draw.randrange(8):
                address, size = self.draw.randrange(self.size), self.draw.randrange(1600)
                struct.pack_into("<QHBBI", data, at, address, size, 0, 0x9, 0)
        return bytes(data)

    def offer(self, ring):
        """Stores drawn descriptors, and writes a ring's registers, one of which may have any value."""
        base, wild = self.draw.randrange(0, self.size, 16), self.draw.randrange(8)
        os.pwrite(MEMORY, self.descriptors(64)[:self.size - base], base)
        values = [base, 0, 1024, 0, self.draw.choice((1, 17, 63))]
        if wild < len(values):
            values[wild] = self.number()
        for offset, value in zip((0, 4, 8, 0x10, 0x18), values):
            self.write(ring + offset, value)

    def send_ping(self):
        """Offers a drawn frame, or a part of it, up to 31 times. Mostly the frame is a ping or a datagram to the wire's
        other end.
        """
        frame = bytes.fromhex("0200000000020200000000010800") + self.draw.choice((
            bytes.fromhex("450000540000400040010000" "0a0000010a000002" "0800000000000000") + bytes(60),
            bytes.fromhex("450005dc0000200040010000" "0a0000010a000002" "0800000000000000") + bytes(1460),
            bytes.fromhex("4500ffff0000400040110000" "0a0000010a000002" "00090009ffff0000") + self.draw.randbytes(40),
            bytes.fromhex("4500002c0000400040110000" "0a0000010a000002" "0009000900180000") + self.draw.randbytes(16),
            self.draw.randbytes(100)))
        size = self.draw.choice((len(frame), len(frame), 60, 14, 1))
        os.pwrite(MEMORY, frame, 0x1000)
        os.pwrite(MEMORY, 32 * struct.pack("<QHBBI", 0x1000, size, 0, 0xB, 0), 0x2000)
        for offset, value in ((0, 0x2000), (4, 0), (8, 512), (0x10, 0), (0x18, self.draw.randrange(1, 32))):
            self.write(0x3800 + offset, value)
        self.write(0x400, ENABLE)

    def exchange(self):
        """The adapter is reset, receives into a drawn ring, and sends."""
        self.write(0, 1 << 26)
        self.offer(0x2800)
        self.write(0x100, ENABLE | PROMISCUOUS | self.draw.getrandbits(2) << 16 | (self.draw.randrange(4) == 0) << 26)
        if self.draw.randrange(3):
            self.send_ping()
        else:
            self.offer(0x3800)
            self.write(0x400, ENABLE)

    def access(self):
        """An access of any kind, of any size, anywhere."""
        kind, size = self.draw.randrange(6), self.draw.choice((0, 1, 2, 3, 4, 4, 4, 8, 255))
        if kind < 4:
            is_memory = self.draw.randrange(2)
            begin, area = (REGISTERS, 0x20000) if is_memory else (WINDOW, 64)
            place = self.draw.choice((self.draw.randrange(0, area, 4), self.draw.randrange(area), self.number()))
            data = struct.pack("<QQIB7x", begin + place, self.number(), size, is_memory)
            self.ask(BAR_WRITE if kind & 1 else BAR_READ, data)
        elif kind == 4:
            self.ask(CONFIGURATION_READ, struct.pack("<IIi", self.number(), 0, self.draw.choice((-1, 0, 1, 2, 4, 9))))
        else:  # not the registers with the addresses of the windows
            offset = self.draw.choice((0, 4, 0xC, 0x2C, 0x3D, 0x40, 0xFC, 0xFF, 0x100, 0xFFFFFFFE))
            size = self.draw.choice((-1, 0, 1, 2, 4, 9))
            self.ask(CONFIGURATION_WRITE, struct.pack("<IIi", offset, self.number(), size))

    def act(self):
        kind = self.draw.randrange(12)
        if kind == 0:
            self.exchange()
        elif kind == 1:
            self.send_ping()
        elif kind == 2 and self.draw.randrange(20) == 0:
            self.ask(RESET, b"")
        else:
            self.access()


def answer_qtest(listener):
    """Answers `OK` to what the board sends over qtest, as QEMU does for each line."""
    connection, _ = listener.accept()
    while connection.recv(4096):
        connection.sendall(b"OK\n")


def start_qtest(path):
    """Answers qtest at this path."""
    listener = socket.socket(socket.AF_UNIX)
    listener.bind(path)
    listener.listen()
    threading.Thread(target=answer_qtest, args=(listener,), daemon=True).start()


def main():
    path, seed, messages = sys.argv[1], int(sys.argv[2]), int(sys.argv[3])
    start_qtest(path)
    guest = Guest(seed)
    guest.start()
    while guest.answered < messages:
        guest.act()
    print(f"{guest.answered} messages were answered")


if __name__ == "__main__":
    main()
