"""The adapter of `nicbench serve` in a machine as QEMU's `pc`: its wire, and the number of its interrupt."""

import socket
import struct
import sys
from collections import deque

from emulators import Emulator
from machine_options import DEVICE, Unusable

# Cycles of steps after each access: a ring has at most 65,528 descriptors, so the adapter has no more work than this.
ROUNDS = 65_535
# The lengths of frames in bytes: of the shortest on a wire, and of the longest over a socket of QEMU
SHORTEST, MOST = 60, 69_632
# Ports of PCI configuration (PCI 2.2, 3.2.2.3.2), the widths of their accesses, and offsets in configuration space
ADDRESS_PORT, DATA_PORT, WIDTHS = 0xCF8, 0xCFC, {"b": 1, "w": 2, "l": 4}
COMMAND, BAR0, LINE, MEMORY_SPACE = 0x04, 0x10, 0x3C, 2
# The adapter as QEMU has it before firmware runs, without memory space and without an address
UNCONFIGURED = [(COMMAND, 0), (BAR0, 0), (LINE, 0)]
# Where the registers are while the machine is reset, and the value of CTRL that resets the adapter
RESET_ADDRESS, RESET = 0xFEB00000, 1 << 26


class Wire:
    """The socket of a netdev. Each frame has four bytes of length before it, the highest first."""

    def __init__(self, descriptor):
        try:
            self.socket = socket.socket(fileno=descriptor)
        except OSError as error:
            raise Unusable(f"-netdev socket,fd={descriptor}: {error}") from None
        if self.socket.type != socket.SOCK_STREAM:
            raise Unusable(f"-netdev socket,fd={descriptor}: only a stream")
        self.socket.setblocking(False)
        self.come, self.gone = b"", b""  # bytes that have come, and that wait to be sent
        self.is_open = True

    def fileno(self):
        return self.socket.fileno()

    def receive(self):
        """Takes the bytes that have come."""
        try:
            data = self.socket.recv(1 << 20)
            self.is_open = bool(data)
            self.come += data
        except BlockingIOError:
            pass
        except ConnectionResetError:
            self.is_open = False

    def frames(self):
        """The complete frames that have come. Short frames are padded, as on a wire."""
        if self.is_open:
            self.receive()
        found = []
        while len(self.come) >= 4 and len(self.come) - 4 >= (size := self.size()):
            found.append(self.come[4:4 + size].ljust(SHORTEST, b"\0"))
            self.come = self.come[4 + size:]
        return found

    def size(self):
        """The length of the next frame."""
        size, = struct.unpack_from(">I", self.come)
        if size > MOST:
            raise Unusable(f"the wire has a frame of {size} bytes: QEMU takes at most {MOST}")
        return size

    def send(self, frame):
        self.gone += struct.pack(">I", len(frame)) + frame
        self.flush()

    def flush(self):
        """Sends what the socket takes now. The rest waits."""
        try:
            while self.gone and self.is_open:
                self.gone = self.gone[self.socket.send(self.gone):]
        except BlockingIOError:
            pass
        except (BrokenPipeError, ConnectionResetError):
            self.is_open = False


class Interrupts:
    """The PCI bridge of the machine (PIIX3, device 1), as far as it routes the interrupt of the adapter.

    A client writes the number of an interrupt to a register of the bridge. For pin A of device 4, this is PIRQD.
    """

    SELECTED, ROUTES, ROUTE, OFF = 0x80000800, range(0x60, 0x64), 0x63, 0x80
    # The bridge's ids, its class and its header (PCI 2.2, 6.1)
    FIRST = {0x00: 0x86, 0x01: 0x80, 0x02: 0x00, 0x03: 0x70, 0x0A: 0x01, 0x0B: 0x06, 0x0E: 0x80}

    def __init__(self):
        self.is_reported = False  # whether the client has asked for lines about interrupts
        self.told = None  # the number that was reported as raised
        self.reset()

    def reset(self):
        self.bytes = bytearray(self.FIRST.get(place, self.OFF if place in self.ROUTES else 0) for place in range(256))
        self.address = 0
        self.is_asserted = False

    def port(self, request):
        """The answer to an access of the bridge's configuration, or None if the request is something else."""
        name, *words = request.split() or [""]
        width = WIDTHS.get(name[-1:])
        if width is None or (name[:-1], len(words)) not in (("in", 1), ("out", 2)):
            return None
        try:
            port, *values = (int(word, 0) for word in words)
        except ValueError:
            return None
        if (name, port) == ("outl", ADDRESS_PORT):
            self.address = values[0] & 0x80FFFFFC
        lane = port - DATA_PORT
        if not 0 <= lane <= 4 - width or self.address & ~0xFF != self.SELECTED:
            return None
        place = (self.address & 0xFC) + lane
        if values:
            self.write(place, (values[0] & (1 << 8 * width) - 1).to_bytes(width, "little"))
            return "OK"
        return f"OK 0x{int.from_bytes(self.bytes[place:place + width], 'little'):016x}"

    def write(self, place, data):
        """Writes bytes of configuration. Only those of the routes are stored."""
        for at, byte in enumerate(data, place):
            if at in self.ROUTES:
                self.bytes[at] = byte

    def lines(self):
        """The lines that report where the interrupt is raised now, if the client has asked for them."""
        route = self.bytes[self.ROUTE]
        number = route if self.is_asserted and route < 16 else None
        if number == self.told or not self.is_reported:
            return []
        told, self.told = self.told, number
        return [f"IRQ {level} {which}" for level, which in (("lower", told), ("raise", number)) if which is not None]


class Pc(Emulator):
    """The machine: it answers a client's requests, and the frames of its wire arrive."""

    def __init__(self, program, options):
        words = [program, "serve", "--memory", str(options.memory), "--address", options.address]
        super().__init__(words, 0)
        self.interrupts = Interrupts()
        self.wire = Wire(options.wire) if options.wire is not None else None
        self.waiting = deque()  # frames that wait while the adapter doesn't receive
        self.expect_ok("events on")
        self.expect_ok(f"pace {ROUNDS}")
        self.configure(UNCONFIGURED)

    def configure(self, pairs):
        """Writes double words of the adapter's configuration, each pair an offset and a value."""
        for offset, value in pairs:
            self.expect_ok(f"outl {ADDRESS_PORT:#x} {0x80000000 | DEVICE << 11 | offset:#x}")
            self.expect_ok(f"outl {DATA_PORT:#x} {value:#x}")
        self.expect_ok(f"outl {ADDRESS_PORT:#x} 0")

    def reset(self):
        """Resets the adapter and the bridge, as a reset of the machine does. Returns the lines about the interrupt."""
        self.configure([(BAR0, RESET_ADDRESS), (COMMAND, MEMORY_SPACE)])
        self.expect_ok(f"writel {RESET_ADDRESS:#x} {RESET:#x}")
        self.configure(UNCONFIGURED)
        self.interrupts.reset()
        return self.interrupts.lines()

    def hear(self, lines):
        """Sends the server's frames on the wire, and prints its faults. Returns the lines about the interrupt for the
        client.
        """
        told = []
        for line in lines:
            word, *rest = line.split()
            if word == "IRQ":
                self.interrupts.is_asserted = rest[0] == "raise"
                told += self.interrupts.lines()
            elif word == "frame" and self.wire:
                self.wire.send(bytes.fromhex(rest[0]))
            elif word == "fault":
                print(f"qemu-system-nicbench: {line}: docs/REQUESTS.md explains the reason", file=sys.stderr,
                    flush=True)
        return told

    def request(self, line):
        """The lines that a client gets for a request, the answer last."""
        told = self.arrivals()
        answer = self.interrupts.port(line)
        if answer is None:
            answer, lines = self.ask(line)
            told += self.hear(lines)
        if line.startswith("irq_intercept") and answer == "OK":
            self.interrupts.is_reported = True
        told += self.interrupts.lines()
        if self.waiting and line.startswith(("write", "b64write", "memset", "out")):
            told += self.deliver()
        return [*told, answer]

    def arrivals(self):
        """Lets the frames that have come on the wire arrive. Returns the lines that this causes."""
        self.waiting += self.wire.frames() if self.wire else []
        return self.deliver()

    def deliver(self):
        """Lets the frames that wait arrive, in order. While the adapter doesn't receive, they wait, as in QEMU.
        Returns the lines that this causes.
        """
        told = []
        while self.waiting:
            fate, lines = self.ask(f"arrive {self.waiting[0].hex()}")
            if fate == "OK off":
                break
            self.waiting.popleft()
            told += self.hear(lines)
        return told
