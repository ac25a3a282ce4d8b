"""One emulator in a comparison: what it shows at each request."""

import struct

from registers import offset_of

# The rings, the buffers, and what is compared of memory: its name, its address and its size
SLOTS, DESCRIPTOR, BUFFER = 8, 16, 2048
RECEIVE_RING, TRANSMIT_RING, RECEIVE_BUFFERS, TRANSMIT_BUFFERS = 0x1000, 0x2000, 0x10000, 0x20000
AREAS = {
    "receive ring": (RECEIVE_RING, DESCRIPTOR * SLOTS), "transmit ring": (TRANSMIT_RING, DESCRIPTOR * SLOTS),
    "receive buffers": (RECEIVE_BUFFERS, BUFFER * SLOTS)}
# The sizes of receive buffers, by RCTL.BSIZE
SIZES = [2048, 1024, 512, 256]
# How far the last two bytes of an address are shifted for its number in the group table, by RCTL.MO
HASH_SHIFTS = [4, 3, 2, 0]

# What comes before each list: interrupts off, the link up, memory cleared, rings without offered slots, both engines
# on, and ICR and the counters read
FIRST = [
    "writel IMC 0xffffffff", "writel CTRL 0x40", "writel MDIC 0x04201200", "link",
    *(f"memset {address:#x} {size:#x} 0" for address, size in AREAS.values()),
    f"writel RDBAL {RECEIVE_RING:#x}", "writel RDBAH 0", f"writel RDLEN {DESCRIPTOR * SLOTS}", "writel RDH 0",
    "writel RDT 0", f"writel TDBAL {TRANSMIT_RING:#x}", "writel TDBAH 0", f"writel TDLEN {DESCRIPTOR * SLOTS}",
    "writel TDH 0", "writel TDT 0",
    "writel RCTL 0x04008002", "writel TCTL 0x400fa", "readl MPC", "readl GPRC", "readl GPTC", "readl RNBC", "readl ICR"]
# After these requests the rings and buffers are compared.
MOVING = ("writel RDT", "writel TDT", "arrive", "deliver")
ORDER = "order of frames and interrupts"


class Seen:
    """What an emulator showed at a request: the answer, the frames that it sent, the changes of its interrupt line, and
    perhaps memory."""

    def __init__(self, request, answer, told, memory):
        self.request = request
        self.parts = {
            "answer": answer, "frames": [line for line in told if line.startswith("frame")],
            "interrupt line": [line for line in told if line.startswith("IRQ")], **memory}


def bytes_in(answer, size):
    """The bytes in an answer to `read`, or the answer itself if it doesn't have them."""
    try:
        found = bytes.fromhex(answer[5:]) if answer.startswith("OK 0x") else b""
    except ValueError:
        return answer
    return found if len(found) == size else answer


class Session:
    """An emulator that does requests, with the link up and rings without offered slots.

    With `has_link` False, nothing waits for the link. With `has_order`, the order of frames and of changes of the
    interrupt line is seen, too.
    """

    def __init__(self, emulator, has_link=True, has_order=False):
        self.emulator, self.has_link, self.has_order = emulator, has_link, has_order
        for request in FIRST:
            self.plain(request)

    def memory(self):
        return {name: bytes_in(self.emulator.ask(f"read {address:#x} {size:#x}")[0], size)
                for name, (address, size) in AREAS.items()}

    def plain(self, request):
        """Does one request, lets the adapter do its work, and returns what was seen."""
        word, *rest = request.split()
        if word == "link":
            if self.has_link:
                self.emulator.await_link()
            return Seen(request, "OK", [], {})
        if word in ("arrive", "deliver"):
            answer, told = "OK", self.emulator.arrive(bytes.fromhex(rest[0]))[1]
        else:
            if word in ("readl", "writel"):
                rest[0] = hex(self.emulator.registers + offset_of(rest[0]))
            answer, told = self.emulator.ask(" ".join([word, *rest]))
        told = told + self.emulator.work()
        more = self.memory() if request.startswith(MOVING) else {}
        if self.has_order:
            more[ORDER] = [" ".join(line.split()[:2 if line.startswith("IRQ") else 1]) for line in told
                           if line.startswith(("frame", "IRQ"))]
        return Seen(request, answer, told, more)

    def value(self, name):
        """Reads a register that a read doesn't change."""
        return self.emulator.number(f"readl {self.emulator.registers + offset_of(name):#x}")[0]

    def free(self):
        """The number of receive slots that the adapter may use."""
        return (self.value("RDT") - self.value("RDH")) % SLOTS

    def offers(self, most):
        """Yields the requests that offer receive slots, up to `most`."""
        tail = self.value("RDT")
        count = min(most, SLOTS - 1 - self.free())
        for slot in ((tail + number) % SLOTS for number in range(count)):
            descriptor = struct.pack("<QQ", RECEIVE_BUFFERS + BUFFER * slot, 0)
            yield f"write {RECEIVE_RING + DESCRIPTOR * slot:#x} {DESCRIPTOR} 0x{descriptor.hex()}"
        yield f"writel RDT {(tail + count) % SLOTS}"

    def sends(self, command, frame):
        """Yields the requests that send a frame."""
        slot = self.value("TDT")
        buffer, size = TRANSMIT_BUFFERS + BUFFER * slot, len(frame) // 2
        descriptor = struct.pack("<QHBBI", buffer, size, 0, command, 0)
        yield f"write {buffer:#x} {size} 0x{frame}"
        yield f"write {TRANSMIT_RING + DESCRIPTOR * slot:#x} {DESCRIPTOR} 0x{descriptor.hex()}"
        yield f"writel TDT {(slot + 1) % SLOTS}"

    def is_in_table(self, address, rctl):
        """Whether the bit of an individual address is set in the group table: QEMU looks up such addresses, too."""
        number = int.from_bytes(address[4:6], "little") >> HASH_SHIFTS[rctl >> 12 & 3] & 0xFFF
        return not address[0] & 1 and self.value(f"MTA({number >> 5})") >> (number & 31) & 1

    def arrives(self, frame):
        """Yields the arrival of a frame, if the ring has room for it, and QEMU doesn't find its address in the group
        table. The request `deliver` is an arrival in any case.
        """
        rctl = self.value("RCTL")
        slots = -(-len(frame) // 2 // SIZES[rctl >> 16 & 3])
        if slots <= self.free() and not self.is_in_table(bytes.fromhex(frame[:12]), rctl):
            yield f"arrive {frame}"

    def transmitter(self, value):
        """Writes TCTL, and records TXQE: QEMU records it by itself at this write. Both requests are seen as one."""
        first, second = self.plain(f"writel TCTL {value}"), self.plain("writel ICS 0x2")
        for name in ("frames", "interrupt line"):
            first.parts[name] += second.parts[name]
        return first

    def do(self, request):
        """Does a request, and returns what was seen at each request that it stands for."""
        word, *rest = request.split()
        if word == "transmitter":
            return [self.transmitter(rest[0])]
        if word == "offer":
            requests = self.offers(int(rest[0]))
        elif word == "send":
            requests = self.sends(int(rest[0], 0), rest[1])
        elif word == "arrive":
            requests = self.arrives(rest[0])
        else:
            requests = [request]
        return [self.plain(plain) for plain in list(requests)]
