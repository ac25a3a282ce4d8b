"""What each request of a hostile driver must do: bytes of memory, fates, outcomes, heads, frames on the wire, faults.

`Expected` gets each request and its answer, in order, and memory after each request. Before a step it also gets RCTL,
TCTL and the registers of both rings; before an arrival, RCTL and PBA. docs/ADAPTER.md defines the rules.
"""

import struct
from collections import Counter, deque
from typing import NamedTuple

from driver import CTRL, PBA, RCTL, RDBAH, RDBAL, RDH, RDLEN, RDT, TCTL, TDBAH, TDBAL, TDH, TDLEN, TDT

# The engine of each step that may be a fault, as in the line that reports the fault
ENGINES = {"rxdata": "rx", "txtake": "tx"}

# The registers that decide a frame's fate, and what the next step does. Reading them changes nothing.
FOR_FRAMES = RCTL, PBA
FOR_STEPS = RCTL, RDBAL, RDBAH, RDLEN, RDH, RDT, TCTL, TDBAL, TDBAH, TDLEN, TDH, TDT

# Bits of CTRL, RCTL and TCTL, and fields of RCTL and PBA
RST, EN, PSP, BSEX, BSIZE, RXA = 1 << 26, 1 << 1, 1 << 3, 1 << 25, 3 << 16, 0xFFFF
# The size of a receive buffer for each value of RCTL.BSIZE
BUFFER_SIZES = {0 << 16: 2048, 1 << 16: 1024, 2 << 16: 512, 3 << 16: 256}
# Bits in the command of a transmit descriptor: the packet ends; report its status; it isn't a legacy descriptor
PACKET_ENDS, REPORT, EXTENDED = 1 << 0, 1 << 3, 1 << 5
# Bits in the status of a finished descriptor: it is done; its frame ends
DONE, FRAME_ENDS = 1 << 0, 1 << 1

DESCRIPTOR_BYTES, STATUS_PLACE, LENGTH_PLACE = 16, 12, 8
# The lengths of frames in bytes, and the number of frames in a full transmit packet buffer
SHORTEST, LONGEST, TRANSMIT_ROOM = 60, 1518, 4


def cost(length):
    """What a frame of this length in bytes takes of the receive packet buffer."""
    return -(-length // 16) * 16 + 16


class Found(Exception):
    """The adapter did something that it must not do."""


class Reason(NamedTuple):
    """Why a step is a fault: the word in the line that reports it, and more exactly for the counts."""

    word: str
    detail: str


class Told(NamedTuple):
    """The events before an answer: frames that were put on the wire, and faults of engines."""

    frames: list
    faults: list


class Ring:
    """A ring as its registers define it, the first of them RDBAL or TDBAL."""

    def __init__(self, registers, first):
        low, high, length, self.head, self.tail = (registers[first + place] for place in (0x00, 0x04, 0x08, 0x10, 0x18))
        self.base, self.size = high << 32 | low, length
        self.count = length // DESCRIPTOR_BYTES
        self.at_head = self.base + DESCRIPTOR_BYTES * self.head

    def has(self, address):
        """Whether one of the descriptors is at this address."""
        return 0 <= address - self.base < self.size

    def next_head(self):
        return self.head + 1 if self.head + 1 < self.count else 0


class Expected:
    """The adapter and its memory, as far as they are known from requests and answers."""

    def __init__(self, size):
        self.memory = bytearray(size)
        self.text = None  # memory in the form of an answer, or None if it has changed
        self.registers = {}  # the last answers to reads of registers
        self.kind = None  # the kind of the last step
        self.heads = {}  # what RDH and TDH must be after that step
        self.counts = Counter()
        self.forget()

    def forget(self):
        """Does what a reset does: packet buffers are empty, no piece is in progress, and no engine is stopped."""
        self.waiting = deque()  # the frames in the receive packet buffer
        self.moved = 0  # the number of bytes of the oldest frame that were moved to memory
        self.piece = None  # the descriptor of the piece in progress, and its bytes from the length on
        self.is_ring_moved = False  # whether RDBAL or RDBAH was written since that piece was moved
        self.taken = deque()  # the frames in the transmit packet buffer, each with its descriptor and its command
        self.stopped = set()  # the steps whose engine a fault has stopped

    # Memory

    def lacks(self, address, size):
        """Returns in words how an area is outside memory, or None if all of it is inside. Addresses don't wrap."""
        if address + size <= len(self.memory):
            return None
        if address + size > 1 << 64:
            return "past 2^64"
        return "partly outside memory" if address < len(self.memory) else "outside memory"

    def bytes_at(self, address, size):
        return bytes(self.memory[address:address + size])

    def put(self, address, data):
        self.memory[address:address + len(data)] = data
        self.text = None

    def look(self, request, answer):
        """Compares memory with what it must contain after a request."""
        self.text = self.text or f"0x{self.memory.hex()}"
        if answer == self.text:
            return
        seen = bytes.fromhex(answer[2:])
        if len(seen) != len(self.memory):
            raise Found(f"{request:.60}: memory has {len(seen)} bytes after it")
        wrong = [place for place, byte in enumerate(self.memory) if seen[place] != byte]
        raise Found(f"{request:.60}: after it, byte {wrong[0]:#x} of memory is {seen[wrong[0]]:#04x} instead of "
                    f"{self.memory[wrong[0]]:#04x} (wrong bytes: {len(wrong)})")

    # Requests other than steps

    def written(self, register, value):
        self.counts["writes"] += 1
        self.counts["writes with a piece in progress"] += self.piece is not None
        self.counts["writes with a frame in the transmit packet buffer"] += len(self.taken) > 0
        if register == CTRL and value & RST:
            self.counts["resets with a piece in progress"] += self.piece is not None
            self.counts["resets with a frame in the transmit packet buffer"] += len(self.taken) > 0
            self.forget()
        elif register in (RDBAL, RDBAH):
            self.is_ring_moved = True

    def arrived(self, frame, fate):
        """Checks a frame's fate. Whether the frame passes the filter isn't checked."""
        if not self.registers[RCTL] & EN:
            allowed = ["off"]
        elif not SHORTEST <= len(frame) <= LONGEST:
            allowed = ["illegal"]
        else:
            occupied, room = sum(cost(len(waiting)) for waiting in self.waiting), (self.registers[PBA] & RXA) * 1024
            allowed = ["filtered", "stored" if occupied + cost(len(frame)) <= room else "missed"]
        if fate not in allowed:
            raise Found(f"arrive: the fate is {fate} instead of {' or '.join(allowed)}")
        if fate == "stored":
            self.waiting.append(frame)
        self.counts[f"arrive {fate}"] += 1

    # Steps

    def step(self, kind, outcome, told):
        """Checks the outcome of a step and the events that were told before it, and notes what it must change."""
        receive, transmit = Ring(self.registers, RDBAL), Ring(self.registers, TDBAL)
        self.kind, self.heads = kind, {RDH: receive.head, TDH: transmit.head}
        allowed, reason = {"rxdata": self.of_rxdata, "rxdone": self.of_rxdone, "txtake": self.of_txtake,
                           "txput": self.of_txput}.get(kind, self.of_tick)(receive, transmit)
        if outcome not in allowed:
            raise Found(f"step {kind}: the outcome is {outcome} instead of {' or '.join(allowed)}")
        self.counts["steps"] += 1
        self.counts[f"{kind} {outcome}"] += 1
        if outcome == "fault":
            self.counts[f"{kind} fault: {reason.detail}"] += 1
            self.stopped.add(kind)
        elif outcome in ("part", "moved"):
            self.move(receive, transmit)
        elif outcome == "done":
            self.finish(receive)
        elif outcome == "took":
            self.take(receive, transmit)
        wanted = [self.send(transmit)] if outcome == "put" else []
        if told.frames != wanted:
            raise Found(f"step {kind}: there is {shown(told.frames)} on the wire instead of {shown(wanted)}")
        head = receive.head if kind == "rxdata" else transmit.head
        wanted = [f"{ENGINES[kind]} {head} {reason.word}"] if outcome == "fault" else []
        if told.faults != wanted:
            raise Found(f"step {kind}: the faults are {told.faults} instead of {wanted}")

    def head(self, register, value):
        """Checks RDH or TDH after a step."""
        if value != self.heads[register]:
            name = "RDH" if register == RDH else "TDH"
            raise Found(f"step {self.kind}: after it, {name} is {value} instead of {self.heads[register]}")

    def is_ready(self, kind, ring, control):
        """Whether an engine may run, and a descriptor is offered."""
        return control & EN and kind not in self.stopped and ring.head != ring.tail

    @staticmethod
    def no_ring(ring):
        """Returns why a ring can't be used, or None if it can."""
        if not ring.count:
            return Reason("ring", "no descriptors")
        if ring.head >= ring.count or ring.tail >= ring.count:
            return Reason("ring", "head outside the ring" if ring.head >= ring.count else "tail outside the ring")
        return None

    def outside(self, word, address, size):
        """Returns why a descriptor, a piece or a frame can't be at this address, or None if it can."""
        lacks = self.lacks(address, size)
        return Reason(word, f"{word} {lacks}") if lacks else None

    def of_rxdata(self, ring, _):
        """Returns the outcomes that RxData may have; and the reason if RxData must be a fault, or None."""
        if self.piece or not self.waiting or not self.is_ready("rxdata", ring, self.registers[RCTL]):
            return ["nothing"], None
        piece, is_last = self.next_piece()
        reason = self.no_ring(ring)
        if not reason and self.registers[RCTL] & BSEX:
            reason = Reason("bsex", "BSEX")
        reason = reason or self.outside("descriptor", ring.at_head, DESCRIPTOR_BYTES)
        reason = reason or self.outside("buffer", self.buffer_at(ring.at_head), len(piece))
        return ["fault" if reason else "moved" if is_last else "part"], reason

    def of_rxdone(self, *_):
        return ["done" if self.piece else "nothing"], None

    def of_txtake(self, _, ring):
        """Returns the outcomes that TxTake may have; and the reason if TxTake must be a fault, or None."""
        if len(self.taken) == TRANSMIT_ROOM or not self.is_ready("txtake", ring, self.registers[TCTL]):
            return ["nothing"], None
        reason = self.no_ring(ring) or self.outside("descriptor", ring.at_head, DESCRIPTOR_BYTES)
        reason = reason or self.no_frame(*self.transmit_descriptor(ring.at_head))
        return ["fault" if reason else "took"], reason

    def no_frame(self, address, length, command):
        """Returns why a transmit descriptor has no frame that the adapter takes, or None if it has one."""
        if command & EXTENDED:
            return Reason("dext", "DEXT")
        if not command & PACKET_ENDS:
            return Reason("eop", "EOP")
        if not 0 < length <= LONGEST:
            return Reason("length", "length")
        return self.outside("buffer", address, length)

    def of_txput(self, *_):
        return ["put" if self.taken else "nothing"], None

    @staticmethod
    def of_tick(*_):
        return ["nothing", "ticked"], None

    def next_piece(self):
        """Returns the bytes of the next piece, and whether it is the last of its frame."""
        size = BUFFER_SIZES[self.registers[RCTL] & BSIZE]
        frame = self.waiting[0]
        return frame[self.moved:self.moved + size], self.moved + size >= len(frame)

    def buffer_at(self, descriptor):
        """The address of the buffer that a descriptor points to."""
        return int.from_bytes(self.bytes_at(descriptor, 8), "little")

    def transmit_descriptor(self, descriptor):
        """The address, the length and the command in a legacy transmit descriptor."""
        return struct.unpack("<QHxB", self.bytes_at(descriptor, 12))

    def move(self, ring, transmit):
        """Moves a piece into the buffer of the descriptor at the head. After this, the piece is in progress."""
        piece, is_last = self.next_piece()
        buffer = self.buffer_at(ring.at_head)
        status = DONE | FRAME_ENDS if is_last else DONE
        self.piece = ring.at_head, struct.pack("<HHBBH", len(piece), 0, status, 0, 0)
        self.is_ring_moved = False
        self.counts["pieces over their own descriptors"] += meet(buffer, len(piece), ring.at_head, DESCRIPTOR_BYTES)
        self.counts["pieces over the transmit ring"] += meet(buffer, len(piece), transmit.base, transmit.size)
        self.put(buffer, piece)
        self.moved += len(piece)
        if is_last:
            self.waiting.popleft()
            self.moved = 0
        self.heads[RDH] = ring.next_head()

    def finish(self, ring):
        """Writes back the descriptor of the piece in progress, at the address where the descriptor was read."""
        descriptor, data = self.piece
        self.put(descriptor + LENGTH_PLACE, data)
        self.piece = None
        self.counts["write-backs after a write of RDBAL or RDBAH"] += self.is_ring_moved
        self.counts["write-backs outside the receive ring"] += not ring.has(descriptor)

    def take(self, receive, ring):
        """Moves the frame of the descriptor at the head into the transmit packet buffer."""
        address, length, command = self.transmit_descriptor(ring.at_head)
        frame = self.bytes_at(address, length)
        if self.registers[TCTL] & PSP:
            frame = frame.ljust(SHORTEST, b"\0")
        self.taken.append((ring.at_head, command, frame))
        self.counts["frames taken while the rings overlap"] += meet(receive.base, receive.size, ring.base, ring.size)
        self.heads[TDH] = ring.next_head()

    def send(self, ring):
        """Returns the oldest frame that was taken. If its descriptor had RS, one byte of this descriptor is written."""
        descriptor, command, frame = self.taken.popleft()
        if command & REPORT:
            self.put(descriptor + STATUS_PLACE, bytes([DONE]))
            self.counts["write-backs outside the transmit ring"] += not ring.has(descriptor)
        return frame


def meet(one, its_size, other, other_size):
    """Whether two intervals of addresses overlap."""
    return one < other + other_size and other < one + its_size


def shown(frames):
    """Frames with their lengths and bytes."""
    return " and ".join(f"a frame of {len(frame)} bytes ({frame.hex()})" for frame in frames) or "no frame"
