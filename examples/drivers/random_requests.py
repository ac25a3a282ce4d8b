"""The requests of a hostile driver. They depend on the seed and on the size of memory, and never on an answer."""

import base64
import struct

from adapter import REGISTERS
from driver import (
    CTRL, EERD, ICR, IMC, IMS, MDIC, MTA, PBA, RAL, RCTL, RDBAH, RDBAL, RDH, RDLEN, RDT, TCTL, TDBAH, TDBAL, TDH, TDLEN,
    TDT, VFTA)
from expected import BSEX, BUFFER_SIZES, DESCRIPTOR_BYTES, EN, EXTENDED, FOR_FRAMES, FOR_STEPS, PACKET_ENDS, RST

# Registers that driver.py doesn't use, and the size of the area of all registers in bytes
STATUS, VET, ICS, MPC, GPRC, GPTC, RNBC, AREA = 0x0008, 0x0038, 0x00C8, 0x4010, 0x4074, 0x4080, 0x40A0, 0x20000
KNOWN = [
    CTRL, STATUS, EERD, MDIC, VET, ICR, ICS, IMS, IMC, RCTL, TCTL, PBA, RDBAL, RDBAH, RDLEN, RDH, RDT, TDBAL, TDBAH,
    TDLEN, TDH, TDT, MPC, GPRC, GPTC, RNBC]
# Tables of registers: the first offset, and the number of words
TABLES = [(MTA, 128), (RAL, 32), (VFTA, 128)]
# The offsets of a ring's registers from its first, RDBAL or TDBAL
HIGH, LENGTH, HEAD, TAIL = 0x04, 0x08, 0x10, 0x18
# Bits of RCTL, EERD and MDIC, and the fields of MDIC: the data, the register and the PHY
UPE, MPE, BAM, VFE = 1 << 3, 1 << 4, 1 << 15, 1 << 18
START_READ, MDIC_WRITE, MDIC_READ, MDIC_INTERRUPT = 1, 1 << 26, 2 << 26, 1 << 29
MDIC_DATA, MDIC_REGISTER, PHY = 0xFFFF, 0x1F << 16, 1 << 21
WORD = 0xFFFFFFFF

TO_US, TO_ALL, TO_GROUP, SOURCE = "020000000001", "ffffffffffff", "01005e000001", "020000000009"
VLAN_TAG, INTERNET = "81000005", "0800"
# The kinds of steps, each as often as it is drawn in 24 steps on average
STEPS = ["rxdata"] * 7 + ["rxdone"] * 5 + ["txtake"] * 5 + ["txput"] * 5 + ["eeprom", "phy"]
# The number of acts before a step, and the least and the most steps between two initializations
ACTS, LEAST_STEPS, MOST_STEPS = [0, 0, 0, 1, 1, 2, 3], 8, 44
# The percentages of values that no correct driver uses
PERCENTAGES = [0, 2, 6, 25]
# The most bytes of a frame, and the most bytes that are stored at once, apart from a ring
MOST_BYTES, MOST_STORED = 1600, 600


class Words:
    """Random words: PCG XSH RR 64/32 (O'Neill, 2014), seeded from a number as in the crate rand_core."""

    MASK = 2**64 - 1
    MULTIPLIER = 6364136223846793005

    def __init__(self, seed):
        words = []
        for _ in range(4):
            seed = (seed * self.MULTIPLIER + 11634580027462260723) & self.MASK
            words.append(self.output(seed))
        self.increment = (words[3] << 32 | words[2]) | 1
        self.state = (words[1] << 32 | words[0]) + self.increment & self.MASK
        self.next()

    @staticmethod
    def output(state):
        word = ((state >> 18) ^ state) >> 27 & WORD
        turn = state >> 59
        return (word >> turn | word << (32 - turn)) & WORD

    def next(self):
        old = self.state
        self.state = (old * self.MULTIPLIER + self.increment) & self.MASK
        return self.output(old)

    def below(self, bound):
        """Returns a number from 0 to bound - 1."""
        return self.next() * bound >> 32

    def choose(self, items):
        return items[self.below(len(items))]

    def chance(self, percent):
        """Returns true with a probability of this percentage."""
        return self.below(100) < percent

    def word(self):
        """Returns any word, often a simple one."""
        return self.choose([self.next(), self.next(), self.next() & 0xFFFF, 1 << self.below(32), 0, WORD])


class RandomValues:
    """Draws addresses, lengths, descriptors and frames: those of a correct driver, and others at or past the limits."""

    def __init__(self, words, size):
        self.words, self.size = words, size
        self.wrong = 0  # the percentage of values that no correct driver uses
        self.rings = {RDBAL: (0, 8), TDBAL: (0, 8)}  # the last choice for each ring: a base and a number of descriptors
        self.stock = b"".join(words.next().to_bytes(4, "little") for _ in range(1024))

    def is_wrong(self):
        return self.words.chance(self.wrong)

    def any_ring(self):
        return self.words.choose([RDBAL, TDBAL])

    def any_bytes(self):
        """Returns random bytes, no fewer than a frame can have."""
        return self.stock[self.words.below(len(self.stock) - MOST_BYTES):]

    def near(self, address, distance):
        """Returns an address that is at most this far from another one."""
        return max(address + self.words.below(2 * distance + 1) - distance, 0) % 2**64

    def base(self, count):
        """A ring's base: in memory. If it is to be wrong: at or across the end of memory, over a ring, near 2^64, or
        anywhere.
        """
        size, words = DESCRIPTOR_BYTES * count, self.words
        room = max(self.size - size, 0)
        base = words.below(room + 1)
        if self.is_wrong():
            base = words.choose([
                room, room + words.below(size + 1), self.near(self.rings[self.any_ring()][0], size),
                2**64 - 1 - words.below(size), words.word(), words.word() << 32, words.word() << 32 | base])
        return base // DESCRIPTOR_BYTES * DESCRIPTOR_BYTES

    def address(self, length):
        """A buffer's address: in memory. If it is to be wrong: at or across the end of memory, in a ring, near 2^64, or
        anywhere.
        """
        words, room = self.words, max(self.size - length, 0)
        if not self.is_wrong():
            return words.below(room + 1)
        base, count = self.rings[self.any_ring()]
        return words.choose([
            room, room + words.below(length + 1), self.near(base, DESCRIPTOR_BYTES * count),
            2**64 - 1 - words.below(length + 1), words.word(), words.next() << 32 | words.word()])

    def slot(self, count):
        """An index of a descriptor; if the value is to be wrong, the number of descriptors, or any word."""
        return self.words.choose([count, self.words.word()]) if self.is_wrong() else self.words.below(count)

    def length_of_ring(self):
        choices = [0, self.words.word()] if self.is_wrong() else [128, 128, 128, 256, 256, 384, 512]
        return self.words.choose(choices)

    def control(self, first):
        """RCTL or TCTL: mostly enabled, with receive buffers of each size, and with and without padding."""
        words = self.words
        word = words.next() | EN
        if words.chance(6):
            word &= ~EN
        if first == TDBAL or self.is_wrong():
            return word
        word |= words.choose([UPE | MPE | BAM, UPE | BAM, BAM, 0])
        return word & ~(BSEX if words.chance(90) else BSEX | VFE)

    def descriptor(self, first):
        """A descriptor of the receive ring or of the transmit ring."""
        words = self.words
        high, low = words.next(), words.next()
        if first == RDBAL:
            return struct.pack("<QII", self.address(words.choose([60, *BUFFER_SIZES.values()])), high, low)
        length = words.choose([words.below(1518) + 1, words.below(1518) + 1, 1, 14, 60, 1518])
        command = (high & 0xFF | PACKET_ENDS) & ~EXTENDED
        address = self.address(length)
        if self.is_wrong():
            others = (0, command), (1519, command), (0xFFFF, command), (low & 0xFFFF, command), (length, high & 0xFF)
            length, command = words.choose(others)
        return struct.pack("<QHBBI", address, length, high >> 8 & 0xFF, command, low)

    def frame(self):
        """A frame to us, to all, to a group or to others, of 1 to 1,600 bytes. Its bytes may be descriptors."""
        words = self.words
        others = f"{words.next():08x}{words.next() >> 16:04x}"
        to = words.choose([TO_US, TO_ALL, TO_ALL, TO_GROUP, others])
        kind = VLAN_TAG if words.chance(10) else INTERNET
        body = self.any_bytes()
        if words.chance(20):
            body = self.descriptor(self.any_ring()) * (MOST_BYTES // DESCRIPTOR_BYTES)
        odd = words.choose([1, 59, 256, 257, 1519, MOST_BYTES])
        length = words.choose([words.below(MOST_BYTES) + 1, words.below(MOST_BYTES) + 1, 60, 60, 1518, odd])
        return (bytes.fromhex(f"{to}{SOURCE}{kind}") + body)[:length]


class RandomRequests:
    """Draws requests, each with the check of its answer, and of the events that came before the answer."""

    def __init__(self, words, expected):
        self.words, self.expected, self.size = words, expected, len(expected.memory)
        self.values = RandomValues(words, self.size)
        self.asked = [(request, lambda *_: None) for request in ("events on", "log on")]
        self.before_frames = [self.reading(register) for register in FOR_FRAMES]
        self.before_steps = [self.reading(register) for register in FOR_STEPS]
        self.acts = [act for weight, act in [
            (40, self.arrive), (10, self.move_tail), (8, self.write_ring), (6, self.write_control),
            (8, self.write_known), (5, self.write_table), (5, self.write_anywhere), (3, self.move_ring),
            (1, self.reset), (12, self.store_slot), (4, self.store_bytes), (2, self.fill), (5, self.read_register),
        ] for _ in range(weight)]

    # Requests

    def reading(self, register):
        """Returns a read of a register, with its check, which notes the value."""
        def check(answer, _):
            self.expected.registers[register] = int(answer, 16)
        return f"readl {REGISTERS + register:#x}", check

    def look(self, request):
        """Reads memory after a request."""
        self.asked.append((f"read 0 {self.size}", lambda answer, _: self.expected.look(request, answer)))

    def ask(self, request, check):
        self.asked.append((request, check))
        self.look(request)

    def write(self, register, value):
        self.ask(f"writel {REGISTERS + register:#x} {value:#x}", lambda *_: self.expected.written(register, value))

    def store(self, address, data):
        """Stores bytes if memory contains all of them. Those at an odd address are sent in base64."""
        if address + len(data) <= self.size:
            request = f"write {address:#x} {len(data)} 0x{data.hex()}"
            if address % 2 and data:
                request = f"b64write {address:#x} {len(data)} {base64.b64encode(data).decode()}"
            self.ask(request, lambda *_: self.expected.put(address, data))

    def step(self):
        """Plays a step of the adapter. The registers of both rings are read before it, and both heads after it."""
        kind = self.words.choose(STEPS)
        self.asked += self.before_steps
        self.asked.append((f"step {kind}", lambda outcome, told: self.expected.step(kind, outcome, told)))
        self.asked.append((f"readl {REGISTERS + RDH:#x}", lambda answer, _: self.expected.head(RDH, int(answer, 16))))
        self.asked.append((f"readl {REGISTERS + TDH:#x}", lambda answer, _: self.expected.head(TDH, int(answer, 16))))
        self.look(f"step {kind}")

    # What the driver does between steps

    def arrive(self):
        frame = self.values.frame()
        self.asked += self.before_frames
        self.ask(f"arrive {frame.hex()}", lambda fate, _: self.expected.arrived(frame, fate))

    def move_tail(self):
        first = self.values.any_ring()
        self.write(first + TAIL, self.values.slot(self.values.rings[first][1]))

    def write_ring(self):
        """Writes one register of a ring."""
        first = self.values.any_ring()
        _, count = self.values.rings[first]
        place = self.words.choose([0, HIGH, LENGTH, HEAD, TAIL])
        high = 0 if self.words.chance(70) else self.words.word()
        slot, length, low = self.values.slot(count), self.values.length_of_ring(), self.values.base(count) & WORD
        self.write(first + place, {0: low, HIGH: high, LENGTH: length}.get(place, slot))

    def write_control(self):
        first = self.values.any_ring()
        self.write(RCTL if first == RDBAL else TCTL, self.values.control(first))

    def write_known(self):
        """Writes a register of the adapter, but doesn't reset the adapter."""
        register, word = self.words.choose(KNOWN), self.words.word()
        if register == EERD:
            word |= START_READ
        if register == MDIC and self.words.chance(70):
            word &= MDIC_DATA | MDIC_REGISTER | MDIC_INTERRUPT
            word |= PHY | self.words.choose([MDIC_WRITE, MDIC_READ])
        if register == CTRL:
            word &= ~RST
        self.write(register, word)

    def write_table(self):
        first, count = self.words.choose(TABLES)
        self.write(first + 4 * self.words.below(count), self.words.word())

    def write_anywhere(self):
        """Writes at any offset. Most offsets have no register."""
        place, word = 4 * self.words.below(AREA // 4), self.words.word()
        self.write(place, word)

    def move_ring(self):
        """Writes a ring's base, mostly without storing the ring's descriptors there."""
        first = self.values.any_ring()
        _, count = self.values.rings[first]
        base = self.values.base(count)
        self.values.rings[first] = base, count
        self.write(first, base & WORD)
        self.write(first + HIGH, base >> 32)
        if self.words.chance(30):
            self.store_ring(first)

    def reset(self):
        self.write(CTRL, self.words.word() | RST)

    def store_slot(self):
        """Stores a descriptor of a ring, or the end of a descriptor."""
        first = self.values.any_ring()
        base, count = self.values.rings[first]
        place, data = DESCRIPTOR_BYTES * self.words.below(count), self.values.descriptor(first)
        begin = 0 if self.words.chance(80) else self.words.below(DESCRIPTOR_BYTES)
        self.store(base + place + begin, data[begin:])

    def store_ring(self, first):
        """Stores all descriptors of a ring. The buffers of some rings are the rings themselves."""
        base, count = self.values.rings[first]
        slots = [self.values.descriptor(first) for _ in range(count)]
        if self.words.chance(8):
            slots = [base.to_bytes(8, "little") + slot[8:] for slot in slots]
        self.store(base, b"".join(slots))

    def any_area(self):
        """Returns the address and the size of an area in memory."""
        begin = self.words.below(self.size + 1)
        return begin, self.words.below(min(self.size - begin, MOST_STORED) + 1)

    def store_bytes(self):
        begin, size = self.any_area()
        self.store(begin, self.values.any_bytes()[:size])

    def fill(self):
        (begin, size), value = self.any_area(), self.words.next() & 0xFF
        self.ask(f"memset {begin:#x} {size} {value:#x}", lambda *_: self.expected.put(begin, bytes([value]) * size))

    def read_register(self):
        """Reads at any offset, mostly of a register."""
        first, count = self.words.choose(TABLES)
        places = self.words.choose(KNOWN), first + 4 * self.words.below(count), 4 * self.words.below(AREA // 4)
        self.ask(f"readl {REGISTERS + self.words.choose(places):#x}", lambda *_: None)

    # A driver that begins again and again

    def set_up(self, first):
        """Chooses a ring, stores its descriptors, and writes its registers, beginning with any of them."""
        words, values = self.words, self.values
        length = values.length_of_ring()
        count = length // DESCRIPTOR_BYTES if 128 <= length <= 512 else 8
        base = values.base(count)
        values.rings[first] = base, count
        self.store_ring(first)
        pairs = [(0, base & WORD), (HIGH, base >> 32), (LENGTH, length), (HEAD, values.slot(count)),
                 (TAIL, values.slot(count))]
        begin = words.below(len(pairs))
        for place, word in pairs[begin:] + pairs[:begin]:
            self.write(first + place, word)
        self.write(RCTL if first == RDBAL else TCTL, values.control(first))

    def phase(self, most):
        """Draws requests that mostly reset the adapter and set up each ring, and then steps. Returns the number of
        steps, which is at most `most`.
        """
        words = self.words
        self.values.wrong = words.choose(PERCENTAGES)
        if words.chance(80):
            self.reset()
        for first in words.choose([[RDBAL, TDBAL], [TDBAL, RDBAL]]):
            if words.chance(90):
                self.set_up(first)
        if words.chance(40):
            self.write(PBA, words.choose([2, 8, 16, 48, words.word()]))
        if words.chance(40):
            self.write(IMS, words.word())
        steps = min(most, LEAST_STEPS + words.below(MOST_STEPS + 1 - LEAST_STEPS))
        for _ in range(steps):
            for _ in range(words.choose(ACTS)):
                words.choose(self.acts)()
            self.step()
        return steps

    def take(self):
        """Returns what was drawn since the last call."""
        asked, self.asked = self.asked, []
        return asked
