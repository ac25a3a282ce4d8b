"""A model of `nicbench drive`: each access of its driver, in order, depending on the answers of the device.

The model is a generator. It yields an access, and is then sent the value that was read, the bytes that were loaded or
stored, or None after a write. An access is a tuple: its kind, its place, and its value, size or bytes. The last item is
None for a read of a register. It is also None for the store of a descriptor with a receive buffer, because the driver
may choose any buffer that is free.
"""

CTRL, EERD, MDIC, ICR, IMS = 0x0000, 0x0014, 0x0020, 0x00C0, 0x00D0
IMC, RCTL, TCTL, PBA = 0x00D8, 0x0100, 0x0400, 0x1000
RDBAL, RDT, TDBAL, TDT, MPC, MTA, RAL, VFTA = 0x2800, 0x2818, 0x3800, 0x3818, 0x4010, 0x5200, 0x5400, 0x5600
# TXDW, RXDMT0, RXO and RXT0, which the driver handles
HANDLED = 1 << 0 | 1 << 4 | 1 << 6 | 1 << 7
# How many times the driver reads a register that it waits for, before it gives up
MOST_READS = 1000
MOST_PARTS, PIECE, DESCRIPTOR, TRANSMIT_BUFFER = 6, 256, 16, 2048
DD, EOP = 1, 2
LEAST, MOST, SHORTEST_SENDABLE = 60, 1518, 14
GREATEST_COUNT, GREATEST_SUM = 2**32 - 1, 2**64 - 1


class Refused(Exception):
    """Raised if the adapter can't be initialized. Its text is the code and the name of the error."""


def read(register):
    return "read", register, None


def write(register, value):
    return "write", register, value


def load(address, size):
    return "load", address, size


def store(address, data=None):
    return "store", address, data


class Driver:
    """The driver, with a socket for all frames."""

    def __init__(self, rx=8, tx=8, buffers=16):
        self.rx, self.tx, self.buffers = rx, tx, buffers
        start = -(-DESCRIPTOR * (rx + tx) // TRANSMIT_BUFFER) * TRANSMIT_BUFFER
        self.transmit_buffers, self.receive_buffers = start, start + TRANSMIT_BUFFER * tx
        self.memory = self.receive_buffers + PIECE * buffers
        # the oldest outstanding receive slot; the buffers of the outstanding slots; for each frame in the queue, its
        # buffers, each with its piece's length. All other buffers are free.
        self.oldest, self.ring, self.queue = 0, [], []
        self.oldest_sent = self.sending = 0
        self.missed, self.is_exact = 0, True

    # Initialization.

    def word(self, number):
        yield write(EERD, number << 8 | 1)
        for _ in range(MOST_READS):
            answer = yield read(EERD)
            if answer & 0x10:
                return answer >> 16
        raise Refused("E11 EepromTimeout")

    def command(self, word):
        yield write(MDIC, word)
        for _ in range(MOST_READS):
            answer = yield read(MDIC)
            if answer & 1 << 28:
                if answer & 1 << 30:
                    break
                return answer
        raise Refused("E13 PhyTimeout")

    def link(self):
        yield from self.command(0x04201200)
        for _ in range(MOST_READS):
            if (yield from self.command(0x08210000)) & 0x24 == 0x24:
                return
        raise Refused("E14 NoLink")

    def bring_up(self):
        yield from (write(CTRL, 1 << 26), write(IMC, 2**32 - 1))
        yield read(ICR)
        words = []
        for number in range(64):
            words.append((yield from self.word(number)))
        if sum(words) % 2**16 != 0xBABA:
            raise Refused("E12 Checksum")
        yield from (write(PBA, 48), write(CTRL, 0x60))
        yield from self.link()
        address = words[0] | words[1] << 16, words[2] | 1 << 31
        for table, values in ((MTA, [0] * 128), (VFTA, [0] * 128), (RAL, [*address, *[0] * 30])):
            for place, value in enumerate(values):
                yield write(table + 4 * place, value)
        yield from self.set_ring(RDBAL, 0, self.rx)
        yield from self.stage(self.rx - 1)
        yield store(DESCRIPTOR * (self.rx - 1), bytes(DESCRIPTOR))
        yield write(RDT, self.rx - 1)
        yield write(RCTL, 0x0403801A)
        for slot in range(self.tx):
            yield store(self.transmit_slot(slot), bytes(DESCRIPTOR))
        yield from self.set_ring(TDBAL, DESCRIPTOR * self.rx, self.tx)
        yield from (write(TCTL, 0x000400FA), write(IMS, HANDLED))

    def set_ring(self, first, base, slots):
        for offset, value in ((0, base), (4, 0), (8, DESCRIPTOR * slots), (16, 0), (24, 0)):
            yield write(first + offset, value)

    # Receive slots.

    def free(self):
        return set(range(self.buffers)) - set(self.ring) - {number for frame in self.queue for number, _ in frame}

    def stage(self, count):
        """Stores the descriptors of the next `count` slots. Raises AssertionError unless each has the address of a free
        buffer, and otherwise zeros.
        """
        for _ in range(count):
            stored = yield store(DESCRIPTOR * ((self.oldest + len(self.ring)) % self.rx))
            number = (int.from_bytes(stored[:8], "little") - self.receive_buffers) // PIECE
            if number not in self.free() or stored != (self.receive_buffers
                                                       + PIECE * number).to_bytes(8, "little") + bytes(8):
                raise AssertionError(f"the descriptor {stored.hex()} is stored, and these buffers are free: "
                                     f"{sorted(self.free())}")
            self.ring.append(number)

    def refill(self):
        count = min(len(self.free()), self.rx - 1 - len(self.ring))
        yield from self.stage(count)
        if count:
            yield write(RDT, (self.oldest + len(self.ring)) % self.rx)

    def look(self):
        """Returns the lengths of the oldest slots, up to the first with EOP or to six, and whether they are a frame.
        Returns None if one of these slots isn't finished, or if there are fewer than six, and none has EOP.
        """
        lengths, sound = [], True
        while len(lengths) < min(MOST_PARTS, len(self.ring)):
            descriptor = yield load(DESCRIPTOR * ((self.oldest + len(lengths)) % self.rx), DESCRIPTOR)
            length, status, errors = int.from_bytes(descriptor[8:10], "little"), descriptor[12], descriptor[13]
            if not status & DD:
                return None
            lengths.append(length)
            sound = sound and errors == 0 and (1 <= length <= PIECE if status & EOP else length == PIECE)
            if status & EOP:
                return lengths, sound and LEAST <= sum(lengths) <= MOST
        return (lengths, False) if len(lengths) == MOST_PARTS else None

    def interrupt(self):
        causes = yield read(ICR)
        if not causes & HANDLED:
            return
        value = yield read(MPC)
        self.is_exact = self.is_exact and value < GREATEST_COUNT and self.missed + value <= GREATEST_SUM
        self.missed = min(self.missed + value, GREATEST_SUM)
        while True:
            run = yield from self.look()
            if run is None:
                break
            lengths, is_frame = run
            numbers, self.ring = self.ring[:len(lengths)], self.ring[len(lengths):]
            self.oldest = (self.oldest + len(lengths)) % self.rx
            if is_frame:
                yield load(self.receive_buffers + PIECE * numbers[0] + 12, 2)
                self.queue.append(list(zip(numbers, lengths)))
        yield from self.refill()

    def recv(self):
        """Takes the oldest frame from the queue, and refills the ring. Returns the bytes of the frame."""
        data = b""
        for number, length in self.queue[0]:
            data += yield load(self.receive_buffers + PIECE * number, length)
        del self.queue[0]
        yield from self.refill()
        return data

    # Transmit slots.

    def transmit_slot(self, slot):
        return DESCRIPTOR * (self.rx + slot)

    def transmit(self, frame):
        """Sends a frame. Returns True if it is accepted, or refused for its length, and False if the transmit ring is
        full.
        """
        if not SHORTEST_SENDABLE <= len(frame) <= MOST:
            return True
        while self.sending and (yield load(self.transmit_slot(self.oldest_sent), DESCRIPTOR))[12] & DD:
            self.oldest_sent, self.sending = (self.oldest_sent + 1) % self.tx, self.sending - 1
        if self.sending == self.tx - 1:
            return False
        slot = (self.oldest_sent + self.sending) % self.tx
        buffer = self.transmit_buffers + TRANSMIT_BUFFER * slot
        yield store(buffer, frame)
        # EOP, IFCS and RS
        yield store(self.transmit_slot(slot),
                    buffer.to_bytes(8, "little") + len(frame).to_bytes(2, "little") + bytes([0, 0x0B, 0, 0, 0, 0]))
        yield write(TDT, (slot + 1) % self.tx)
        self.sending += 1
        return True


class Drive:
    """A run of `drive`. At its end, `error` is the reason why the adapter wasn't initialized, or None; and `received`
    has the frames.
    """

    def __init__(self, frames, expect, idle, rings):
        self.driver, self.frames, self.expect, self.idle = Driver(**rings), frames, expect, idle
        self.error, self.handed, self.received, self.quiet = None, [], [], 0

    def turn(self):
        before = len(self.received)
        yield from self.driver.interrupt()
        while self.driver.queue:
            self.received.append((yield from self.driver.recv()))
        self.quiet = 0 if len(self.received) > before else self.quiet + 1

    def send(self, frame):
        while not (yield from self.driver.transmit(frame)):
            yield from self.turn()
            if self.quiet >= self.idle:
                return False
        self.quiet = 0
        self.handed.append(frame)
        return True

    def accesses(self):
        try:
            yield from self.driver.bring_up()
        except Refused as refused:
            self.error = str(refused)
            return
        for frame in self.frames:
            if not (yield from self.send(frame)):
                break
        self.quiet = 0
        while (self.expect is None or len(self.received) < self.expect) and self.quiet < self.idle:
            yield from self.turn()

    def line(self):
        """What `drive` writes to standard error, and its exit status."""
        if self.error:
            return f"nicbench: E46 Init: {self.error}\n", 1
        sent = sum(SHORTEST_SENDABLE <= len(frame) <= MOST for frame in self.handed)
        exact = "exact" if self.driver.is_exact else "atleast"
        line = (f"sent {sent} illegal {len(self.handed) - sent} received {len(self.received)} missed "
                f"{self.driver.missed} {exact}\n")
        is_all = len(self.handed) == len(self.frames) and len(self.received) >= (self.expect or 0)
        return (line, 0) if is_all else (f"nicbench: E69 Fewer\nnicbench: {line}", 1)
