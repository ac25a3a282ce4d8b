"""Tests `nicbench drive` on devices that lie: each access, each error of initialization, and the frames that are
received.

A device answers the requests of `drive`, and may answer anything. A model (driver_model.py) predicts each access from
the answers before it. At the end, it predicts the received frames, the text on standard error and the exit status.
"""

import random
import struct
import subprocess

from pcap_files import FILE_HEADER, packet, trace
from driver_model import DESCRIPTOR, EERD, ICR, LEAST, MDIC, MOST, MOST_READS, MPC, PIECE, Drive
from races import frame
from scenarios import TO_SOCKET, folder

REGISTERS = 0xFEB00000
SLOTS, BUFFERS = 8, 16
GREATEST = 2**32 - 1
# Causes that the driver handles: TXDW, RXDMT0, RXO and RXT0
CAUSES = (0, 4, 6, 7)
RXT0 = 1 << 7
# How many accesses initialization makes up to the last word of the EEPROM. NEGOTIATION: how many it makes between this
# word and the first command that reads the PHY.
IMAGE, NEGOTIATION = 3 + 2 * 64, 2 + 2
FULL = 256, 1, 0


class Device:
    """A device that can be initialized, has no cause recorded, and finishes no slot. Its memory keeps nothing: each
    byte outside the rings depends only on its address. A method answers each kind of access.
    """

    # The words of an EEPROM with the address 02:00:00:00:00:01, whose sum is 0xBABA
    words = [0x0002, 0x0000, 0x0100, *[0] * 60, 0xB9B8]
    # The answers to commands of MDIC: to a write, and to reads of the PHY's status, in order. The last status is the
    # answer to all later reads.
    negotiated, statuses = 0x18201200, [0x18210024]
    # The values of ICR and MPC, in order. The last value is the answer to all later reads.
    causes, misses = [0], [0]

    def __init__(self, **others):
        self.address, self.command, self.up, self.received, self.sent = 0, 0, False, [], []
        for name, value in others.items():
            setattr(self, name, value)
        self.left = {name: list(getattr(self, name)) for name in ("statuses", "causes", "misses")}

    def next(self, name):
        left = self.left[name]
        return left.pop(0) if len(left) > 1 else left[0]

    def read(self, register):
        if register == EERD:
            return self.words[self.address] << 16 | 0x10
        if register == MDIC:
            return self.negotiated if self.command >> 26 & 1 else self.next("statuses")
        if register == ICR:
            # The first read is one of initialization.
            self.up, was = True, self.up
            return self.next("causes") if was else 0
        return self.next("misses") if register == MPC else 0

    def write(self, register, value):
        if register == EERD:
            self.address = value >> 8
        elif register == MDIC:
            self.command = value

    def load(self, address, size):
        if size == DESCRIPTOR and address % DESCRIPTOR == 0 and address < DESCRIPTOR * (self.rx + self.tx):
            return self.received_slot() if address < DESCRIPTOR * self.rx else self.sent_slot()
        return bytes((address + place) * 7 % 251 for place in range(size))

    def received_slot(self):
        """A receive descriptor: the slots of `received` in order, and then slots that aren't finished."""
        return slot(*self.received.pop(0)) if self.received else bytes(DESCRIPTOR)

    def sent_slot(self):
        return self.sent.pop(0) if self.sent else bytes(DESCRIPTOR)


class Constant(Device):
    """A device whose registers all read one value."""

    value = 0

    def read(self, register):
        return self.value


class Alike(Device):
    """A device whose receive descriptors are always all the same. Its transmit descriptors are, too."""

    receive = transmit = bytes(DESCRIPTOR)

    def received_slot(self):
        return self.receive

    def sent_slot(self):
        return self.transmit


def slot(length, status, errors):
    """A receive descriptor: DD is bit 0 of its status, and EOP bit 1."""
    return struct.pack("<QHHBBH", 0xDEAD, length, 0, status, errors, 0)


def parsed(request):
    """A request as an access of the model, and the bytes that it stores, or None. The access of a store has its bytes
    if their number is right, and otherwise None.
    """
    word, *numbers = request.split()
    first, *rest = (int(number, 0) for number in numbers[:2])
    if word in ("readl", "writel"):
        return (word[:-1], first - REGISTERS, rest[0] if rest else None), None
    if word == "read":
        return ("load", first, rest[0]), None
    data = bytes.fromhex(numbers[2][2:])
    return ("store", first, None if len(data) != rest[0] else data), data


def answered(device, access, data):
    """The device's answer, as a line and as what the model is sent."""
    kind, place, value = access
    if kind == "read":
        number = device.read(place)
        return f"OK {number:#018x}", number
    if kind == "load":
        loaded = device.load(place, value)
        return f"OK 0x{loaded.hex()}", loaded
    if kind == "write":
        device.write(place, value)
    return "OK", data


def drives(bench, device, frames, drive, words):
    """Runs `drive` with this device. Returns the accesses that it made, those that the model predicts, and a pair: its
    text on standard error, and its exit status.
    """
    bench.put("send.pcap", trace(*map(packet, frames)))
    bench.remove("receive.pcap")
    line = [bench.program, "drive", "--registers", hex(REGISTERS), "--send", "send.pcap", "--receive", "receive.pcap",
            *words]
    process = subprocess.Popen(line, cwd=bench.folder, stdin=subprocess.PIPE, stdout=subprocess.PIPE,
                               stderr=subprocess.PIPE, text=True)
    model, made, predicted = drive.accesses(), [], []
    told, is_open = None, True
    for request in process.stdout:
        access, data = parsed(request)
        made.append(access)
        try:
            wanted = model.send(told)
        except (StopIteration, AssertionError) as end:
            predicted.append(repr(end))
            break
        predicted.append(access if wanted == ("store", access[1], None) else wanted)
        if made[-1] != predicted[-1]:
            break
        answer, told = answered(device, access, data)
        print(answer, file=process.stdin, flush=True)
    else:
        is_open = False
        try:
            predicted.append(model.send(told))
        except StopIteration:
            pass
    if is_open:
        process.kill()
    _, errors = process.communicate()
    return made, predicted, (errors, process.returncode)


def play(bench, name, device, frames=(), expect=None, idle=1, **rings):
    """Runs `drive` with this device and checks all that it does. Returns the accesses, and the model of the run, which
    has the received frames.
    """
    drive = Drive(list(frames), expect, idle, rings)
    device.rx, device.tx = drive.driver.rx, drive.driver.tx
    words = ["--idle", str(idle), *(["--expect", str(expect)] if expect is not None else []), "--memory",
             str(drive.driver.memory)]
    words += [word for ring in ("rx", "tx", "buffers") for word in (f"--{ring}", str(getattr(drive.driver, ring)))]
    made, predicted, end = drives(bench, device, list(frames), drive, words)
    first = next((place for place, pair in enumerate(zip(made, predicted)) if pair[0] != pair[1]),
                 min(len(made), len(predicted)))
    bench.check(f"{name}: access {first} of {len(made)}", made[first:first + 1], predicted[first:first + 1])
    bench.check(f"{name}: how it ends", end, drive.line())
    received = FILE_HEADER + b"".join(packet(data, time=number) for number, data in enumerate(drive.received))
    bench.check(f"{name}: the frames received", bench.get("receive.pcap"), b"" if drive.error else received)
    return made, drive


def numbers_of(made):
    """The numbers of reads and of writes of registers, and of accesses of memory."""
    kinds = [kind for kind, _, _ in made]
    return kinds.count("read"), kinds.count("write"), kinds.count("load") + kinds.count("store")


def refused(bench, name, device, error, reads, writes):
    """Checks an initialization that fails: its error, the numbers of its reads and writes of registers, and that it
    doesn't access memory.
    """
    made, drive = play(bench, name, device)
    bench.check(f"{name}: the error", (drive.error, *numbers_of(made)), (error, reads, writes, 0))


def no_adapters(bench):
    """Initialization fails if all registers read 0 or ones, a word of the EEPROM isn't read, or the words have a wrong
    sum (modulo 2^16).
    """
    refused(bench, "registers that read zeros", Constant(), "E11 EepromTimeout", 1 + MOST_READS, 2 + 1)
    refused(bench, "registers that read ones", Constant(value=GREATEST), "E12 Checksum", 1 + 64, 2 + 64)
    for number in (1, 63):
        device = Device()
        kept = device.read
        device.read = lambda register: 0 if register == EERD and device.address == number else kept(register)
        refused(bench, f"word {number} isn't read", device, "E11 EepromTimeout", 1 + number + MOST_READS,
                2 + number + 1)
    for place in (0, 63):
        words = [(word + (at == place)) % 2**16 for at, word in enumerate(Device.words)]
        refused(bench, f"word {place} is wrong", Device(words=words), "E12 Checksum", 1 + 64, 2 + 64)
    words = [0, 0, 0xFFFF, 0xFFFF, *[0] * 59, 0xBABC]
    play(bench, "a sum above 65,535", Device(words=words))


def phys(bench):
    """The driver gives up a command of MDIC that doesn't end, or that ends in an error. The link is up only if the
    PHY's status has both bits: negotiation is complete, and the link is up.
    """
    image, timeout = (1 + 64, 2 + 64), "E13 PhyTimeout"
    for answer, reads in [(0, MOST_READS), (0x48210024, MOST_READS), (0x58210024, 1)]:
        refused(bench, f"negotiation is answered by {answer:#x}", Device(negotiated=answer), timeout, image[0] + reads,
                image[1] + 2 + 1)
        refused(bench, f"the status is answered by {answer:#x}", Device(statuses=[answer]), timeout,
                image[0] + 1 + reads, image[1] + 2 + 2)
        refused(bench, f"the second status is answered by {answer:#x}", Device(statuses=[0x18210020, answer]), timeout,
                image[0] + 2 + reads, image[1] + 2 + 3)
    for status in (0x18210000, 0x18210004, 0x18210020):
        refused(bench, f"the status is always {status:#x}", Device(statuses=[status]), "E14 NoLink",
                image[0] + 1 + MOST_READS,
                image[1] + 2 + 1 + MOST_READS)
    for late, is_up in [(MOST_READS - 1, True), (MOST_READS, False)]:
        made, drive = play(bench, f"{late} reads don't show the link",
                           Device(statuses=[0x18210000] * late + [0x18210024]))
        bench.check(f"{late} reads don't show the link: the error", drive.error, None if is_up else "E14 NoLink")
        bench.check(f"{late} reads don't show the link: its accesses",
                    len(made) == IMAGE + NEGOTIATION + 2 * MOST_READS, not is_up)


def causes(bench):
    """If the driver doesn't handle a cause, it only reads ICR. If it handles the cause, it also reads MPC, and loads
    the descriptor of the oldest slot. If this slot is finished, the call loads the frame's EtherType and the next
    descriptor, stores a descriptor and writes RDT.
    """
    for place in range(32):
        is_mine = place in CAUSES
        made, _ = play(bench, f"cause {place}", Device(causes=[1 << place]))
        begun = len(made) - (3 if is_mine else 1)
        bench.check(f"cause {place}: the accesses of the handler", [access[:2] for access in made[begun:]],
                    [("read", ICR), ("read", MPC), ("load", 0)] if is_mine else [("read", ICR)])
    made, drive = play(bench, "a frame of a slot", Device(causes=[0, RXT0, 0], received=[(70, 3, 0)]), expect=1, idle=3)
    asked = [place for place, access in enumerate(made) if access[:2] == ("read", ICR)]
    # Each turn begins with a read of ICR. The last turn also loads the frame that is received.
    turns = [later - place for place, later in zip(asked, [*asked[1:], len(made)])][1:]
    bench.check("a frame of a slot: its accesses", (len(drive.received), turns), (1, [1, 7 + 1]))


# Finished slots, each a length, a status (1 is DD, 3 is DD and EOP) and errors; and the lengths of the frames received.
RUNS = [
    ([FULL, (1, 3, 0)], [257]),
    ([FULL, (238, 3, 0)], [494]),
    ([(59, 3, 0)], []),
    ([FULL] * 5 + [(238, 3, 0)], [1518]),
    ([FULL] * 5 + [(239, 3, 0)], []),
    ([FULL] * 5 + [(256, 3, 0)], []),
    ([FULL] * 6, []),
    ([FULL] * 6 + [(60, 3, 0)], [60]),
    ([FULL] * 5, []),
    ([(255, 1, 0), (60, 3, 0)], []),
    ([(257, 1, 0), (60, 3, 0)], []),
    ([FULL, (0, 3, 0)], []),
    ([FULL, (257, 3, 0)], []),
    ([(257, 3, 0)], []),
    ([FULL, (60, 3, 1)], []),
    ([(256, 1, 1), (60, 3, 0)], []),
    ([(60, 3, 0x80), (60, 3, 0)], [60]),
    ([(60, 3, 0), FULL, (59, 3, 0), (59, 3, 0)], [60, 315]),
    *(([(60, 3, 1 << place), (61, 3, 0)], [61]) for place in range(8)),
]


def runs(bench):
    """A frame's pieces fill their buffers, except the last, which has 1 to 256 bytes. A frame has 60 to 1,518 bytes,
    and no slot of it has errors. A run of slots that isn't a frame is dropped. Fewer than six slots that no slot with
    EOP follows stay in the ring.
    """
    for slots, lengths in RUNS:
        _, drive = play(bench, f"slots {slots}", Device(causes=[RXT0], received=list(slots)))
        bench.check(f"slots {slots}: what is received", [len(data) for data in drive.received], lengths)


def always_finished(bench):
    """If every descriptor is always finished, a call takes each slot once, and the transmit ring never runs full. If no
    descriptor is ever finished, the transmit ring runs full.
    """
    frames = [frame(mark) for mark in range(9)]
    for name, descriptor, count in [("ones", bytes([0xFF] * DESCRIPTOR), 0), ("no bytes", slot(0, 3, 0), 0),
                                    ("59 bytes", slot(59, 3, 0), 0),
                                    ("no EOP", slot(60, 1, 0), 0), ("60 bytes", slot(60, 3, 0), SLOTS - 1),
                                    ("1,519 bytes", slot(1519, 3, 0), 0)]:
        _, drive = play(bench, f"descriptors with {name}", Alike(causes=[RXT0], misses=[GREATEST], receive=descriptor),
                        expect=1)
        bench.check(f"descriptors with {name}: what is received", (len(drive.received), drive.driver.missed),
                    (count, GREATEST))
    _, drive = play(bench, "no slot is written back", Alike(), frames)
    bench.check("no slot is written back: the frames sent", len(drive.handed), SLOTS - 1)
    _, drive = play(bench, "each slot is written back", Alike(transmit=bytes([0xFF] * DESCRIPTOR)), frames)
    bench.check("each slot is written back: the frames sent", (len(drive.handed), drive.driver.sending), (9, 1))
    device = Alike(sent_slot=iter_of([bytes(DESCRIPTOR)] * (SLOTS - 1), bytes([0xFF] * DESCRIPTOR)))
    _, drive = play(bench, "the ring is full, and then each slot is written back", device, frames, idle=2)
    bench.check("the ring is full, and then each slot is written back: the frames sent",
                (len(drive.handed), drive.driver.sending), (9, 1))
    play(bench, "frames that can't be sent", Alike(), [bytes(13), bytes(14), bytes(1518), bytes(1519)])


def iter_of(first, later):
    """Returns a function that returns the values of `first` one after the other, and then always `later`."""
    left = list(first)
    return lambda: left.pop(0) if left else later


def missed(bench):
    """Values of MPC are added up, and the sum is exact unless a value was the greatest, 2^32 - 1."""
    for values, line in [([1, 2, 3], "missed 6 exact"), ([GREATEST - 1] * 3, f"missed {3 * (GREATEST - 1)} exact"),
                         ([1, GREATEST, 1], f"missed {GREATEST + 2} atleast")]:
        device = Device(causes=[RXT0], misses=values)
        _, drive = play(bench, f"MPC {values}", device, idle=3)
        bench.check(f"MPC {values}: the line", drive.line()[0].strip().endswith(line), True)


class Drawn(Device):
    """A device whose causes, counts and descriptors are drawn by a seed."""

    def __init__(self, seed):
        super().__init__()
        self.drawing = random.Random(seed)

    def next(self, name):
        if name == "causes":
            return self.drawing.choice([0, 4, RXT0, RXT0, 1, GREATEST])
        return self.drawing.choice([0, 0, 1, GREATEST]) if name == "misses" else super().next(name)

    def received_slot(self):
        """A receive descriptor: mostly with DD, and mostly without errors."""
        draw = self.drawing
        length = draw.choice([PIECE, PIECE, PIECE, 1, 59, 60, 238, 239, draw.randrange(2**16)])
        return slot(length, draw.choice([0, 1, 1, 1, 3, 3, draw.randrange(256)]),
                    draw.choice([0] * 15 + [draw.randrange(256)]))

    def sent_slot(self):
        return bytes(12) + bytes([self.drawing.choice([0, 1, 1, 0xFF])]) + bytes(3)


def drawn(bench):
    """Over devices that answer at random, with rings of three sizes, the driver gets enough frames of possible lengths.
    """
    for seed, (rx, tx, buffers) in enumerate([(8, 8, 8), (8, 8, 16), (16, 24, 40)] * 4):
        draw = random.Random(seed)
        frames = [draw.randbytes(draw.choice([13, 14, 60, 61, 1518, 1519])) for _ in range(120)]
        _, drive = play(bench, f"a random device, seed {seed}", Drawn(seed), frames, expect=60, idle=30, rx=rx, tx=tx,
                        buffers=buffers)
        bench.check(f"a random device, seed {seed}: frames came", len(drive.received) > 10 and len(drive.handed) > 50,
                    True)
        bench.check(f"a random device, seed {seed}: their lengths",
                    all(LEAST <= len(data) <= MOST for data in drive.received), True)


def links(bench):
    """With a tick before each access, a link of the adapter's model that is up after 2,000 ticks is in time. A link
    that is up later, or never, isn't.
    """
    folder(bench)
    for ticks, error in [("2000", None), ("2001", "E14 NoLink"), ("never", "E14 NoLink")]:
        bench.put("s.scenario",
                  f"host a 02:00:00:00:00:01 w\nhost b 02:00:00:00:00:02 w link {ticks}\nsocket b all\n".encode())
        ran = bench.run("run", "s.scenario", "outdir")
        line = ran.stderr.decode().splitlines()[:1]
        bench.check(f"link {ticks}", (ran.returncode, line),
                    (0, []) if error is None else (1, [f"nicbench: E46 Init: {error}"]))


def full_groups(bench):
    """The 33rd group is refused."""
    groups = [f"01:00:5e:00:00:{number:02x}" for number in range(33)]
    bench.put("s.scenario", TO_SOCKET + "".join(f"join b {group}\n" for group in groups).encode())
    folder(bench)
    ran = bench.run("run", "--events", "-", "s.scenario", "outdir")
    answers = [line.split(None, 5)[5].split(" accesses")[0] for line in ran.stdout.decode().splitlines()]
    bench.check("the 33rd group is refused", answers, ["ok"] * 32 + ["E24 GroupsFull"])


def all_cases(bench):
    for part in [no_adapters, phys, causes, runs, always_finished, missed, drawn, links, full_groups]:
        part(bench)
