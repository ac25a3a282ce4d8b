"""Sessions of `nicbench serve` that test the adapter: registers, causes, EEPROM, PHY, filter, receive engine and packet
buffer.

The expected values are written by hand, from the manual. A row is a request, and all lines that the server prints for
it. The last of these lines is the answer.
"""

import random

BASE = 0xFEB00000
CTRL, STATUS, EERD, MDIC, VET = 0x0000, 0x0008, 0x0014, 0x0020, 0x0038
ICR, ICS, IMS, IMC, RCTL, TCTL, PBA = 0x00C0, 0x00C8, 0x00D0, 0x00D8, 0x0100, 0x0400, 0x1000
RDBAL, RDBAH, RDLEN, RDH, RDT = 0x2800, 0x2804, 0x2808, 0x2810, 0x2818
TDBAL, TDBAH, TDLEN, TDH, TDT = 0x3800, 0x3804, 0x3808, 0x3810, 0x3818
MPC, GPRC, GPTC, RNBC, MTA, RAL, RAH, VFTA = 0x4010, 0x4074, 0x4080, 0x40A0, 0x5200, 0x5400, 0x5404, 0x5600
RESET, RECEIVE, TRANSMIT = 0x04000000, 0x8002, 0x000A
EN, UPE, MPE, BAM, VFE = 1 << 1, 1 << 3, 1 << 4, 1 << 15, 1 << 18
# The registers that read as the kept bits of the last write (of CTRL: without RST). For each of them, the kept bits,
# and the value at power-on and after a reset.
PLAIN = {
    CTRL: (0x40000061, 0), VET: (0x0000FFFF, 0x8100), RCTL: (0x0607B33A, 0), TCTL: (0x003FFFFA, 0),
    RDBAL: (0xFFFFFFF0, 0), RDBAH: (0xFFFFFFFF, 0), RDLEN: (0x000FFF80, 0), RDH: (0x0000FFFF, 0), RDT: (0x0000FFFF, 0),
    TDBAL: (0xFFFFFFF0, 0), TDBAH: (0xFFFFFFFF, 0), TDLEN: (0x000FFF80, 0), TDH: (0x0000FFFF, 0), TDT: (0x0000FFFF, 0),
    **{place: (0xFFFFFFFF, 0) for place in [*range(0x5200, 0x5400, 4), *range(0x5600, 0x5800, 4),
                                            *range(0x5408, 0x5480, 8)]},
    **{place: (0x8000FFFF, 0) for place in range(0x540C, 0x5480, 8)},
    RAL: (0xFFFFFFFF, 0x00000002), RAH: (0x8000FFFF, 0x80000100),
}
# All other registers, each with its value at power-on.
RULED = {place: 0 for place in [STATUS, EERD, MDIC, ICR, ICS, IMS, IMC, MPC, GPRC, GPTC, RNBC]} | {PBA: 0x00100030}
BROADCAST = "ff" * 60


def reads(offset, value, told=""):
    return f"readl {BASE + offset:#x}", f"{told}OK 0x{value:016x}"


def writes(offset, value, told=""):
    return f"writel {BASE + offset:#x} {value:#x}", f"{told}OK"


def steps(*kinds_and_outcomes):
    return [(f"step {kind}", f"OK {outcome}") for kind, outcome in kinds_and_outcomes]


def arrives(fate, frame=BROADCAST):
    return f"arrive {frame}", f"OK {fate}"


def stores(address, data):
    return f"write {address:#x} {len(data) // 2} 0x{data}", "OK"


def loads(address, data):
    return f"read {address:#x} {len(data) // 2}", f"OK 0x{data}"


def registers(server):
    """Registers have the expected values at power-on, after writes, and after a reset. An offset without a register
    reads 0, also after a write.
    """
    places = range(0, 0x5810, 4)
    server.talks("adapter: registers at power-on",
                 [reads(place, PLAIN[place][1] if place in PLAIN else RULED.get(place, 0)) for place in places])
    words = random.Random(0)
    rows = []
    for place, (kept, _) in PLAIN.items():
        for word in (words.getrandbits(32), 0xFFFFFFFF):
            word &= ~RESET if place == CTRL else 0xFFFFFFFF
            rows += [writes(place, word), reads(place, word & kept)]
    server.talks("adapter: registers read what they kept",
                 [*rows, writes(CTRL, RESET), *(reads(place, reset) for place, (_, reset) in PLAIN.items())])
    none = [place for place in places if place not in PLAIN and place not in RULED] + [0x3FFC, 0x1FFFC]
    server.talks("adapter: no register", [row for place in none
                                          for row in (writes(place, words.getrandbits(32)), reads(place, 0))])
    server.talks("adapter: kept bits of control registers", [row for place, word, kept in [
        (CTRL, 0xFBFFFFFF, 0x40000061), (RCTL, 0xFFFFFFFF, 0x0607B33A), (PBA, 6, 0x003A0006), (PBA, 7, 0x003A0006),
        (PBA, 50, 0x003A0006),
        (PBA, 0, 0x003A0006), (PBA, 0xABCD0030, 0x00100030), (PBA, 2, 0x003E0002)]
                                                             for row in (writes(place, word), reads(place, kept))])
    server.talks("adapter: a reset leaves packet buffer and PHY", [
        writes(PBA, 6), writes(VET, 0x1234), writes(IMS, 0xFFFFFFFF), writes(ICS, 0xFFFFFFFF, "IRQ raise 0\n"),
        writes(EERD, 0x201), writes(MDIC, 0x04201200), *steps(("phy", "ticked")), writes(MDIC, 0x08210000),
        writes(CTRL, 0xFFFFFFFF, "IRQ lower 0\n"), reads(CTRL, 0), reads(PBA, 0x003A0006), reads(VET, 0x8100),
        reads(IMS, 0), reads(ICR, 0), reads(EERD, 0), reads(MDIC, 0),
        *steps(("eeprom", "nothing"), ("phy", "ticked")), reads(STATUS, 0), writes(CTRL, 0x40), reads(STATUS, 0x83),
        reads(ICR, 0x4)])


def causes(server):
    """Ones written to ICS and IMS set causes and bits of the mask. Ones written to ICR and IMC clear them. The
    interrupt line is asserted while a recorded cause is in the mask.
    """
    server.talks("adapter: mask and causes", [
        writes(IMS, 0xFFFFFFFF), reads(IMS, 0x2D7), writes(IMC, 0x40), reads(IMS, 0x297), reads(IMC, 0),
        writes(ICS, 0x84, "IRQ raise 0\n"), reads(ICS, 0),
        writes(ICR, 0x04), reads(ICR, 0x80, "IRQ lower 0\n"), reads(ICR, 0)])
    server.talks("adapter: the interrupt line", [
        writes(ICS, 0x84), ("line", "OK 0x0000000000000000"), writes(IMS, 0x80, "IRQ raise 0\n"),
        ("line", "OK 0x0000000000000001"), reads(ICR, 0x84, "IRQ lower 0\n"), reads(ICR, 0),
        ("line", "OK 0x0000000000000000"), writes(ICS, 0x80, "IRQ raise 0\n"),
        writes(IMC, 0x80, "IRQ lower 0\n"), reads(ICR, 0x80)])


def eeprom(server):
    """The EEPROM answers reads of its words. The sum of its 64 words is 0xBABA modulo 2^16; words from 64 on read
    0xFFFF. A request replaces a pending request, and a write without START doesn't.
    """
    ticked, nothing = steps(("eeprom", "ticked"), ("eeprom", "nothing"))
    rows = [nothing]
    for written, pending, word in [([0x201], 0x200, 0x01000210), ([0x4001], 0x4000, 0xFFFF4010),
                                   ([0x0001, 0x0201], 0x200, 0x01000210),
                                   ([0x0001, 0x0201, 0x3F00], 0x200, 0x01000210)]:
        rows += [*(writes(EERD, one) for one in written), reads(EERD, pending), ticked, reads(EERD, word), nothing,
                 reads(EERD, word)]
    server.talks("adapter: words of the EEPROM", rows)
    for address, words in [("02:00:00:00:00:01", {0: 0x0002, 2: 0x0100, 63: 0xB9B8}),
                           ("02:00:00:00:00:02", {0: 0x0002, 2: 0x0200, 63: 0xB8B8}),
                           ("02:1b:21:3c:4d:fe", {0: 0x1B02, 1: 0x3C21, 2: 0xFE4D, 63: 0x654A})]:
        server.check(f"adapter: the words of {address} add up", sum(words.values()) & 0xFFFF, 0xBABA)
        whole = {**{place: 0 for place in range(64)}, **words, 64: 0xFFFF, 255: 0xFFFF}
        server.talks(f"adapter: the EEPROM of {address}", [
            row for place, word in whole.items()
            for row in (writes(EERD, place << 8 | 1), ticked, reads(EERD, word << 16 | place << 8 | 0x10))],
            "--address", address)


def command(written, answered, causes_after=0):
    """The rows of an MDIC command: the write, a read before the PHY's step, this step, and reads of the answer and of
    ICR.
    """
    return [writes(MDIC, written), reads(MDIC, written & ~0x10000000), *steps(("phy", "ticked")), reads(MDIC, answered),
            reads(ICR, causes_after)]


def phy(server):
    """The PHY answers commands of MDIC, ends a negotiation, and latches the status of the link."""
    server.talks("adapter: commands of MDIC", [row for words in [
        (0x08410000, 0x58410000), (0x08220000, 0x18220141), (0x08230000, 0x18230C20), (0x28210000, 0x38210000, 0x200),
        (0x08200000, 0x18201000),
        (0x0824FFFF, 0x18240000)] for row in command(*words)])
    server.talks("adapter: a write of MDIC without a command", [
        writes(MDIC, 0x04201200), writes(MDIC, 0xF2211234), reads(MDIC, 0x22211234), *steps(("phy", "nothing")),
        reads(MDIC, 0x22211234)])
    server.talks("adapter: the link comes up", [
        writes(CTRL, 0x60), *steps(("phy", "nothing")), *command(0x04201200, 0x14201200), reads(STATUS, 0),
        *steps(("phy", "ticked")), reads(ICR, 0x4), *command(0x08210000, 0x18210020), *command(0x08210000, 0x18210024),
        reads(STATUS, 0x83), *steps(("phy", "nothing")), writes(CTRL, 0x20),
        reads(STATUS, 0)])
    server.talks("adapter: negotiation begins and ends", [
        *command(0x04201200, 0x14201200), *command(0x08210000, 0x18210000),
        *steps(("phy", "ticked"), ("phy", "nothing")), reads(ICR, 4), *command(0x08210000, 0x18210024),
        *command(0x04200200, 0x14200200), *command(0x08200000, 0x18200000), *command(0x08210000, 0x18210024),
        *command(0x04209200, 0x14209200), *command(0x08200000, 0x18201000), *command(0x08210000, 0x18210000),
        *steps(("phy", "nothing"))], "--link", "2")
    server.talks("adapter: a link that never comes up", [
        writes(CTRL, 0x40), *command(0x04201200, 0x14201200), *steps(("phy", "nothing")),
        *command(0x08210000, 0x18210000), reads(STATUS, 0)], "--link", "never")


def to(destination, behind="08000000"):
    """The digits of a frame of 60 bytes: this destination, the bytes `behind` at offset 12, and otherwise zeros."""
    return f"{destination}{'00' * 6}{behind}".ljust(120, "0")


def fate(passes, destination, behind="08000000"):
    return arrives("stored" if passes else "filtered", to(destination, behind))


def filters(server):
    """The filter passes the right frames, by exact addresses, the group table with each RCTL.MO, modes, and VLANs."""
    groups = {0x341: 0, 0x682: 1, 0xD04: 2, 0x412: 3}
    for bit in groups:
        server.talks(f"adapter: number {bit:#x} of the group table", [
            writes(MTA + bit // 32 * 4, 1 << bit % 32),
            *(row for place, offset in groups.items()
              for row in (writes(RCTL, EN | offset << 12), fate(place == bit, "010000001234"),
                          fate(False, "010000003412")))])
    server.talks("adapter: the first and the last number of the group table", [
        writes(RCTL, EN), writes(MTA, 1), writes(MTA + 508, 1 << 31), fate(True, "010000000000"),
        fate(True, "01000000f0ff"), fate(False, "010000001000")])
    server.talks("adapter: the group table is asked for groups alone", [
        writes(RCTL, EN), writes(MTA, 1 << 16), reads(MTA, 1 << 16), fate(True, "01005e000001"),
        fate(True, "01005f000001"), fate(False, "01005e000002"),
        fate(False, "02005e000001"), fate(False, "ffffffffffff")])
    server.talks("adapter: an exact address is that of a valid entry", [
        writes(RCTL, EN), writes(RAL, 0), writes(RAH, 0), fate(False, "020000000001"), writes(RAL + 15 * 8, 2),
        writes(RAH + 15 * 8, 0x7FFF0100), reads(RAH + 15 * 8, 0x0100), fate(False, "020000000001"),
        writes(RAH + 15 * 8, 0x80000100), fate(True, "020000000001"),
        fate(False, "020000000100"), fate(False, "000000020001")])
    for mode, individual, group, broadcast in [(0, False, False, False), (UPE, True, False, False),
                                               (MPE, False, True, True), (BAM, False, False, True),
                                               (UPE | MPE | BAM, True, True, True)]:
        server.talks(f"adapter: the filter with {mode:#x} in RCTL", [
            writes(RCTL, EN | mode), fate(individual, "020000000009"), fate(group, "01005e000001"),
            fate(broadcast, "ffffffffffff")])
    server.talks("adapter: VLANs of tagged frames", [
        writes(VFTA, 1 << 5), writes(VFTA + 508, 1 << 31), writes(RCTL, EN | UPE | VFE),
        *(fate(passes, "020000000002", behind) for behind, passes in [
            ("81000005", True), ("81000006", False), ("81002005", True), ("81000fff", True), ("81000ffe", False),
            ("08000006", True)]),
        writes(VET, 0x9100), fate(True, "020000000002", "81000006"), fate(False, "020000000002", "91000006"),
        writes(RCTL, EN | UPE), fate(True, "020000000002", "91000006")])


# Eight receive descriptors at address 0, with buffers of 2,048 bytes from 0x4800 on. OFFERED: the registers of their
# ring, of which seven slots are offered. RECEIVED: a frame arrives, and is written to memory.
SLOTS = [stores(16 * slot, f"00{0x48 + 8 * slot:02x}") for slot in range(8)]
OFFERED = [writes(RDLEN, 128), writes(RDT, 7), writes(RCTL, RECEIVE)]
RECEIVED = [arrives("stored"), *steps(("rxdata", "moved"), ("rxdone", "done"))]


def arrivals(server):
    """Each arriving frame has the first fate that applies, and MPC and RNBC have the expected values."""
    server.talks("adapter: misses are counted", [
        writes(PBA, 2), writes(RCTL, RECEIVE), *(arrives(fate, LONG) for fate in ("stored", "missed", "missed")),
        reads(MPC, 2), reads(MPC, 0),
        reads(RNBC, 3), reads(RNBC, 0), reads(ICR, 0x40)])
    server.talks("adapter: the first fate that applies", [
        arrives("off"), arrives("off", "ff" * 59), writes(RCTL, RECEIVE), arrives("illegal", "ff" * 59),
        arrives("illegal", "ff" * 1519),
        arrives("filtered", "04" * 60), reads(RNBC, 0), reads(MPC, 0), reads(ICR, 0), arrives("stored"),
        arrives("stored", "ff" * 1518), reads(RNBC, 2)])


def receiving(server):
    """Each step of the receive engine has the expected outcome and effects."""
    server.talks("adapter: frames go into memory", [
        *SLOTS, *OFFERED, *steps(("rxdata", "nothing")), *RECEIVED, reads(ICR, 0x80), *RECEIVED, reads(ICR, 0x80),
        *RECEIVED, reads(ICR, 0x90),
        loads(0x4800, BROADCAST + "00" * 4), loads(0, "00480000000000003c00000003000000"), reads(RDH, 3),
        reads(GPRC, 3), reads(GPRC, 0), reads(RNBC, 0)])
    near = [stores(16 * slot, f"00{0x48 + slot:02x}") for slot in range(8)]
    server.talks("adapter: frames go into buffers of 256 bytes that follow each other", [
        *near, *OFFERED, *RECEIVED * 3, reads(ICR, 0x90), loads(0x4800, BROADCAST + "00" * 4),
        loads(0x4900, BROADCAST + "00" * 4),
        loads(0, "00480000000000003c00000003000000"), loads(16, "00490000000000003c00000003000000"), reads(RDH, 3),
        reads(GPRC, 3)])
    server.talks("adapter: one frame is in work, and a reset ends it", [
        *SLOTS, *OFFERED, *steps(("rxdone", "nothing")), arrives("stored"), arrives("stored"),
        *steps(("rxdata", "moved"), ("rxdata", "nothing")),
        writes(CTRL, RESET), *steps(("rxdone", "nothing")), *OFFERED, *steps(("rxdata", "nothing")), reads(GPRC, 0)])
    server.talks("adapter: a missing descriptor is no miss", [
        *SLOTS, *OFFERED, *RECEIVED * 7, reads(RDH, 7), arrives("stored"), reads(RNBC, 1), reads(MPC, 0),
        *steps(("rxdata", "nothing")), writes(RDT, 0),
        *steps(("rxdata", "moved"))])
    for tail, recorded in [(6, 0), (5, 0x10), (4, 0)]:
        server.talks(f"adapter: half of the descriptors are free, tail {tail}", [
            *SLOTS, *OFFERED, writes(RDT, tail), arrives("stored"), *steps(("rxdata", "moved")), reads(ICR, recorded)])
    high = [writes(RDBAL, 0xFFFFFFF0), writes(RDBAH, 0xFFFFFFFF), writes(RDH, 1)]
    for name, changed, size, outcome in [
        ("none is offered", [writes(RDH, 7)], 60, "nothing"),
        ("it is turned off", [writes(RCTL, 0x8000)], 60, "nothing"),
        ("the descriptor lies past 2^64", high, 60, "fault"), ("the head is no slot", [writes(RDH, 8)], 60, "fault"),
        ("the tail is no slot", [writes(RDT, 8)], 60, "fault"),
        ("the descriptor lies past the memory", [writes(RDBAL, 0x100000)], 60, "fault"),
        ("the buffer lies past the memory", [stores(0, "c4ff0f")], 61, "fault"),
        ("the buffer ends with the memory", [stores(0, "c4ff0f")], 60, "moved"),
        ("buffers of another unit", [writes(RCTL, 0x02008002)], 60, "fault"),
        ("a buffer of 256 bytes is filled", [writes(RCTL, 0x00038002)], 256, "moved"),
        ("a buffer of 256 bytes has room for a part", [writes(RCTL, 0x00038002)], 257, "part"),
    ]:
        server.talks(f"adapter: a frame's place: {name}",
                     [*SLOTS, *OFFERED, arrives("stored", "ff" * size), *changed, *steps(("rxdata", outcome))])
    server.talks("adapter: a fault stops reception", [
        *SLOTS, writes(RCTL, RECEIVE), writes(RDLEN, 100), writes(RDT, 1), arrives("stored"),
        *steps(("rxdata", "fault"), ("rxdata", "nothing")), loads(0, "0048" + "00" * 14), loads(0x4800, "00" * 60),
        reads(RDH, 0), *OFFERED, *steps(("rxdata", "nothing")), writes(CTRL, RESET), *OFFERED,
        arrives("stored"), *steps(("rxdata", "moved"))])


# RCTL with EN and BAM for each size of a receive buffer (13.4.22: BSIZE, bits 17:16), and the longest frame, whose
# pieces all differ.
SIZES = {2048: 0x00008002, 1024: 0x00018002, 512: 0x00028002, 256: 0x00038002}
BSEX = 0x02000000
LONG = "ff" * 6 + "".join(f"{number:04x}" for number in range(756))
NOTHING_LEFT = steps(("rxdata", "nothing"), ("rxdone", "nothing"))


def awaited(size, *changed, frame=LONG):
    """The rows that offer seven buffers of this size, the rows `changed`, and the arrival of a frame with the fate
    Stored.
    """
    return [*SLOTS, *OFFERED, writes(RCTL, SIZES[size]), *changed, arrives("stored", frame)]


def written_back(slot, length, status):
    """The row that loads a descriptor after its write-back (3.2.3): its buffer, the length, checksum 0, the status,
    errors 0, special 0.
    """
    return loads(16 * slot,
                 f"00{0x48 + 8 * slot:02x}{'00' * 6}{length.to_bytes(2, 'little').hex()}0000{status:02x}000000")


def holds(slot, first, length, frame=LONG):
    """The row that loads a slot's buffer: `length` bytes of the frame, from its byte `first` on, and four bytes that
    were not written.
    """
    return loads(0x4800 + 0x800 * slot, frame[2 * first:2 * (first + length)] + "00" * 4)


def comes(*lengths, slot=0, first=0, left=False, frame=LONG):
    """The rows that move and finish pieces of these lengths, and load their descriptors and buffers. The pieces use
    one slot each, from `slot` on. The last piece ends the frame, unless `left` is set.
    """
    rows = []
    for number, length in enumerate(lengths):
        ends, place = not left and number == len(lengths) - 1, (slot + number) % 8
        rows += [*steps(("rxdata", "moved" if ends else "part"), ("rxdone", "done")),
                 written_back(place, length, 0x03 if ends else 0x01),
                 holds(place, first, length, frame)]
        first += length
    return rows


def pieces(server):
    """A frame that is longer than a receive buffer goes into several buffers, one piece for each descriptor."""
    server.check("adapter: the longest frame has 1,518 bytes", len(LONG), 2 * 1518)
    part = [*steps(("rxdata", "part"), ("rxdata", "nothing")), reads(GPRC, 0),
            *steps(("rxdone", "done"), ("rxdone", "nothing"))]
    server.talks("adapter: six pieces of a frame", [
        *awaited(256, writes(IMS, 0x80)), *steps(("rxdata", "part")), reads(RDH, 1), loads(0, "0048" + "00" * 14),
        *steps(("rxdone", "done")), loads(0, "00480000000000000001000001000000"), reads(ICR, 0), *part, reads(ICR, 0),
        *part, reads(ICR, 0x10), *part, reads(ICR, 0), *part, reads(ICR, 0),
        *steps(("rxdata", "moved"), ("rxdata", "nothing")), reads(ICR, 0), reads(GPRC, 0),
        loads(0x50, "0070" + "00" * 14), ("step rxdone", "IRQ raise 0\nOK done"),
        loads(0x50, "0070000000000000ee00000003000000"), reads(ICR, 0x80, "IRQ lower 0\n"), reads(GPRC, 1),
        *(holds(slot, first, length) for slot, first, length in [(0, 0, 256), (1, 256, 256), (2, 512, 256),
                                                                 (3, 768, 256), (4, 1024, 256), (5, 1280, 238)]),
        *NOTHING_LEFT, reads(RDH, 6), loads(0x60, "0078" + "00" * 14), reads(RNBC, 0)])
    for size, length, lengths in [
        (256, 255, [255]), (256, 256, [256]), (256, 257, [256, 1]), (256, 511, [256, 255]), (256, 512, [256, 256]),
        (256, 513, [256, 256, 1]), (512, 512, [512]), (512, 1518, [512, 512, 494]), (1024, 1024, [1024]),
        (1024, 1025, [1024, 1]), (1024, 1518, [1024, 494]), (2048, 1518, [1518]),
    ]:
        server.talks(f"adapter: {length} bytes in buffers of {size}", [
            *awaited(size, frame=LONG[:2 * length]), *comes(*lengths), *NOTHING_LEFT, reads(RDH, len(lengths)),
            reads(GPRC, 1)])
    server.talks("adapter: the pieces of two frames", [
        *awaited(512), arrives("stored"), *comes(512, 512, 494), reads(ICR, 0x90), *comes(60, slot=3, frame=BROADCAST),
        reads(ICR, 0x80), *NOTHING_LEFT,
        reads(GPRC, 2)])
    server.talks("adapter: a frame's pieces wrap around the ring", [
        *awaited(512, writes(RDH, 6), writes(RDT, 5)), *comes(512, 512, 494, slot=6), *NOTHING_LEFT, reads(RDH, 1),
        reads(ICR, 0x90)])
    server.talks("adapter: `settle` moves the six pieces", [
        *awaited(256), ("settle", "OK 0x000000000000000c"), reads(RDH, 6), reads(ICR, 0x90), reads(GPRC, 1),
        ("settle", "OK 0x0000000000000000"),
        holds(0, 0, 256), holds(5, 1280, 238)])
    server.talks("adapter: `settle` moves the pieces for which there are descriptors", [
        *awaited(256, writes(RDT, 4)), ("settle", "OK 0x0000000000000008"), reads(RDH, 4), reads(ICR, 0),
        reads(GPRC, 0), writes(RDT, 7),
        ("settle", "OK 0x0000000000000004"), *(written_back(slot, 256, 0x01) for slot in range(5)),
        written_back(5, 238, 0x03), reads(RDH, 6), reads(GPRC, 1)])
    server.talks("adapter: the log has a part", [
        *awaited(1024), ("log on", "OK"), ("step rxdata", "# step rxdata -> part\nOK part"),
        ("step rxdone", "# step rxdone -> done\nOK done"),
        ("step rxdata", "# step rxdata -> moved\nOK moved")])


def pieces_later(server):
    """In mid-frame, buffers change their size, reception is off, descriptors run out, or the ring changes. Faults,
    resets and missed frames come in mid-frame, too.
    """
    for size, rest in [(2048, [1262]), (1024, [1024, 238]), (512, [512, 512, 238])]:
        server.talks(f"adapter: buffers of 256 bytes become buffers of {size} in mid-frame", [
            *awaited(256), *steps(("rxdata", "part")), writes(RCTL, SIZES[size]), *steps(("rxdone", "done")),
            written_back(0, 256, 0x01),
            *comes(*rest, slot=1, first=256), *NOTHING_LEFT, reads(GPRC, 1)])
    server.talks("adapter: buffers of 1,024 bytes become buffers of 256 in mid-frame", [
        *awaited(1024), *comes(1024, left=True), writes(RCTL, SIZES[256]), *comes(256, 238, slot=1, first=1024),
        *NOTHING_LEFT])
    server.talks("adapter: reception is off in mid-frame", [
        *awaited(256), *steps(("rxdata", "part")), writes(RCTL, 0x00038000),
        *steps(("rxdata", "nothing"), ("rxdone", "done"), ("rxdata", "nothing")), written_back(0, 256, 0x01),
        arrives("off"), reads(RDH, 1), writes(RCTL, SIZES[256]), *comes(256, 256, 256, 256, 238, slot=1, first=256),
        *NOTHING_LEFT,
        reads(GPRC, 1)])
    server.talks("adapter: no descriptor is left in mid-frame", [
        *awaited(256, writes(RDT, 2)), *comes(256, 256, left=True), *NOTHING_LEFT, reads(RDH, 2), reads(RNBC, 0),
        arrives("stored"), reads(RNBC, 1), reads(MPC, 0), reads(ICR, 0), writes(RDT, 7), arrives("stored"),
        *comes(256, 256, 256, 238, slot=2, first=512), reads(ICR, 0x90),
        *comes(60, slot=6, frame=BROADCAST), *NOTHING_LEFT, reads(RDH, 7), reads(RNBC, 0), reads(GPRC, 2)])
    further = "0090" + "00" * 6 + "0001" + "0000" + "01" + "000000"
    server.talks("adapter: the ring is elsewhere in mid-frame", [
        *awaited(256), *comes(256, left=True), stores(0x1010, "0090"), writes(RDBAL, 0x1000),
        *steps(("rxdata", "part"), ("rxdone", "done")), loads(0x1010, further),
        loads(0x9000, LONG[512:1024] + "00" * 4), writes(RDBAL, 0), *comes(256, 256, 256, 238, slot=2, first=512),
        *NOTHING_LEFT,
        reads(GPRC, 1)])
    server.talks("adapter: the ring becomes longer in mid-frame", [
        *awaited(256, writes(RDT, 2)), *comes(256, 256, left=True), *NOTHING_LEFT, stores(0x80, "0090"),
        writes(RDLEN, 256), writes(RDH, 8), writes(RDT, 9),
        *steps(("rxdata", "part"), ("rxdone", "done")), loads(0x80, further), loads(0x9000, LONG[1024:1536] + "00" * 4),
        *NOTHING_LEFT, reads(RDH, 9)])
    for size, word in SIZES.items():
        server.talks(f"adapter: buffers of 16 times {size} bytes", [
            *awaited(size, writes(RCTL, word | BSEX), frame=BROADCAST),
            *steps(("rxdata", "fault"), ("rxdata", "nothing")), reads(RDH, 0)])
        server.talks(f"adapter: buffers of 16 times {size} bytes in mid-frame", [
            *awaited(256), *comes(256, left=True), writes(RCTL, word | BSEX),
            *steps(("rxdata", "fault"), ("rxdata", "nothing")), *NOTHING_LEFT,
            reads(RDH, 1), reads(GPRC, 0)])
    for tail, recorded in [(7, [0, 0, 0x10, 0, 0, 0]), (6, [0, 0x10, 0, 0, 0, 0]), (5, [0x10, 0, 0, 0, 0]),
                           (4, [0, 0, 0, 0])]:
        server.talks(f"adapter: half of the descriptors are free in mid-frame, tail {tail}",
                     [*awaited(256, writes(RDT, tail)), *(
            row for number, causes_told in enumerate(recorded) for row in [
                *steps(("rxdata", "moved" if number == 5 else "part")), reads(ICR, causes_told),
                *steps(("rxdone", "done")),
                reads(ICR, 0x80 if number == 5 else 0)])])
    server.talks("adapter: a frame has its room until its last piece is moved", [
        writes(PBA, 2), *awaited(256), *steps(("rxdata", "part")), arrives("missed", LONG), *steps(("rxdone", "done")),
        arrives("missed", LONG), reads(MPC, 2), reads(ICR, 0x40),
        *comes(256, 256, 256, 256, slot=1, first=256, left=True), arrives("missed", "ff" * 497), reads(MPC, 1),
        *steps(("rxdata", "moved")), arrives("stored"), reads(GPRC, 0), *steps(("rxdone", "done")),
        written_back(5, 238, 0x03),
        *comes(60, slot=6, frame=BROADCAST), *NOTHING_LEFT, reads(GPRC, 2), reads(RNBC, 0)])
    again = [writes(CTRL, RESET), *OFFERED, writes(RCTL, SIZES[256])]
    server.talks("adapter: a fault in mid-frame", [
        *awaited(256, stores(16, "000010")),
        *steps(("rxdata", "part"), ("rxdata", "nothing"), ("rxdone", "done"), ("rxdata", "fault")), *NOTHING_LEFT,
        reads(RDH, 1), written_back(0, 256, 0x01), loads(16, "000010" + "00" * 13), stores(16, "005000"), *NOTHING_LEFT,
        reads(ICR, 0),
        reads(GPRC, 0), *again, *NOTHING_LEFT, arrives("stored", "ff" * 300), *comes(256, 44, frame="ff" * 300),
        *NOTHING_LEFT, reads(GPRC, 1)])
    for name, buffer, outcome in [("ends with the memory", "12ff0f", "moved"),
                                  ("lies past the memory", "13ff0f", "fault")]:
        server.talks(f"adapter: the buffer of the last piece {name}", [
            *awaited(256, stores(0x50, buffer)), *comes(256, 256, 256, 256, 256, left=True),
            *steps(("rxdata", outcome))])
    for name, begun, descriptor in [("in progress", [], loads(0, "0048" + "00" * 14)),
                                    ("finished", steps(("rxdone", "done")), written_back(0, 256, 0x01))]:
        server.talks(f"adapter: a reset in mid-frame, the piece is {name}", [
            *awaited(256), *steps(("rxdata", "part")), *begun, *again, *NOTHING_LEFT, descriptor, reads(RDH, 0),
            reads(GPRC, 0), reads(ICR, 0), arrives("stored"), *steps(("rxdata", "moved"), ("rxdone", "done")),
            written_back(0, 60, 0x03),
            loads(0x4800, BROADCAST + LONG[120:128]), reads(GPRC, 1)])


def came(fate, *lengths):
    """The rows in which frames of these lengths arrive, each with this fate."""
    return [arrives(fate, "ff" * length) for length in lengths]


def packet_buffer(server):
    """A frame for which the receive packet buffer has no room is missed. A frame takes up its length, rounded up to a
    multiple of 16 bytes, and 16 bytes more.
    """
    for kilobytes, stored, missed in [
        (2, [60] * 25, 60), (2, [1518, *[60] * 6], 60), (2, [1518], 497), (2, [1518, 496], 60), (2, [1008, 1008], 60),
        (2, [1009], 993), (2, [1009, 992], 60), (48, [1518] * 32, 60), (48, [60] * 614, 60), (48, [60] * 614, 1518),
        (4, [64] * 51, 60), (4, [65] * 42, 65),
    ]:
        server.talks(f"adapter: {kilobytes} KB have room for {len(stored)} frames, the last of {stored[-1]} bytes, and "
                     f"not for one of {missed} more", [
            writes(PBA, kilobytes), writes(RCTL, RECEIVE), *came("stored", *stored), reads(MPC, 0),
            *came("missed", missed), reads(MPC, 1),
            reads(RNBC, len(stored) + 1)])
    server.talks("adapter: a short frame is stored after a long one is missed", [
        writes(PBA, 2), writes(RCTL, RECEIVE), *came("stored", 1518), *came("missed", 1518, 497), *came("stored", 60),
        reads(MPC, 2)])
    server.talks("adapter: RXA is lowered, and raised, while frames wait", [
        *awaited(2048), *came("stored", 1518), writes(PBA, 2), *came("missed", 60),
        *steps(("rxdata", "moved"), ("rxdone", "done")), *came("missed", 497),
        *came("stored", 60), writes(PBA, 4), *came("stored", 1518), *came("missed", 1518), reads(MPC, 3)])
    server.talks("adapter: a reset empties the packet buffer, and keeps its room", [
        writes(PBA, 2), writes(RCTL, RECEIVE), *came("stored", 1518), *came("missed", 1518), writes(CTRL, RESET),
        writes(RCTL, RECEIVE),
        *came("stored", 1518), *came("missed", 1518)])
    server.talks("adapter: a restore brings back what the frames take up", [
        *awaited(2048, writes(PBA, 2)), ("save", "OK"), *steps(("rxdata", "moved"), ("rxdone", "done")),
        *came("stored", 1518), ("restore", "OK"),
        *came("missed", 1518), *came("stored", 496), *came("missed", 60)])


def slot(length, told, number=0):
    """The row that stores transmit descriptor `number`, whose buffer is at 0x800 + 2,048 * number. `told` is its
    command byte.
    """
    return stores(0x80 + 16 * number,
                  f"00{8 + 8 * number:02x}{'00' * 6}{length.to_bytes(2, 'little').hex()}00{told:02x}00000000")


# A transmit ring of eight slots at 0x80, and buffers whose bytes are all 7.
RING = [("memset 0x800 16384 7", "OK"), writes(TDBAL, 0x80), writes(TDLEN, 128), writes(TCTL, TRANSMIT)]


# A request after which frames, arrivals of offered frames, and faults are reported as they happen.
EVENTS = ("events on", "OK")


def all_cases(server):
    for part in [registers, causes, eeprom, phy, filters, arrivals, receiving, pieces, pieces_later, packet_buffer]:
        part(server)
