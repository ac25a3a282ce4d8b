"""Tests frames and faults that the server reports as they happen or keeps, cycles after accesses, the clock, and
requests of qtest's clients.
"""

import base64

from adapter_sessions import (
    BASE, BROADCAST, CTRL, EERD, ICR, ICS, IMS, LONG, MDIC, OFFERED, PBA, RCTL, RDBAH, RDBAL, RDH, RDLEN, RDT, RECEIVE,
    RESET, RING, SLOTS, STATUS,
    TDBAH, TDBAL, TDH, TDLEN, TDT, arrives, loads, reads, slot, steps, stores, writes)
from request_forms import KINDS
from server import ONE, ZERO, lines, number

from random_requests import RandomRequests, Words

EVENTS, QUIET = ("events on", "OK"), ("events off", "OK")
LOG = ("log on", "OK")
FRAME = "07" * 60
# The rows that offer FRAME for sending
ONE_SLOT = [slot(60, 0x0B), writes(TDT, 1)]
PUT = f"frame {FRAME}\n"
NOTHING = [f"# step {kind} -> nothing" for kind in KINDS]
# Three slots whose frames aren't offered yet
THREE = [*RING, *(slot(60, 0x0B, number_of) for number_of in range(3)), EVENTS]


def told(*texts):
    return "\n".join(texts)


def frames(server):
    """A frame that is put on the wire is reported at once, or kept for `frames`."""
    server.talks("events: at the start they are off", [
        *RING, *ONE_SLOT, *steps(("txtake", "took"), ("txput", "put")), ("frames", f"OK 0x{FRAME}"),
        ("frames", "OK")])
    server.talks("events: a frame is reported", [
        EVENTS, *RING, *ONE_SLOT, *steps(("txtake", "took")), ("step txput", PUT + "OK put"), ("frames", "OK")])
    two = [*RING, slot(60, 0x0B), slot(61, 0x0B, 1), writes(TDT, 2)]
    server.talks("events: two frames are kept, the oldest first", [
        *two, ("settle", number(4)), ("frames", f"OK 0x{FRAME} 0x{'07' * 61}"), ("frames", "OK")])
    server.talks("events: a kept frame stays kept", [
        *two, *steps(("txtake", "took"), ("txtake", "took"), ("txput", "put")), EVENTS,
        ("step txput", f"frame {'07' * 61}\nOK put"), QUIET, EVENTS,
        ("frames", f"OK 0x{FRAME}"), ("frames", "OK")])
    server.talks("events: a reset drops no kept frame", [
        *RING, *ONE_SLOT, ("settle", number(2)), writes(CTRL, RESET), ("frames", f"OK 0x{FRAME}")])
    server.talks("events: interrupts and the log are reported always", [
        LOG, *((request, f"# {request}\n{answer}") for request, answer in [*RING, *ONE_SLOT, writes(IMS, 1)]),
        ("step txtake", "# step txtake -> took\nOK took"),
        ("step txput", "# step txput -> put\nIRQ raise 0\nOK put"), ("frames", f"OK 0x{FRAME}")])
    server.talks("events: a frame comes after its step in the log", [
        EVENTS, *RING, *ONE_SLOT, LOG, ("settle", told("# step txtake -> took", "# step txput -> put", f"frame {FRAME}",
        *NOTHING[2:], *NOTHING, number(2)))])
    server.talks("events: arrivals of offered frames", [
        ("offer 00", "OK"), ("offer 01", "OK"), ("settle", ZERO), EVENTS, ("settle", ZERO), ("offer 02", "OK"),
        ("settle", f"arrived off 02\n{ZERO}"), QUIET,
        ("offer 03", "OK"), LOG, ("settle", told("# arrive 03", *NOTHING, ZERO)), ("frames", "OK")])


PAST = 0x100000
TRANSMIT_FAULTS = [
    ("a ring without descriptors", "ring", 0, [writes(TDLEN, 64)]),
    ("a tail outside the ring", "ring", 0, [writes(TDT, 8)]),
    ("a head outside the ring", "ring", 8, [writes(TDH, 8)]),
    ("a head that is no index, and a descriptor outside memory", "ring", 9, [
        writes(TDH, 9), writes(TDBAL, PAST)]),
    ("a descriptor outside memory", "descriptor", 0, [writes(TDBAL, PAST)]),
    ("a descriptor past 2^64", "descriptor", 1, [writes(TDBAL, 0xFFFFFFF0), writes(TDBAH, 0xFFFFFFFF), writes(TDH, 1),
    writes(TDT, 2)]),
    ("a context descriptor", "dext", 0, [slot(60, 0x2B)]), ("a context descriptor without EOP", "dext", 0,
    [slot(0, 0x2A)]),
    ("a descriptor without EOP", "eop", 0, [slot(60, 0x0A)]),
    ("the second descriptor without EOP", "eop", 1, [writes(TDH, 1), writes(TDT, 2)]),
    ("no EOP and no length", "eop", 0, [slot(0, 0x0A)]), ("no length", "length", 0, [slot(0, 0x0B)]),
    ("1,519 bytes", "length", 0, [slot(1519, 0x0B)]),
    ("no length, and a buffer outside memory", "length", 0, [slot(0, 0x0B), stores(0x80, "ffff0f")]),
    ("a buffer partly outside memory", "buffer", 0, [stores(0x80, "c5ff0f")]),
    ("a buffer past 2^64", "buffer", 0, [stores(0x80, "ff" * 8)]),
]
RECEIVE_FAULTS = [
    ("a ring without descriptors", "ring", 0, [writes(RDLEN, 100)]),
    ("a tail outside the ring", "ring", 0, [writes(RDT, 8)]),
    ("a head outside the ring", "ring", 8, [writes(RDH, 8)]),
    ("no descriptors, and BSEX", "ring", 0, [writes(RDLEN, 0), writes(RCTL, RECEIVE | 1 << 25)]),
    ("BSEX", "bsex", 0, [writes(RCTL, RECEIVE | 1 << 25)]), ("BSEX, and a descriptor outside memory", "bsex", 3, [
        writes(RCTL, RECEIVE | 1 << 25), writes(RDBAL, PAST), writes(RDH, 3)]),
    ("a descriptor outside memory", "descriptor", 0, [writes(RDBAL, PAST)]),
    ("a descriptor past 2^64", "descriptor", 1, [writes(RDBAL, 0xFFFFFFF0), writes(RDBAH, 0xFFFFFFFF), writes(RDH, 1)]),
    ("a buffer partly outside memory", "buffer", 0, [stores(0, "c5ff0f")]),
    ("the second buffer outside memory", "buffer", 1, [
        stores(16, "000010"), writes(RDH, 1)]),
]


def stops(server, engine, kind, begun, name, reason, index, changed):
    """An engine stops for this reason. The reason is kept for `faults`, or reported after the step's line of the log,
    if there is one.
    """
    words = f"{engine} {index} {reason}"
    stopped = [("restore", "OK"), EVENTS]
    server.talks(f"faults: {engine}: {name}", [
        *begun, *changed, ("faults", "OK"), ("save", "OK"), (f"step {kind}", "OK fault"),
        (f"step {kind}", "OK nothing"), ("faults", f"OK {words}"), ("faults", "OK"), *stopped,
        (f"step {kind}", f"fault {words}\nOK fault"),
        ("faults", "OK"), *stopped, LOG, (f"step {kind}", f"# step {kind} -> fault\nfault {words}\nOK fault"),
        (f"step {kind}", f"# step {kind} -> nothing\nOK nothing")])


def faults(server):
    """The reason for which an engine stops is the first one that applies. It is reported at once, or kept for `faults`.
    """
    transmit, receive = [*RING, *ONE_SLOT], [*SLOTS, *OFFERED, arrives("stored")]
    cases = [("tx", "txtake", transmit, TRANSMIT_FAULTS), ("rx", "rxdata", receive, RECEIVE_FAULTS)]
    for *case, rows in cases:
        for row in rows:
            stops(server, *case, *row)
    both = [*receive, writes(RDT, 8), *RING, *ONE_SLOT, writes(TDLEN, 64)]
    server.talks("faults: of both engines, the oldest first", [
        *both, *steps(("rxdata", "fault"), ("txtake", "fault")), ("faults", "OK rx 0 ring tx 0 ring"),
        ("faults", "OK")])
    server.talks("faults: in a `settle`", [*both, EVENTS, ("settle", f"fault tx 0 ring\nfault rx 0 ring\n{number(2)}")])
    server.talks("faults: again after a reset", [
        *RING, *ONE_SLOT, writes(TDT, 9), ("settle", ONE), writes(CTRL, RESET), *RING[1:], writes(TDT, 9),
        ("settle", ONE), ("faults", "OK tx 0 ring tx 0 ring")])
    server.talks("faults: a kept fault stays kept", [
        *both, *steps(("rxdata", "fault")), EVENTS, ("step txtake", "fault tx 0 ring\nOK fault"),
        ("faults", "OK rx 0 ring")])


def paced(server):
    """After an access or an arrival, cycles are played until one does nothing, but at most the number that `pace`
    states.
    """
    server.talks("pace: a frame is sent at once", [
        *RING, EVENTS, ("pace 1", "OK"), slot(60, 0x0B), writes(TDT, 1, PUT), loads(0x8C, "01000000")])
    server.talks("pace: a frame is received at once", [
        *SLOTS, *OFFERED, writes(IMS, 0x80), ("pace 1", "OK"), (f"arrive {BROADCAST}", "IRQ raise 0\nOK stored"),
        loads(0x4800, BROADCAST),
        reads(ICR, 0x80, "IRQ lower 0\n")])
    server.talks("pace: at most two rounds", [
        *THREE, ("pace 2", "OK"), writes(TDT, 3, PUT * 2), ("line", ZERO), ("step phy", "OK nothing"),
        ("readb 0x100000", "ERR address"), reads(TDH, 2, PUT), reads(TDH, 3)])
    server.talks("pace: a round for each access", [
        *THREE, writes(TDT, 3), ("pace 1", "OK"), ("b64read 0 1", PUT + "OK AA=="), ("b64write 0 1 AQ==", PUT + "OK"),
        ("memset 1 1 1", PUT + "OK"), ("readb 0", ONE)])
    server.talks("pace: the EEPROM and the PHY answer at once", [
        ("pace 3", "OK"), writes(EERD, 1), reads(EERD, 0x00020010), writes(MDIC, 0x04201200), reads(MDIC, 0x14201200),
        writes(CTRL, 0x40), reads(STATUS, 0x83)])
    server.talks("pace: a reset is an access, too", [
        *THREE, writes(TDT, 3), ("pace 1", "OK"), writes(CTRL, RESET), ("frames", "OK"), reads(TDT, 0)])
    server.talks("pace: a fault of an engine", [
        *RING, EVENTS, ("pace 1", "OK"), writes(TDT, 8, "fault tx 0 ring\n"), ("readb 0", ZERO)])
    server.talks("pace: a frame that is missed", [
        writes(PBA, 2), writes(RCTL, RECEIVE), ("pace 7", "OK"), arrives("stored", LONG), arrives("missed", LONG),
        ("settle", ZERO),
        ("pace 65535", "OK"),
        ("pace 65536", "ERR value"), ("pace", "ERR count"), ("pace x", "ERR value")])


def not_paced(server):
    """`pace` plays no cycle after a request that is neither an access nor `arrive`. No cycle follows a cycle that does
    nothing, also on a full wire.
    """
    server.talks("pace: not after other requests", [
        *THREE, writes(TDT, 3), ("pace 65535", "OK"), ("endianness", "OK little"), ("frames", "OK"),
        ("inl 0xCF8", ZERO), ("outl 0xCF8 0", "OK"),
        ("offer 00", "OK"), ("log off", "OK"), ("wire free", "OK"), ("save", "OK"), ("restore", "OK"),
        ("irq_intercept_in x", "OK"), ("pace 0", "OK"),
        reads(TDH, 0), ("pace 65535", "OK"), ("readl", "ERR count"), ("readl 0x100000", "ERR address"),
        ("readb 0xFEB00000", "ERR register"),
        ("arrive 00", PUT * 3 + "OK off"), ("settle", f"arrived off 00\n{ZERO}")])
    server.talks("pace: a round that does nothing is the last", [
        LOG, ("pace 5", "OK"), ("readl 0", told("# readl 0", *NOTHING, ZERO)),
        ("arrive 00", told("# arrive 00", *NOTHING, "OK off"))])
    server.talks("pace: a full wire ends the rounds", [
        *THREE, writes(TDT, 1), ("wire full", "OK"), ("pace 9", "OK"), LOG,
        ("readb 0", told("# readb 0", "# step txtake -> took", "# step txput -> wirefull", *NOTHING[2:], NOTHING[0],
        "# step txput -> wirefull", *NOTHING[2:], ZERO))])


class Memory:
    """What RandomRequests has to know of an adapter: the size of its memory, and that no registers were read."""

    def __init__(self, size):
        self.memory, self.registers = bytes(size), {}


def replayed(server):
    """The log contains the steps of all cycles. If a client requests these steps, the same happens."""
    for seed, count, steps_before in (1, 1, 0), (2, 3, 0), (3, 65_535, 0), (5, 2, 3):
        drawn, asked = RandomRequests(Words(seed), Memory(8192)), []
        while len(asked) < 2000:
            drawn.phase(60)
            asked += [request for request, _ in drawn.take() if not request.startswith("read 0 ")]
        begun = ["events on", "log on"]
        asked = [*begun, f"interleave {steps_before}", f"pace {count}", *asked, "clock_step 1"]
        ran = server.serve(lines(asked), "--memory", "8192")
        told = [text for text in ran[1].decode().splitlines() if not text.startswith("OK")]
        again = [text.removeprefix("# ").partition(" ->")[0] for text in told if text.startswith("#")]
        ran = server.serve(lines([*begun, *again]), "--memory", "8192")
        repeated = [text for text in ran[1].decode().splitlines() if not text.startswith("OK")]
        kinds = {text.split()[0] for text in told}
        server.check(f"pace: seed {seed}: what happens", kinds >= {"#", "IRQ", "frame", "fault"}, True)
        server.check(f"pace: seed {seed}: played again by steps", (ran[0], repeated == told, ran[2]), (0, True, b""))


def clocks(server):
    """The clock moves only by requests, which play cycles first, as `settle` does."""
    last = (1 << 64) - 1
    server.talks("clock: it moves forward", [
        ("clock_step", "OK 0"), ("clock_step 5", "OK 5"), ("clock_step", "OK 5"), ("clock_step 0x10", "OK 21"),
        ("clock_set 20", "OK 21"), ("clock_set 22", "OK 22"),
        ("clock_set 0", "OK 22"), (f"clock_set {last}", f"OK {last}"), ("clock_step", f"OK {last}"),
        ("clock_step 0", f"OK {last}"), ("clock_step 1", "ERR value"),
        (f"clock_step {last}", "ERR value"), ("clock_set 18446744073709551616", "ERR value"),
        ("clock_set", "ERR count"), ("clock_step 1 2", "ERR count"),
        ("clock_step", f"OK {last}")])
    for request in "clock_step 3", "clock_set 3":
        server.talks(f"clock: {request} plays rounds", [
            EVENTS, *SLOTS, *OFFERED, writes(IMS, 0x80), (f"offer {BROADCAST}", "OK"), *RING, *ONE_SLOT,
            (request, f"arrived stored {BROADCAST}\n{PUT}IRQ raise 0\nOK 3"), loads(0x4800, BROADCAST), LOG,
            ("clock_step", told(*NOTHING, "OK 3"))])
    server.talks("clock: a request that is rejected plays none", [
        EVENTS, ("clock_set 1", "OK 1"), ("offer 00", "OK"), (f"clock_step {last}", "ERR value"),
        ("settle", f"arrived off 00\n{ZERO}")])
    link = [writes(CTRL, 0x40), writes(MDIC, 0x04201200), ("clock_step 1000000000", "OK 1000000000"),
        reads(STATUS, 0x83)]
    server.talks("clock: the link is up at once", link, "--link", "3")


def restored(server):
    """`save` keeps events, frames, faults, the pace and the clock."""
    begun = [*RING, *ONE_SLOT, ("settle", number(2)), writes(TDT, 8), *steps(("txtake", "fault")),
        ("clock_step 7", "OK 7"), ("pace 1", "OK"), ("save", "OK")]
    kept = [("frames", f"OK 0x{FRAME}"), ("faults", "OK tx 1 ring"), ("clock_step", "OK 7"), writes(EERD, 1),
        reads(EERD, 0x00020010), ("offer 00", "OK"), ("settle", ZERO)]
    server.talks("events: saved and restored", [
        *begun, *kept, EVENTS, ("pace 0", "OK"), ("clock_step 9", "OK 16"), ("restore", "OK"), *kept, ("frames", "OK"),
        ("faults", "OK"), ("restore", "OK"), *kept])
    server.talks("events: a saved `events on`", [
        EVENTS, ("save", "OK"), QUIET, ("restore", "OK"), ("offer 00", "OK"), ("settle", f"arrived off 00\n{ZERO}")])


def compatible(server):
    """The server answers requests of qtest's clients: bytes in base64, and requests to report interrupts."""
    whole = base64.b64encode(bytes.fromhex("fbffbf") + bytes(13) + bytes(range(1, 7)) + bytes(65_514)).decode()
    server.talks("qtest: bytes in base64", [
        ("b64write 0x10 1 AQ==", "OK"), ("b64write 17 2 AgM=", "OK"), ("b64write 19 3 BAUG", "OK"),
        ("read 16 6", "OK 0x010203040506"),
        ("b64read 16 1", "OK AQ=="), ("b64read 16 2", "OK AQI="), ("b64read 0x10 3", "OK AQID"),
        ("b64read 16 6", "OK AQIDBAUG"), ("b64read 0 0", "OK "),
        ("b64read 0x100000 0", "OK "), ("b64write 0 3 +/+/", "OK"), ("b64read 0 3", "OK +/+/"),
        ("b64read 0xFEB05400 4", "OK AgAAAA=="),
        ("b64write 0xFEB05400 4 eFY0Eg==", "OK"), (f"readl {BASE + 0x5400}", number(0x12345678)),
        ("b64read 0 65536", f"OK {whole}"),
        ("b64read 0xFFFFF 2", "ERR address"), ("b64read 0 65537", "ERR size"), ("b64write 0 65537 AAAA", "ERR size"),
        ("b64write 0xFFFFF 2 AgM=", "ERR address")])
    server.talks("qtest: words that aren't base64", [
        (f"b64write 0 {size} {word}", "ERR value") for size, word in [
        (1, "AQ"), (1, "AQ="), (1, "AQ==="), (2, "AQ=="), (0, "AQ=="), (1, "A==="), (1, "===="), (1, "A-=="),
        (1, "A_=="), (3, "AQI=="), (3, "AQI"), (4, "AQ==AQ=="),
        (1, "0x01"), (1, "AR=="), (2, "AgN="), (3, "AQI\u00e9")]] + [("b64write 0 0", "ERR count"), ("readl 0", ZERO)])
    server.talks("qtest: interrupts are reported without a request for it", [
        writes(IMS, 4), writes(ICS, 4, "IRQ raise 0\n"), ("irq_intercept_in ioapic", "OK"),
        ("irq_intercept_in /machine/unattached/device[0]", "OK"),
        ("irq_intercept_out ioapic", "OK"), reads(ICR, 4, "IRQ lower 0\n"), ("irq_intercept_in", "ERR count"),
        ("irq_intercept_in a b", "ERR count")])


def all_cases(server):
    for part in [frames, faults, paced, not_paced, replayed, clocks, restored, compatible]:
        part(server)
