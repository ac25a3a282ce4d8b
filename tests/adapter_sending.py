"""Tests frames that the adapter sends, and transmit descriptors that it rejects, in sessions of `nicbench serve`."""

from adapter_sessions import CTRL, EVENTS, GPTC, ICR, RESET, RING, TCTL, TDBAH, TDBAL, TDH, TDLEN, TDT, loads, reads
from adapter_sessions import slot, steps, stores, writes
from server import number


def put(frame, told=""):
    return "step txput", f"frame {frame}\n{told}OK put"


def sending(server):
    """Each step of the transmit engine has the expected outcome and effects."""
    two = [*RING, slot(14, 0x0B), slot(14, 0x03, 1), writes(TDT, 2)]
    padded = ("07" * 14).ljust(120, "0")
    server.talks("adapter: frames are taken and put", [
        EVENTS, *two, *steps(("txput", "nothing"), ("txtake", "took")), reads(ICR, 0), *steps(("txtake", "took")),
        reads(ICR, 2), *steps(("txtake", "nothing")), reads(TDH, 2), put(padded), loads(0x8C, "01000000"),
        reads(ICR, 1), put(padded), loads(0x9C, "00000000"), reads(ICR, 0), reads(GPTC, 2), reads(GPTC, 0),
        *steps(("txput", "nothing"))])
    server.talks("adapter: a reset drops frames that were taken",
                 [*two, *steps(("txtake", "took")), writes(CTRL, RESET), *steps(("txput", "nothing"))])
    server.talks("adapter: four frames wait for the wire at most", [
        EVENTS, *RING, *(slot(1518, 0x0B, number) for number in range(8)), writes(TDT, 7),
        *steps(*[("txtake", "took")] * 4, ("txtake", "nothing")), reads(TDH, 4),
        put("07" * 1518), *steps(("txtake", "took"), ("txtake", "nothing"))])
    server.talks("adapter: the wire is full", [
        EVENTS, ("wire full", "OK"), *steps(("txput", "nothing")), *two,
        *steps(("txtake", "took"), ("txput", "wirefull")), loads(0x8C, "00000000"), reads(GPTC, 0), ("wire full", "OK"),
        ("settle", "OK 0x0000000000000001"), ("wire free", "OK"), put(padded), reads(GPTC, 1), ("wire full", "OK"),
        *steps(("txput", "wirefull")), writes(CTRL, RESET), *steps(("txput", "nothing")),
        ("wire free", "OK"), *steps(("txput", "nothing")), reads(GPTC, 0)])
    server.talks("adapter: a short frame without padding",
                 [EVENTS, *RING, writes(TCTL, 2), slot(14, 0x0B), writes(TDT, 1), *steps(("txtake", "took")),
                  put("07" * 14)])
    server.talks("adapter: it is turned off",
                 [*RING, writes(TCTL, 8), slot(14, 0x0B), writes(TDT, 1), *steps(("txtake", "nothing"))])
    for name, length, told, changed, outcome in [
        ("one byte", 1, 0x01, [], "took"), ("no byte", 0, 0x01, [], "fault"), ("the longest", 1518, 0x01, [], "took"),
        ("1,519 bytes", 1519, 0x01, [], "fault"), ("no end of a packet", 14, 0x0A, [], "fault"),
        ("a descriptor of another kind", 14, 0x2B, [], "fault"),
        ("the tail is no slot", 14, 0x0B, [writes(TDT, 8)], "fault"),
        ("a ring of 64 bytes, which are kept as 0", 14, 0x0B, [writes(TDLEN, 64)], "fault"),
        ("the descriptor lies past the memory", 14, 0x0B, [writes(TDBAL, 0x100000)], "fault"),
        ("the descriptor lies past 2^64", 14, 0x0B,
         [writes(TDBAL, 0xFFFFFFF0), writes(TDBAH, 0xFFFFFFFF), writes(TDH, 1), writes(TDT, 2)], "fault"),
        ("the buffer lies past the memory", 14, 0x0B, [stores(0x80, "f3ff0f")], "fault"),
        ("the buffer ends with the memory", 14, 0x0B,
        [stores(0x80, "f2ff0f")], "took"),
    ]:
        server.talks(f"adapter: a frame to be sent: {name}",
                     [*RING, slot(length, told), writes(TDT, 1), *changed, *steps(("txtake", outcome))])
    server.talks("adapter: a fault stops transmission", [
        *two, writes(TDT, 8), *steps(("txtake", "fault")), reads(TDH, 0), writes(TDT, 2), *steps(("txtake", "nothing")),
        writes(CTRL, RESET), *RING[1:],
        writes(TDT, 2), *steps(("txtake", "took"))])
