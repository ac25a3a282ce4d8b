"""Tests `nicbench drive` with rings of 4,096 descriptors on `nicbench serve`: both rings are filled, and wrap. Sizes
that aren't valid are rejected.
"""

from emulators import RDH, RDT, Serve
from qemu import Wire, drawn, drive
from traces import read_trace, write_trace

SLOTS, BUFFERS = 4096, 8192
IMS, RDBAL, RDLEN, TDBAL, TDLEN, TDT = 0xD0, 0x2800, 0x2808, 0x3800, 0x3808, 0x3818
# The bytes of memory that the greatest rings need, and those that rings of 8 with 16 buffers need
GREATEST, LEAST = 10_616_832, 22_528
# Frames each way: more than a ring has slots
FRAMES = 4400
STEPS = 3


def rings_of(rx, tx, buffers):
    return ["--rx", str(rx), "--tx", str(tx), "--buffers", str(buffers)]


class Bursts(Serve):
    """An adapter that takes drawn steps only until it is initialized, and then steps only when frames arrive. Up to
    SLOTS frames arrive at once.
    """

    MOST = SLOTS

    def __init__(self, program, memory):
        self.written, self.sends, self.is_up, self.dry = {}, 0, False, []
        super().__init__(program, 1, STEPS, memory=memory)

    def ask(self, request):
        """Makes a request, and returns its answer. Notes what the initialization writes, and how many frames are
        offered for sending before the first frame arrives.
        """
        word, *rest = request.split()
        offset = int(rest[0], 0) - self.registers if word in ("readl", "writel") else None
        if word == "writel" and not self.is_up:
            self.written[offset] = int(rest[1], 0)
        self.sends += word == "writel" and offset == TDT and self.is_up and not self.dry
        answer = super().ask(request)
        if word == "writel" and offset == IMS:
            self.is_up = True
            self.expect_ok("interleave 0")
        return answer

    def arrive_all(self, frames):
        """Lets frames arrive, and moves them to memory, 30 at a time. Notes whether the ring has run dry."""
        told = []
        for at in range(0, len(frames), 30):
            told += super().arrive_all(frames[at:at + 30])
        head, tail = (self.number(f"readl {self.registers + offset:#x}")[0] for offset in (RDH, RDT))
        self.dry.append(head == tail)
        return told


def frames_of(seed, slots):
    """Frames of 60 bytes for each slot of a ring except one, and then frames of drawn lengths (60 to 1,518 bytes)."""
    frames = list(drawn(seed, FRAMES * slots // SLOTS))
    return [frame[:60] for frame in frames[:slots - 1]] + frames[slots - 1:]


def exchange(bench, slots, words, memory):
    """The driver exchanges frames with an adapter. Both rings are filled, and all frames come unchanged and in order.
    """
    to_send, arriving = frames_of(2, slots), frames_of(3, slots)
    write_trace(bench.path("send.pcap"), to_send)
    wire, adapter = Wire(arriving), Bursts(bench.program, memory)
    words = ["--send", bench.path("send.pcap"), "--receive", bench.path("receive.pcap"), "--expect", str(len(arriving)),
             *words]
    try:
        status, errors, _ = drive(bench.program, words, adapter, wire)
    finally:
        adapter.close()
    name = f"drive with rings of {slots}"
    bench.check(name, (status, errors), (0, f"sent {len(to_send)} illegal 0 received {len(arriving)} missed 0 exact\n"))
    bench.check(f"{name}: registers", [adapter.written.get(offset) for offset in (RDBAL, RDLEN, RDT, TDBAL, TDLEN)],
                [0, 16 * slots, slots - 1, 16 * slots, 16 * slots])
    bench.check(f"{name}: both rings are full", (adapter.sends, adapter.dry[:1]), (slots - 1, [True]))
    bench.check(f"{name}: sent", wire.sent == to_send, True)
    bench.check(f"{name}: received", read_trace(bench.path("receive.pcap")) == arriving, True)


def rejected(bench):
    """If the size of a ring isn't valid, or memory is too small for the rings, no request is written. With just enough
    memory, one is written.
    """
    for rx, tx, buffers, memory in [(SLOTS, SLOTS, BUFFERS, GREATEST - 1), (SLOTS + 8, SLOTS, BUFFERS, 1 << 24),
                                    (SLOTS, SLOTS + 8, BUFFERS, 1 << 24), (SLOTS, SLOTS, SLOTS - 1, 1 << 24),
                                    (SLOTS, SLOTS, BUFFERS + 1, 1 << 24), (12, 8, 16, 1 << 20), (8, 0, 16, 1 << 20),
                                    (8, 8, 16, LEAST - 1)]:
        words = [*rings_of(rx, tx, buffers), "--memory", str(memory)]
        bench.check(f"drive {words}: its requests",
                    bench.drives(f"drive {words}", [], 1, "E46 Init: E15 Config", *words), [])
    for slots, buffers, memory in [(SLOTS, BUFFERS, GREATEST), (8, 16, LEAST)]:
        words = [*rings_of(slots, slots, buffers), "--memory", str(memory)]
        bench.check(f"drive {words}: its requests", len(bench.drives(f"drive {words}", [], 3, "E66 Read", *words)), 1)


def all_cases(bench):
    rejected(bench)
    exchange(bench, SLOTS, rings_of(SLOTS, SLOTS, BUFFERS), 1 << 24)
