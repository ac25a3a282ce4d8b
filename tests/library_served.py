"""The same requests in process and by `serve` have the same answers, frames and events, also with a schedule."""

import base64

import adapter
import nic82540em
from driver import RCTL, RDBAL, RDH, RDLEN, RDT
from expected import EN
from random_requests import BAM, RandomRequests, Words

MEMORY = 8192
SEEDS, REQUESTS = 10, 1000
# The numbers of requests before a state is saved and before it is restored
SAVED, RESTORED = 400, 700
# The COUNT of `interleave`: the most random steps before an access
STEPS = 3
# The size of the area of all registers in bytes, and the bytes of a register
AREA, REGISTER_BYTES = 0x20000, 4


class InProcess:
    """Answers requests of `serve` by the library."""

    def __init__(self, library, memory, **options):
        self.nic = nic82540em.Nic(library, memory=memory, **options)

    def register(self, address, size):
        """The offset of the register that an access goes to, or None if it isn't an access of one register."""
        offset = address - adapter.REGISTERS
        return offset if size == REGISTER_BYTES and 0 <= offset < AREA and offset % REGISTER_BYTES == 0 else None

    def load(self, address, size):
        offset = self.register(address, size)
        return self.nic.load(address,
                             size) if offset is None else self.nic.read(offset).to_bytes(REGISTER_BYTES, "little")

    def store(self, address, data):
        offset = self.register(address, len(data))
        if offset is None:
            self.nic.store(address, data)
        else:
            self.nic.write(offset, int.from_bytes(data, "little"))
        return ""

    def answer(self, request, seed):
        """The answer to a request, without OK."""
        verb, *words = request.split()
        if verb in nic82540em.REQUESTS:
            self.nic.begin_round(verb)
        if verb == "readl":
            return f"0x{int.from_bytes(self.load(int(words[0], 0), REGISTER_BYTES), 'little'):016x}"
        if verb == "writel":
            return self.store(int(words[0], 0), int(words[1], 0).to_bytes(REGISTER_BYTES, "little"))
        if verb == "read":
            return "0x" + self.load(int(words[0], 0), int(words[1], 0)).hex()
        if verb == "write":
            return self.store(int(words[0], 0), bytes.fromhex(words[2][2:]))
        if verb == "b64write":
            return self.store(int(words[0], 0), base64.b64decode(words[2]))
        if verb == "memset":
            return self.store(int(words[0], 0), bytes([int(words[2], 0)]) * int(words[1], 0))
        if verb in ("settle", "line"):
            return f"0x{int(getattr(self.nic, verb)()):016x}"
        if verb == "interleave":
            self.nic.interleave(int(words[0]), seed)
            return ""
        if verb == "pace":
            self.nic.pace(int(words[0]))
            return ""
        if verb == "choose":
            return f"0x{self.nic.choose(int(words[0], 0)):016x}"
        if verb == "offer":
            self.nic.offer(bytes.fromhex("".join(words)))
            return ""
        if verb == "wire":
            self.nic.fill_wire(words[0] == "full")
            return ""
        return {"step": lambda: self.nic.step(words[0]),
                "arrive": lambda: self.nic.arrive(bytes.fromhex("".join(words))),
                "log": lambda: ""}[verb]()

    def reply(self, request, seed):
        """What a request does: the answer, the frames that were put on the wire, and the interrupt line."""
        try:
            answer = self.answer(request, seed)
        except nic82540em.Refused:
            answer = "refused"
        frames = []
        while (frame := self.nic.take_put()) is not None:
            frames.append(frame)
        return answer, frames, self.nic.line()


class Served(adapter.Adapter):
    """Answers requests by `nicbench serve`, in the same form."""

    def reply(self, request):
        self.wire.clear()
        try:
            answer = self.ask(request)[0]
        except adapter.Refused:
            answer = "refused"
        return answer, list(self.wire), self.line


class Size:
    """What RandomRequests has to know of an adapter: the size of its memory, and that no registers were read."""

    def __init__(self, size):
        self.memory, self.registers = bytes(size), {}


def requests_of(seed):
    """Requests of a hostile driver, with some that are refused. For odd seeds, steps are played before accesses."""
    drawn = RandomRequests(Words(seed), Size(MEMORY))
    # The answers are compared with those of `serve`, so no registers have to be read before steps and arrivals.
    drawn.before_steps, drawn.before_frames = [], []
    asked = [f"interleave {STEPS}"] if seed % 2 else []
    while len(asked) < REQUESTS:
        drawn.phase(40)
        asked += [request for request, _ in drawn.take() if not request.startswith(("log", "events"))]
        asked += ["line", "settle", f"read {MEMORY - 2:#x} 3", f"write {2**64 - 1:#x} 1 0x00", f"read {MEMORY:#x} 0"]
    return asked[:REQUESTS]


def same_answers(library):
    for seed in range(1, SEEDS + 1):
        inside = InProcess(library.shared, MEMORY)
        with Served(library.program, "--memory", str(MEMORY), "--seed", str(seed)) as served:
            differ = next(((request, got, wanted) for request in requests_of(seed)
                           if (got := inside.reply(request, seed)) != (wanted := served.reply(request))), None)
            library.check(f"{REQUESTS} requests of seed {seed}, in process and served", differ, None)


def events_in(told, request, answer):
    """The events of a request, computed from its answer and the lines that `serve` printed for it with log and events
    on.
    """
    found, fault = [], ""
    if request.startswith("arrive") and answer != "refused":
        found.append(("arrived", answer))
    for line in told:
        words = line.split()
        if words[0] == "arrived":
            found.append(("arrived", words[1]))
        elif words[:2] == ["#", "step"] and words[4] == "fault":
            fault = words[2]
        elif words[:2] == ["#", "step"] and words[4] != "nothing":
            found.append(("step", words[2], words[4]))
        elif words[0] == "fault":
            found.append(("fault", fault, int(words[2]), words[3]))
        elif words[0] == "IRQ":
            found.append(("line", words[1] == "raise"))
    return found


def with_offers(seed):
    """Yields requests of a hostile driver, with choices, offered frames and `pace`, and with a wire that is full now
    and then.
    """
    for place, request in enumerate(requests_of(seed)):
        if place % 13 == 5:
            yield f"choose {place % 7 and 1 << place % 30}"
        if place % 11 == 3:
            yield "offer " + (bytes([255] * 6) + bytes([place & 255]) * (14 + place % 60)).hex()
        if place % 60 in (20, 50):
            yield f"wire {'full' if place % 60 == 20 else 'free'}"
        if place % 40 in (10, 25):
            yield f"pace {1 + place % 3 if place % 40 == 10 else 0}"
        yield request


def events_as_served(library):
    """The answers, frames and events are those of `serve`, also of steps and arrivals before accesses."""
    kinds = set()
    for seed in range(1, SEEDS + 1):
        inside, differ = InProcess(library.shared, MEMORY), None
        inside.nic.events(True)
        with Served(library.program, "--memory", str(MEMORY), "--seed", str(seed)) as served:
            served.ask("log on")
            for request in with_offers(seed):
                served.told.clear()
                got, wanted = inside.reply(request, seed), served.reply(request)
                got, wanted = (got, inside.nic.take_events()), (wanted, events_in(served.told, request, wanted[0]))
                kinds |= {event[0] for event in got[1]} | {event[2] for event in got[1] if event[0] == "step"}
                differ = differ or (got != wanted and (request, got, wanted)) or None
        library.check(f"events of seed {seed}, in process and served", differ, None)
    library.check("kinds of events", {"fault", "arrived", "line", "wirefull"} - kinds, set())


def schedules_as_served(library):
    """A recorded schedule has the same answers, frames and events by `serve` and in process, and the same digest.

    In process, a copy of the adapter is the saved state. After it is restored, the requests since the save are made
    again.
    """
    path, options, found = library.path("recorded.txt"), ("--memory", str(MEMORY)), set()
    for seed in range(1, SEEDS + 1):
        asked = [f"interleave {STEPS}", *with_offers(seed)]
        with Served(library.program, *options, "--seed", str(seed), "--record", path) as served:
            for request in asked:
                served.reply(request)
        with open(path, "rb") as file:
            text = file.read()
        found |= {line.split(b" before ")[0].split()[1] for line in text.splitlines() if b" before " in line}
        inside, differ = InProcess(library.shared, MEMORY), None
        inside.nic.events(True)
        inside.nic.play(text)
        with Served(library.program, *options, "--schedule", path) as served:
            served.ask("log on")
            for request in [*asked[:SAVED], "save", *asked[SAVED:RESTORED], "restore", *asked[SAVED:]]:
                if request in ("save", "restore"):
                    served.ask(request)
                    saved, inside.nic = (inside.nic.copy(), inside.nic) if request == "save" else (None, saved)
                    continue
                served.told.clear()
                got, wanted = inside.reply(request, seed), served.reply(request)
                got, wanted = (got, inside.nic.take_events()), (wanted, events_in(served.told, request, wanted[0]))
                differ = differ or (got != wanted and (request, got, wanted)) or None
            digest = served.ask("digest")[0]
        library.check(f"schedule of seed {seed}, in process and served", differ, None)
        library.check(f"digest after the schedule of seed {seed}", f"0x{inside.nic.digest():016x}", digest)
    wanted = {b"rxdata", b"rxdone", b"txtake", b"txput", b"hold", b"choose", b"arrive"}
    library.check("actions of schedules", wanted - found, set())


def schedules(library):
    """Plays a schedule by names of accesses, also in a copy of the adapter, and then a second schedule, with a choice.
    Texts that aren't schedules are refused.
    """
    with nic82540em.Nic(library.shared) as nic:
        nic.write(RDBAL, 0x1000), nic.write(RDLEN, 128), nic.write(RCTL, EN | BAM), nic.write(RDT, 7)
        nic.play(b"rx before read RDH#2\n1.0 rx before settle\n")
        nic.arrive(b"\xff" * 60), nic.arrive(b"\xff" * 60)
        heads = [nic.read(RDH), nic.read(RDH)]
        with nic.copy() as copy:
            copy.begin_round("settle")
            heads.append(copy.read(RDH))
        nic.play(b"options --memory 1\n0.3 choose 3 before choose\n")
        nic.interleave(STEPS)
        heads += [nic.read(RDH), nic.read(RDH)]
        library.check("heads by a schedule", heads, [0, 1, 2, 1, 1])
        library.check("choices by a schedule", [nic.choose(9), nic.choose(9)], [3, 0])
        refused = []
        for text in (b"0.1 rx before\n", b"\n0.2 tx before write TDT\n0.1 tx before write TDT", b"\xff",
                     b"rx before choose#1"):
            try:
                nic.play(text)
            except nic82540em.Refused as error:
                refused.append(str(error))
        lines = [f"line {line} of the schedule" for line in (1, 3, 1)]
        library.check("no schedules", refused, [*lines[:2], "memory is refused, or no UTF-8", lines[2]])
        library.check("no request", nic.call("begin_round", len(nic82540em.REQUESTS)), False)


PARTS = (same_answers, events_as_served, schedules_as_served, schedules)
