"""Tests `nicbench run` with schedules of hosts, step by step, with races between the accesses of their drivers.

A schedule is a list of lines. A row states which line returns which frame. The line `recv` after an interrupt shows
whether the interrupt took a frame: it returns this frame, or none.
"""

from pcap_files import FILE_HEADER, written
from scenarios import TWO_HOSTS, plays, told

B_ADDRESS = "020000000002"
EVERYONE = "ffffffffffff"
BRING = ["tick txtake:a", "tick txput:a", "tick deliver:b"]
FINISH = ["tick rxdata:b", "tick rxdone:b"]
INTERRUPT, RECV = ["interrupt b"], ["recv b 0"]
SOCKET = "socket b all"
# The most frames of 60 bytes in a packet buffer of 48 KB. Each frame takes up 80 bytes.
MOST_BUFFERED = 614


def frame(mark, to=B_ADDRESS, kind="88b5", length=60):
    """A frame of `length` bytes: a header, and this mark in each byte after it."""
    return bytes.fromhex(f"{to}020000000001{kind}{mark:02x}").ljust(length, bytes([mark]))[:length]


def send(data, ticks="", host="a"):
    return [f"send {host} {data.hex()}" + (f" / {ticks}" if ticks else "")]


def bring(*frames):
    """The lines that send each frame from a, and deliver it to b's adapter."""
    return [line for data in frames for line in send(data) + BRING]


def finish(data):
    """The lines that move and finish the pieces of a frame: one piece for each receive buffer of 256 bytes."""
    return FINISH * -(-max(len(data), 60) // 256)


def receive(*frames):
    """The lines that deliver each frame to b, and finish it in b's memory."""
    return [line for data in frames for line in bring(data) + finish(data)]


class Schedule:
    """Lines of events, and the frames that they return. Each method that adds lines returns the schedule."""

    def __init__(self):
        self.lines, self.given = [], {}

    def does(self, *groups):
        """Adds lines that return no frame."""
        for group in groups:
            self.lines += group
        return self

    def gives(self, data, host="b", socket=0, ticks=""):
        """Adds a line that receives this frame."""
        self.given.setdefault(f"{host}.{socket}.pcap", []).append((len(self.lines), data))
        self.lines.append(f"recv {host} {socket}" + (f" / {ticks}" if ticks else ""))
        return self

    def drains(self, *frames, host="b"):
        """Adds a line that drains a host. It returns these pairs of a socket and a frame."""
        for socket, data in frames:
            self.given.setdefault(f"{host}.{socket}.pcap", []).append((len(self.lines), data))
        self.lines.append(f"drain {host}")
        return self


def row(bench, name, schedule, numbers_of_a, numbers_of_b, options="", setup=(SOCKET,), others=b""):
    """Plays a schedule, and checks the frames and the counts of a and b. Options end b's host line; the host lines of
    `others` and the lines of `setup` follow.
    """
    hosts = TWO_HOSTS.replace(b"02 w\n", f"02 w {options}\n".encode()) + others
    text = hosts + "".join(f"{line}\n" for line in [*setup, *schedule.lines]).encode()
    sockets = [line.split()[1] for line in setup if line.startswith("socket")]
    files = {f"{host}.{n}.pcap": FILE_HEADER for host in set(sockets) for n in range(sockets.count(host))}
    files.update({file: written(frames) for file, frames in schedule.given.items()})
    third = told("c") if b"host c" in others else b""
    plays(bench, f"races: {name}", text, told("a", **numbers_of_a) + told("b", **numbers_of_b) + third, files,
          warned=None)


def counts(sent, given=None, **others):
    """The counts of a and b if b stored all frames that a sent, and returned `given` of them."""
    given = sent if given is None else given
    return {"accepted": sent, "put": sent}, {"reached": sent, "stored": sent, "given": given, **others}


def receiving(bench):
    """A frame is finished before and after each access of an interrupt handler, and at other moments."""
    one, two = frame(1), frame(2)
    for accesses in range(8):
        # The handler accesses ICR, MPC, the first frame's descriptor, its EtherType, the second frame's descriptor, the
        # descriptor of the slot that it offers, and RDT. If the second frame is finished after the load of its
        # descriptor, the next interrupt takes it.
        late = ["interrupt b / " + "go " * accesses + "rxdata:b rxdone:b"]
        taken = Schedule().does(bring(one, two), FINISH, late).gives(one)
        if accesses <= 4:
            taken.gives(two).does(INTERRUPT, RECV, INTERRUPT, RECV)
        else:
            taken.does(RECV, INTERRUPT).gives(two).does(INTERRUPT, RECV)
        row(bench, f"a frame is finished after {accesses} accesses by the handler", taken, *counts(2))
    row(bench, "a slot that the head has passed is in progress",
        Schedule().does(bring(one, two), FINISH, FINISH[:1], INTERRUPT).gives(one).does(RECV, FINISH[1:], RECV,
                                                                                        INTERRUPT).gives(two),
        *counts(2))
    row(bench, "an interrupt before and after the write-back of each frame",
        Schedule().does(bring(one, two), FINISH[:1], INTERRUPT, RECV, FINISH[1:], FINISH[:1],
                        INTERRUPT).gives(one).does(RECV, FINISH[1:], INTERRUPT)
        .gives(two).does(INTERRUPT, RECV), *counts(2))
    row(bench, "the frame is finished in the call that receives it",
        Schedule().does(bring(one), ["recv b 0 / rxdata:b rxdone:b"], RECV, INTERRUPT)
        .gives(one), *counts(1))
    misses(bench, *(frame(mark, length=1518) for mark in (1, 2, 3)))
    refills(bench)


def misses(bench, one, two, three):
    """Frames for which a packet buffer of 2 KB has no room are missed, also while the handler counts misses."""
    a = {"accepted": 3, "put": 3}
    row(bench, "two of three frames are missed",
        Schedule().does(bring(one, two, three), INTERRUPT, RECV, finish(one), INTERRUPT).gives(one), a,
        {"reached": 3, "stored": 1, "missed": 2, "given": 1}, "rxa 2")
    waits = bring(one, two) + send(three) + BRING[:2]
    for accesses in range(3):
        late = ["interrupt b / " + "go " * accesses + "deliver:b"]
        row(bench, f"one more is missed after {accesses} accesses by the handler",
            Schedule().does(waits, late, INTERRUPT, INTERRUPT, finish(one), INTERRUPT)
            .gives(one), a, {"reached": 3, "stored": 1, "missed": 2, "given": 1}, "rxa 2")


def refills(bench):
    """Rings that run dry are refilled, also while buffers are held."""
    frames = [frame(mark) for mark in range(20)]
    dry = Schedule().does(receive(*frames[:7]), bring(frames[7]), FINISH, INTERRUPT)
    for data in frames[:7]:
        dry.gives(data)
    row(bench, "a ring that runs dry is refilled", dry.does(FINISH, INTERRUPT).gives(frames[7]), *counts(8))
    # ICR and MPC, then descriptor and EtherType of seven frames, and the stores of seven descriptors; then RDT.
    looks = ["interrupt b / " + "go " * 16 + "rxdata:b go " * 7 + "rxdata:b"]
    looked = Schedule().does(receive(*frames[:7]), bring(frames[7]), looks)
    for data in frames[:7]:
        looked.gives(data)
    row(bench, "a slot is looked for between the stores of a refill",
        looked.does(FINISH[1:], INTERRUPT, RECV, FINISH, INTERRUPT).gives(frames[7]), *counts(8))
    held(bench, frames)
    kept = frame(99, kind="0806")
    reads = Schedule().does(receive(kept), INTERRUPT)
    for some in (frames[:7], frames[7:14]):
        reads.does(receive(*some), INTERRUPT)
        for data in some:
            reads.gives(data, socket=1)
    row(bench, "a frame is kept in its buffer while the ring wraps", reads.gives(kept), *counts(15), "buffers 9",
        ("socket b 0806", SOCKET))


def held(bench, frames):
    """All eight buffers are held, so no interrupt comes that refills the ring. A buffer that is given back is offered
    at once.
    """
    whole = Schedule().does(receive(*frames[:7]), INTERRUPT, receive(frames[7]), INTERRUPT, bring(frames[8]), FINISH,
                            INTERRUPT)
    whole.gives(frames[0]).does(FINISH, INTERRUPT)
    for data in frames[1:9]:
        whole.gives(data)
    row(bench, "a buffer is given back when all are held", whole.does(RECV), *counts(9), "buffers 8")
    # The ring has no room for the buffer that is given back. Seven slots are still offered, and the eighth frame waits
    # for a slot.
    full = Schedule().does(receive(frames[0]), INTERRUPT).gives(frames[0]).does(receive(*frames[1:8]), bring(frames[8]),
                                                                                FINISH, INTERRUPT)
    for data in frames[1:8]:
        full.gives(data)
    row(bench, "a buffer is given back when the ring is full", full.does(RECV, FINISH, INTERRUPT).gives(frames[8]),
        *counts(9), "buffers 8")


def sending(bench):
    """The transmit ring accepts the right frames while slots are freed between the driver's accesses."""
    frames = [frame(mark) for mark in range(16)]
    fill = [line for data in frames[:7] for line in send(data)]
    refused = send(frame(50))
    # The frames that were put are delivered to b. A rejected frame isn't among them.
    rest = ["tick txtake:a", "tick txput:a"] * 8 + ["tick deliver:b", *FINISH] * 4 + INTERRUPT

    def row_of(name, lines, taken):
        schedule = Schedule().does(lines, rest)
        for data in taken[:4]:
            schedule.gives(data)
        schedule.does(["tick deliver:b", *FINISH] * 4, INTERRUPT)
        for data in taken[4:]:
            schedule.gives(data)
        row(bench, name, schedule.does(RECV), *counts(len(taken)))

    row_of("a full ring rejects a frame", fill + refused, frames[:7])
    row_of("fetching a frame frees no transmit slot", fill + refused + ["tick txtake:a"] + refused, frames[:7])
    row_of("a frame that was put frees one slot",
           fill + ["tick txtake:a"] + refused + ["tick txput:a"] + send(frames[7]) + refused, frames[:8])
    row_of("a slot is done after its descriptor was loaded",
           fill + send(frame(50), "go txtake:a txput:a") + send(frames[7]), frames[:8])
    row_of("a slot is done before its descriptor is loaded", fill + send(frames[7], "txtake:a txput:a") + refused,
           frames[:8])
    row_of("an interrupt for a frame that was put frees no slot",
           fill + ["tick txtake:a", "interrupt a"] + refused + ["tick txput:a", "interrupt a", "interrupt a"]
           + send(frames[7]) + refused, frames[:8])
    looked = Schedule()
    for number, data in enumerate(frames):
        # The accesses are those of the frame, its descriptor, and TDT. All sends except the first also load the
        # descriptor of the frame before.
        ticks = " go ".join(["txtake:a"] * (3 if number == 0 else 4))
        looked.does(send(data, ticks), BRING, FINISH, INTERRUPT).gives(data)
    row(bench, "a frame is looked for between the accesses of its sending", looked, *counts(16))
    lengths(bench)


def lengths(bench):
    """Frames of legal lengths are delivered, and short ones are padded. Frames of other lengths are rejected."""
    for length in (14, 15, 59, 60, 61, 255, 256, 257, 511, 512, 513, 1280, 1281, 1517, 1518):
        data = frame(7, length=length)
        row(bench, f"a frame of {length} bytes",
            Schedule().does(receive(data), INTERRUPT).gives(data).does(RECV, ["recv b 1"]), *counts(1))
    refused = send(frame(1, length=13)) + send(frame(1, length=1519))
    row(bench, "frames of 13 and 1,519 bytes", Schedule().does(refused, BRING, FINISH, INTERRUPT, RECV), {}, {})
    # Three frames of six pieces occupy each of the 16 receive buffers.
    long, short = frame(0xEE, length=1518), frame(1, length=14)
    padded = Schedule()
    for _ in range(3):
        padded.does(receive(long), INTERRUPT).gives(long)
    row(bench, "padding is zeros in a buffer that had a longer frame",
        padded.does(receive(short), INTERRUPT).gives(short), *counts(4))


def filters(bench):
    """The filter passes the right frames: to the host, broadcast, multicast, and with VLAN tags."""
    to = {"b": B_ADDRESS, "all": EVERYONE, "another": "020000000009", "the group": "01005e000001",
          "a group of the same number": "01005f000001",
          "another group": "01005e000002", "an address like the group's": "02005e000001"}
    tags = {"VLAN 5": "81000005", "VLAN 5, priority 1": "81002005", "VLAN 6": "81000006", "no tag": "08000000"}
    group, vlan = "group b 01:00:5e:00:00:01", "vlan b 5"
    for name, options, setup, passing in [
        ("as it is", "", (), {"b", "all", *tags}),
        ("promiscuous", "promiscuous", (), {*to, *tags}),
        ("with a group", "", (group,), {"b", "all", "the group", "a group of the same number", *tags}),
        ("with a VLAN", "", (vlan,), {"b", "all", "VLAN 5", "VLAN 5, priority 1", "no tag"}),
        ("promiscuous, with a VLAN", "promiscuous", (vlan,), {*to, "VLAN 5", "VLAN 5, priority 1", "no tag"}),
    ]:
        whole = [(kind, frame(1, address, "0800")) for kind, address in to.items()]
        whole += [(kind, frame(1, kind=tag)) for kind, tag in tags.items()]
        for kind, data in whole:
            schedule = Schedule().does(bring(data), FINISH, INTERRUPT)
            passes = kind in passing
            if passes:
                schedule.gives(data)
            row(bench, f"filter {name}: {kind}", schedule.does(RECV), {"accepted": 1, "put": 1},
                {"reached": 1, "stored": int(passes), "given": int(passes)},
                options, (SOCKET, *setup))


def sockets(bench):
    """Each frame goes to the right socket, in order. Frames without a socket are counted."""
    arp, second, other = frame(1, kind="0806"), frame(2, kind="0806"), frame(3, kind="0800")
    late, odd = frame(4, kind="86dd"), frame(5, kind="0608")
    row(bench, "of two sockets of one EtherType the first gets its frames",
        Schedule().does(receive(arp, other, second), ["recv b 0", "recv b 1"], INTERRUPT,
                        ["recv b 2"]).gives(arp, socket=1).gives(other)
        .gives(second, socket=1).does(["recv b 0", "recv b 1", "recv b 2", "recv b 3"]), *counts(3), "",
        ("socket b all", "socket b 0806", "socket b 0806"))
    row(bench, "the first socket for all gets the others",
        Schedule().does(receive(other, late, odd), INTERRUPT,
                        ["recv b 0", "recv b 2"]).gives(late, socket=1).gives(odd, socket=1).gives(other, socket=3)
        .does(["recv b 1"]), *counts(3), "", ("socket b 0806", "socket b all", "socket b all", "socket b 0800"))
    row(bench, "a table of eight sockets",
        Schedule().does(receive(other, arp),
                        INTERRUPT).gives(other, socket=7).does(["recv b 7", "recv b 8"]).gives(arp),
        *counts(2), "", ("socket b 0806",) * 7 + (SOCKET,))
    row(bench, "a frame without a socket is counted, and its slot offered again",
        Schedule().does(*[receive(other), INTERRUPT] * 9, RECV), *counts(9, 0, unclaimed=9), "buffers 8",
        ("socket b 0806",))
    row(bench, "without sockets all frames are counted", Schedule().does(receive(arp, other), INTERRUPT, RECV),
        *counts(2, 0, unclaimed=2), "", ())
    row(bench, "no frame waits for a socket before an interrupt",
        Schedule().does(RECV, ["recv b 1", "recv b 8"], receive(arp), RECV, INTERRUPT).gives(arp),
        *counts(1))


def wires(bench):
    """Three ends get frames in the same order, and a full wire takes no frame."""
    one, two, three = (frame(mark, EVERYONE) for mark in (1, 2, 3))
    third = b"host c 02:00:00:00:00:03 w\n"
    order = Schedule().does(send(one), send(three), send(two, host="b"), ["tick txtake:a"] * 2,
                            ["tick txtake:b", "tick txput:a", "tick txput:b", "tick txput:a"])
    for host in "cba":
        order.does([f"tick {kind}:{host}" for kind in ["deliver", "rxdata", "rxdone"]] * 4, [f"interrupt {host}"])
    for host, got in [("c", (one, two, three)), ("b", (one, three)), ("a", (two,))]:
        for data in got:
            order.gives(data, host)
        order.does([f"recv {host} 0"])
    text = TWO_HOSTS + third + b"socket a all\nsocket b all\nsocket c all\n" + "".join(f"{line}\n"
                                                                                       for line in order.lines).encode()
    lines = told("a", accepted=2, put=2, reached=1, stored=1, given=1) + told("b", accepted=1, put=1, reached=2,
                                                                              stored=2, given=2)
    plays(bench, "races: ends get frames in one order", text, lines + told("c", reached=3, stored=3, given=3),
          {file: written(got) for file, got in order.given.items()})
    puts = [line for number in range(65) for line in [*send(frame(number)), "tick txtake:a", "tick txput:a"]]
    full = Schedule().does(puts, ["tick txput:a"])
    row(bench, "a wire with 64 frames has no room", full, {"accepted": 65, "put": 64}, {})
    row(bench, "a wire has room after a delivery", full.does(["tick deliver:b", "tick txput:a", "tick txput:a"]),
        {"accepted": 65, "put": 65},
        {"reached": 1, "stored": 1})
    waiting = [line for number in range(64) for line in [*send(frame(number)), "tick txtake:a", "tick txput:a"]]
    last = [line for host in "abc" for line in [*send(one, host=host), f"tick txtake:{host}"]]
    ends = Schedule().does(waiting, last, ["tick deliver:b"] * 64, ["tick txput:a", "tick txput:b", "tick txput:c"])
    plays(bench, "races: a frame is put if every other end has room",
          TWO_HOSTS + third + "".join(f"{line}\n" for line in ends.lines).encode(),
          told("a", accepted=65, put=64) + told("b", accepted=1, reached=64, stored=64) + told("c", accepted=1, put=1),
          {})


def inside(bench):
    """All ticks inside a call are played, even if there are more `go` among them than the call makes accesses."""
    data = frame(1)
    ticks = "txtake:a go txput:a go deliver:b txtake:a"
    for name, line, refused in [("of an empty queue", "recv b 0", []), ("of a missing socket", "recv b 1", []),
                                ("of a refused send", "send a 00", []),
                                ("of an interrupt of nobody", "interrupt b", [])]:
        row(bench, f"ticks inside a call {name}",
            Schedule().does(send(data), [f"{line} / {ticks}"], refused, FINISH, INTERRUPT).gives(data), *counts(1))
    row(bench, "ticks that do nothing", Schedule().does(["recv b 0 / txtake:a go deliver:b", "tick go"]), {}, {})


def drains(bench):
    """A drain returns all that a host holds: frames in a queue, finished, in progress, and in the packet buffer."""
    frames = [frame(mark) for mark in range(9)]
    asks, answers = frame(50, kind="0806"), frame(51, kind="0806")
    two = ("socket b 0806", SOCKET)
    row(bench, "a drain of three frames in the packet buffer",
        Schedule().does(bring(*frames[:3])).drains(*((0, data) for data in frames[:3])).drains().drains(host="a"),
        *counts(3))
    row(bench, "a drain of more frames than slots",
        Schedule().does(receive(*frames[:7]), bring(*frames[7:])).drains(*((0, data) for data in frames)).drains(),
        *counts(9))
    most = [frame(mark % 251) for mark in range(MOST_BUFFERED)]
    row(bench, "a drain of as many frames as the packet buffer holds",
        Schedule().does(bring(*most, frame(252))).drains(*((0, data) for data in most)).drains(),
        {"accepted": MOST_BUFFERED + 1, "put": MOST_BUFFERED + 1},
        {"reached": MOST_BUFFERED + 1, "stored": MOST_BUFFERED, "missed": 1, "given": MOST_BUFFERED})
    row(bench, "a drain with one more cause",
        Schedule().does(bring(*frames[:3]), send(frame(60, EVERYONE), host="b"), ["tick txtake:b", "tick txput:b"])
        .drains(*((0, data) for data in frames[:3])), {"accepted": 3, "put": 3},
        {"accepted": 1, "put": 1, "reached": 3, "stored": 3, "given": 3})
    row(bench, "a drain of a host without sockets", Schedule().does(bring(frames[0])).drains().drains(host="a"),
        *counts(1, 0, unclaimed=1), "", ())
    row(bench, "a drain of two queues, a frame in progress and one in the packet buffer",
        Schedule().does(receive(frames[0], asks), INTERRUPT, bring(frames[1]), FINISH[:1], bring(answers))
        .drains((0, asks), (1, frames[0]), (1, frames[1]), (0, answers)).drains(), *counts(4), "", two)
    row(bench, "two drains of a packet buffer for two sockets",
        Schedule().does(bring(frames[0], asks)).drains((1, frames[0]), (0, asks)).does(bring(frames[2]), FINISH[:1],
                                                                                       bring(frames[1], answers))
        .drains((1, frames[2]), (1, frames[1]), (0, answers)), *counts(5), "", two)


def all_cases(bench):
    for part in [receiving, sending, filters, sockets, wires, inside, drains]:
        part(bench)
