"""Tests `nicbench run` with resets in a run: what they give up, and steps and deliveries between their accesses.

Each row states what the resets of a host give up: the number of frames to be sent, of frames held, and of fates Off. A
model (reset_model.py) states the frames of each socket and the other counts.
"""

import random

from pcap_files import FILE_HEADER, written
from races import EVERYONE, FINISH, INTERRUPT, RECV, bring, frame, receive, send
from reset_model import BEFORE_STORES, OTHER_ACCESSES, Host, Wire
from scenarios import plays, told, warning

SLOTS = 8
# The number, from 1, of the access of a reset that enables the receiver again, and the number of the last access. Both
# are for rings of 8 slots.
ENABLED, ACCESSES = BEFORE_STORES + SLOTS + 2, OTHER_ACCESSES + 2 * SLOTS
LONG = frame(9, length=1518)
# Random runs: their seeds, and the number of events in each; then what hosts and frames are drawn from
SEEDS, EVENTS = range(1, 11), 4000
OPTIONS = {"rx": (8, 16), "tx": (8, 16), "buffers": (16, 17, 24, 40), "rxa": (2, 4, 48)}
LENGTHS = 14, 60, 61, 255, 256, 257, 600, 1280, 1281, 1518
KINDS = "88b5", "0806", "0800"


def waiting(*frames):
    """The lines that put each of these frames on the wire. No frame is delivered."""
    return [line for data in frames for line in send(data) + ["tick txtake:a", "tick txput:a"]]


def reset(host, *ticks):
    """The line of a reset with these ticks. Each is a pair: the number of an access, from 1, and the tick that is
    played just before this access.
    """
    words, made = [], 0
    for access, tick in ticks:
        words += ["go"] * (access - 1 - made) + [tick]
        made = access - 1
    return [f"reset {host}" + (f" / {' '.join(words)}" if words else "")]


def line_of(wire, name):
    """The line that `run` must print for a host, by the model."""
    counts, given_up = wire.numbers(name)
    line = told(name, **counts)
    return line if given_up is None else line.replace(b"\n", " givenup {} {} off {}\n".format(*given_up).encode())


def play(bench, name, lines, options, sockets, given_up):
    """Plays lines on the program and in the model. Options and sockets are by host; a socket is an EtherType, or None
    for all.
    """
    hosts, setup = {}, []
    for host in "ab":
        mine = options.get(host, {})
        hosts[host] = Host(**mine, sockets=sockets.get(host, ()))
        words = " ".join(f"{option} {value}" for option, value in mine.items())
        setup.insert("ab".index(host), f"host {host} 02:00:00:00:00:0{1 + 'ab'.index(host)} w {words}")
        setup += [f"socket {host} {kind.hex() if kind else 'all'}" for kind in sockets.get(host, ())]
    wire = Wire(**hosts)
    for line in lines:
        wire.play(line)
    if given_up is not None:
        bench.check(f"{name}: the model", {host: wire.numbers(host)[1] for host in "ab"},
                    {host: given_up.get(host) for host in "ab"})
    text = "".join(f"{line}\n" for line in [*setup, *lines]).encode()
    files = {file: written(frames) if frames else FILE_HEADER for file, frames in wire.given.items()}
    warned = warning(*wire.warned()) if any(wire.warned()) else b""
    plays(bench, name, text, line_of(wire, "a") + line_of(wire, "b"), files, warned=warned)


def row(bench, name, lines, a=None, b=None, options=None, kind=None):
    """Plays lines with one socket of b. `a` and `b` state what the resets of each host give up, or None without a
    reset.
    """
    play(bench, f"resets: {name}", lines, {"b": options or {}}, {"b": (kind,)},
         {"a": a and list(a), "b": b and list(b)})


def to_send(bench):
    """Frames to be sent are given up unless they are on the wire when RST is written."""
    three = [line for mark in (1, 2, 3) for line in send(frame(mark))]
    after = bring(frame(4)) + FINISH + INTERRUPT + RECV * 2
    row(bench, "three frames are to be sent", three + ["tick txtake:a", "reset a"] + after, a=(3, 0, 0))
    row(bench, "nothing is held or to be sent", ["reset a", "reset b"] + after, a=(0, 0, 0), b=(0, 0, 0))
    for access in range(1, 5):
        sent = int(access <= 3)
        row(bench, f"a frame is put before access {access}",
            three + ["tick txtake:a"] + reset("a", (access, "txput:a")) + after, a=(3 - sent, 0, 0))
    row(bench, "two frames are taken and put before RST",
        three + reset("a", *((access, f"{kind}:a") for access in (1, 3) for kind in ("txtake", "txput"))) + after,
        a=(1, 0, 0))
    row(bench, "frames on the wire stay",
        waiting(frame(1)) + ["reset a", "reset b", "tick deliver:b"] + FINISH + INTERRUPT + RECV,
        a=(0, 0, 0), b=(0, 0, 0))
    many = [line for mark in range(9) for line in send(frame(mark))]
    row(bench, "the whole transmit ring is free again",
        many + ["reset a"] + many + ["tick txtake:a"] * 5 + ["tick txput:a", "reset a"],
        a=(13, 0, 0))
    for access in (ACCESSES - 1, ACCESSES, ACCESSES + 1):
        row(bench, f"a frame is looked for before access {access}",
            three + reset("a", (access, "txtake:a"), (access, "txput:a")) + after, a=(3, 0, 0))


def held(bench):
    """Held frames are given up: in the packet buffer, in progress, and finished. A frame in pieces is one frame."""
    one, two = frame(1), frame(2)
    after = receive(frame(3)) + INTERRUPT + RECV * 2
    row(bench, "a finished frame", receive(one) + ["reset b"] + INTERRUPT + RECV + after, b=(0, 1, 0))
    row(bench, "a frame in progress", bring(one) + FINISH[:1] + ["reset b"] + FINISH[1:] + INTERRUPT + RECV + after,
        b=(0, 1, 0))
    row(bench, "a frame is finished between the first two accesses",
        bring(one) + FINISH[:1] + reset("b", (2, "rxdone:b")) + INTERRUPT + RECV + after,
        b=(0, 1, 0))
    row(bench, "frames at all places", receive(one) + bring(two, LONG) + FINISH[:1] + ["reset b"] + after, b=(0, 3, 0))
    for pieces in range(7):
        moved = (FINISH * pieces)[:-1] if pieces % 2 else FINISH * pieces
        row(bench, f"{pieces} pieces of a long frame were moved", bring(LONG, one) + moved + ["reset b"] + after,
            b=(0, 2, 0))
    row(bench, "the buffer is full of frames", bring(*(frame(mark % 250) for mark in range(40))) + ["reset b"] + after,
        b=(0, 40, 0))
    row(bench, "a frame for no socket isn't counted as unclaimed",
        receive(one) + INTERRUPT + receive(two) + ["reset b"] + after, b=(0, 1, 0),
        kind=bytes.fromhex("0806"))


def arrivals(bench):
    """A frame that arrives after the first access of a reset, but before the one that enables the receiver, has the
    fate Off.
    """
    one, two, three = (frame(mark) for mark in (1, 2, 3))
    after = FINISH * 2 + INTERRUPT + RECV * 3
    row(bench, "a delivery before and after the first access",
        waiting(one, two) + reset("b", (1, "deliver:b"), (2, "deliver:b")) + after, b=(0, 1, 1))
    for access in (2, 3, 4, 100, ENABLED, ENABLED + 1, ACCESSES, ACCESSES + 1):
        off = int(access <= ENABLED)
        row(bench, f"a delivery before access {access}", waiting(one) + reset("b", (access, "deliver:b")) + after,
            b=(0, 0, off))
    both = reset("b", (ENABLED, "deliver:b"), (ENABLED, "rxdata:b"), (ENABLED + 1, "deliver:b"),
                 (ENABLED + 1, "rxdata:b"),
                 (ACCESSES, "rxdone:b"))
    row(bench, "a frame is received in the reset",
        waiting(one, two, three) + both + INTERRUPT + RECV + ["tick deliver:b"] + after, b=(0, 0, 1))
    twice = reset("b", (1, "deliver:b"), (2, "deliver:b"), (ENABLED + 1, "deliver:b"))
    row(bench, "two resets", waiting(one, two, three) + twice + ["reset b"] + after, b=(0, 2, 1))
    row(bench, "deliveries at the other host",
        waiting(frame(1, EVERYONE)) + send(frame(2), host="b") + ["tick txtake:b"]
        + reset("a", (2, "deliver:b"), (2, "txput:b"), (5, "deliver:a"), (5, "rxdata:b"), (9, "rxdone:b")) + INTERRUPT
        + RECV, a=(0, 0, 1))


def misses(bench):
    """Missed frames are counted before the reset clears MPC. No frame is missed while the receiver is off."""
    one, two, three = (frame(mark, length=1518) for mark in (1, 2, 3))
    small, after = {"rxa": 2}, receive(frame(4)) + INTERRUPT + RECV * 2
    row(bench, "a miss before the reset", bring(one, two) + ["reset b"] + after, b=(0, 1, 0), options=small)
    row(bench, "a miss before the reset, and one before its first access",
        bring(one, two) + waiting(three) + reset("b", (1, "deliver:b")) + after, b=(0, 1, 0), options=small)
    for access in (2, 3, 4):
        row(bench, f"no miss before access {access}",
            bring(one, two) + waiting(three) + reset("b", (access, "deliver:b")) + after,
            b=(0, 1, 1), options=small)
    row(bench, "the packet buffer keeps its size", ["reset b"] + bring(one, two) + ["reset b"] + after, b=(0, 1, 0),
        options=small)


def queues(bench):
    """Frames in queues remain in their buffers. A reset offers one slot for each free buffer, but at most all slots
    except one.
    """
    frames = [frame(mark) for mark in range(20)]
    for count in (6, 7, 8):
        lines = [line for data in frames[:count] for line in receive(data) + INTERRUPT]
        more = ["reset b"] + [line for data in frames[8:12]
                              for line in receive(data)] + INTERRUPT + RECV * 5 + FINISH * 4 + INTERRUPT + RECV * 10
        row(bench, f"{count} of 8 buffers are in a queue", lines + more, b=(0, 0, 0), options={"buffers": 8})
        row(bench, f"{count} of 8 buffers are in a queue, then a drain",
            lines + ["reset b"] + bring(*frames[8:12]) + ["drain b"], b=(0, 0, 0),
            options={"buffers": 8})
    whole = (receive(LONG) + INTERRUPT + receive(frames[0]) + ["reset b"] + receive(LONG, frames[1]) + FINISH * 2
             + INTERRUPT + RECV * 4)
    row(bench, "a long frame in a queue", whole, b=(0, 1, 0), options={"buffers": 9})
    dry = (receive(*frames[:7]) + bring(frames[7]) + ["reset b"] + INTERRUPT + receive(*frames[8:15]) + INTERRUPT
           + RECV * 8)
    row(bench, "no old frame is found in the ring", dry, b=(0, 8, 0), options={"buffers": 8})
    row(bench, "a drain after a reset", bring(frames[0]) + reset("b", (ENABLED + 1, "rxdata:b")) + waiting(*frames[1:4])
        + ["tick deliver:b"] * 3
        + ["reset b"] + bring(*frames[4:6]) + ["drain b"], b=(0, 4, 0))


def filters(bench):
    """The filter after a reset is that before it: groups that were joined, VLANs, and a promiscuous host."""
    group, left = "01005e000001", "01005e000002"
    address = ":".join(group[at:at + 2] for at in range(0, 12, 2))
    was = ":".join(left[at:at + 2] for at in range(0, 12, 2))
    for name, setup, lines, passing in [
        ("as it is", "", [], (True, False, False, True)),
        ("groups", f"group b {was}\n", [f"join b {address}", f"leave b {was}"], (True, True, False, True)),
        ("a VLAN", "vlan b 5\n", [], (True, False, False, False)),
        ("promiscuous", None, [], (True, True, True, True)),
    ]:
        text = (f"host a 02:00:00:00:00:01 w\nhost b 02:00:00:00:00:02 w {'promiscuous' if setup is None else ''}\n"
                f"{setup or ''}socket b all\n")
        frames = [frame(1), frame(2, group), frame(3, left), frame(4, kind="81000006")]
        lines, given = [*lines, "reset b"], []
        for data, passes in zip(frames, passing):
            lines += receive(data) + INTERRUPT
            given += [(len(lines), data)] if passes else []
            lines += RECV
        counts = told("b", reached=4, stored=sum(passing), given=sum(passing)).replace(b"\n", b" givenup 0 0 off 0\n")
        plays(bench, f"resets: the filter, {name}", text.encode() + "".join(f"{line}\n" for line in lines).encode(),
              told("a", accepted=4, put=4) + counts, {"b.0.pcap": written(given)})


class Drawn:
    """Random lines for two hosts with these options."""

    def __init__(self, seed, options):
        self.drawing, self.options, self.mark = random.Random(seed), options, 0

    def tick(self):
        kinds = {"txtake": 3, "txput": 3, "deliver": 3, "rxdata": 7, "rxdone": 7, "eeprom": 1, "phy": 1}
        return f"{self.drawing.choices(list(kinds), kinds.values())[0]}:{self.drawing.choice('ab')}"

    def send(self, host):
        self.mark = (self.mark + 1) % 251
        data = frame(self.mark, EVERYONE, self.drawing.choice(KINDS), self.drawing.choice(LENGTHS))
        return send(data, host=host)[0]

    def reset(self, host):
        """A reset with up to seven ticks, most of them near the accesses at which something changes."""
        rx, tx = self.options[host]["rx"], self.options[host]["tx"]
        enabled, last = BEFORE_STORES + rx + 2, OTHER_ACCESSES + rx + tx
        places = [1, 2, 3, 4, self.drawing.randrange(1, last), enabled - 1, enabled, enabled + 1, last - 1, last,
                  last + 1]
        chosen = sorted(self.drawing.choice(places) for _ in range(self.drawing.randrange(8)))
        return reset(host, *((access, self.drawing.choice([self.tick(), f"deliver:{host}"])) for access in chosen))[0]

    def line(self):
        kinds = {"tick": 300, "send": 20, "recv": 20, "interrupt": 12, "reset": 3, "drain": 1}
        kind, host = self.drawing.choices(list(kinds), kinds.values())[0], self.drawing.choice("ab")
        if kind == "tick":
            return f"tick {self.tick()}"
        if kind == "recv":
            return f"recv {host} {self.drawing.randrange(3)}"
        return getattr(self, kind)(host) if kind in ("send", "reset") else f"{kind} {host}"


def drawn(bench):
    """Random runs of two hosts have the results of the model."""
    for seed in SEEDS:
        drawing = random.Random(seed)
        options = {host: {option: drawing.choice(values) for option, values in OPTIONS.items()} for host in "ab"}
        drawn = Drawn(seed, options)
        lines = [drawn.line() for _ in range(EVENTS)]
        play(bench, f"resets: random, seed {seed}", [*lines, "drain a", "drain b"], options,
             {"a": (bytes.fromhex("0806"), bytes.fromhex("0800")), "b": (None, bytes.fromhex("0800"))}, None)


def all_cases(bench):
    for part in [to_send, held, arrivals, misses, queues, filters, drawn]:
        part(bench)
