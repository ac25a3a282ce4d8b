"""Tests `nicbench run` with the greatest rings, of 4,096 descriptors, and with 8,192 receive buffers. A soak plays many
events on such hosts.

A model of two hosts (reset_model.py) states the frames of each socket and the counts. The rows also state the answers
that lines of events have.
"""

import os
import random
import subprocess

from pcap_files import FILE_HEADER, written
from random_requests import Words
from races import B_ADDRESS, EVERYONE, FINISH, INTERRUPT, MOST_BUFFERED, bring, frame, receive, send
from reset import line_of, reset
from reset_model import BEFORE_STORES, OTHER_ACCESSES, Host, Wire
from scenarios import folder, held, told, warning

SLOTS, BUFFERS = 4096, 8192
# How many bytes of memory 16 hosts with such rings may take: 10,616,832 each for rings and buffers, and some more
ALLOWED_BYTES = 200_000_000
OFFERED = SLOTS - 1  # the most slots that are offered, or frames in a transmit ring
GREATEST = {"rx": SLOTS, "tx": SLOTS, "buffers": BUFFERS}
ADDRESSES = {"a": "020000000001", "b": B_ADDRESS}
# The number, from 1, of the access of a reset that enables the receiver again
ENABLED = BEFORE_STORES + SLOTS + 2
# A host whose resets have many accesses: a line of 8,192 bytes has just room for ticks before the last access
MANY = {"rx": 2384, "tx": 8, "buffers": 2384}
MANY_ENABLED, MANY_ACCESSES = BEFORE_STORES + MANY["rx"] + 2, OTHER_ACCESSES + MANY["rx"] + MANY["tx"]
SMALL_SOAK = 200_000
LENGTHS = 14, 60, 256, 257, 512, 1518


def setup(hosts):
    """The first lines of a scenario of the model's hosts."""
    lines = [f"host {name} {':'.join(ADDRESSES[name][at:at + 2] for at in range(0, 12, 2))} w rx {host.rx} tx "
             f"{host.tx} buffers {host.buffers}"
             for name, host in hosts.items()]
    return lines + [f"socket {name} {kind.hex() if kind else 'all'}" for name, host in hosts.items()
                    for kind in host.sockets]


def wire_of(a=(), b=(None,), of_b=GREATEST):
    """A model of two hosts with the greatest rings and these sockets. The second may have other rings."""
    return Wire(a=Host(**GREATEST, sockets=a), b=Host(**of_b, sockets=b))


def files_of(wire):
    """The files that a run writes, by the model."""
    return {file: written(frames) if frames else FILE_HEADER for file, frames in wire.given.items()}


def lines_of(wire):
    """The lines of hosts that a run prints, by the model."""
    return b"".join(line_of(wire, name) for name in wire.hosts)


def play(bench, name, lines, answers, of_b=GREATEST):
    """Plays lines on the program and in the model, and compares what both write. `answers` has parts of lines of
    events, by the numbers of the events; negative numbers count from the end.
    """
    wire = wire_of(of_b=of_b)
    for line in lines:
        wire.play(line)
    bench.put("s.scenario", "".join(f"{line}\n" for line in [*setup(wire.hosts), *lines]).encode())
    path = folder(bench)
    bench.remove("events.txt")
    ran = bench.run("run", "--events", "events.txt", "s.scenario", "outdir")
    warned = warning(*wire.warned()) if any(wire.warned()) else b""
    bench.check(f"large rings: {name}", (ran.returncode, ran.stdout, ran.stderr), (0, lines_of(wire), warned))
    bench.check(f"large rings: {name}: what is written", held(path) == files_of(wire), True)
    events = (bench.get("events.txt") or b"").decode().splitlines()
    found = {number: event for number, event in enumerate(events)
             if number % len(events) in {at % len(events) for at in answers}}
    for at, answer in answers.items():
        bench.check(f"large rings: {name}: event {at}", answer in found.get(at % max(len(events), 1), ""), True)


def frames(count, length=60, first=0):
    """Frames for b, each with a number of its own."""
    return [frame(number % 251, length=length)[:15] + number.to_bytes(3, "big") + bytes(length - 18)
            for number in range(first, first + count)]


def sends(bench):
    """A transmit ring has room for one frame less than it has slots, also after it wrapped."""
    some = [send(data)[0] for data in frames(SLOTS)]
    put = ["tick txtake:a", "tick txput:a", "tick deliver:b"]
    play(bench, "a transmit ring is full", some, {OFFERED - 1: " ok ", OFFERED: " E22 RingFull "})
    again = [send(data)[0] for data in frames(OFFERED + 1, first=SLOTS)]
    play(bench, "a transmit ring wraps", some + put * OFFERED + again, {-2: " ok ", -1: " E22 RingFull "})


def receives(bench):
    """A receive ring has room for one piece less than it has slots. The next piece waits, and its frame isn't missed. A
    piece for which there is no free buffer waits, too.
    """
    full = receive(*frames(OFFERED))
    more = bring(*frames(1, first=OFFERED))
    rest = INTERRUPT + FINISH + INTERRUPT + ["recv b 0"] * (SLOTS + 1)
    play(bench, "a receive ring is full", full + more + FINISH[:1] + rest,
         {len(full) + 3: " stored 60", len(full) + 4: " rxdata:b nothing", len(full) + 5: f" handled {OFFERED} ",
          len(full) + 6: " rxdata:b moved",
          len(full) + 8: " handled 1 ", -2: " ok 60 ", -1: " E30 Empty "})
    most = OFFERED // 6
    long = [line for data in frames(most + 1, 1518) for line in bring(data) + FINISH * 6][:-2 * (6 - OFFERED % 6)]
    play(bench, "a receive ring is full of pieces",
         long + FINISH[:1] + INTERRUPT + FINISH * 3 + INTERRUPT + ["recv b 0"] * (most + 1),
         {len(long) - 1: " rxdone:b done", len(long): " rxdata:b nothing", len(long) + 1: f" handled {most} ",
          len(long) + 8: " handled 1 ",
          -1: " ok 1518 "})
    two = [line for part in (frames(SLOTS, first=at * SLOTS) for at in range(2))
           for line in receive(*part[:OFFERED]) + INTERRUPT]
    last = [line for data in frames(3, first=2 * SLOTS) for line in receive(data)]
    play(bench, "each buffer is in a queue", two + last + INTERRUPT + FINISH[:1] + ["recv b 0", "tick rxdata:b"],
         {len(two) + len(last): " handled 2 ", -3: " rxdata:b nothing", -2: " ok 60 ", -1: " rxdata:b moved"})


def gives_up(bench):
    """A drain returns all frames that a host holds. A reset drops all frames that are held or to be sent, except those
    in queues.
    """
    held_by_b = receive(*frames(OFFERED)) + bring(*frames(MOST_BUFFERED, first=OFFERED))
    play(bench, "a drain", held_by_b + ["drain b", "drain b"], {-2: f" ok {OFFERED + MOST_BUFFERED}", -1: " ok 0"})
    to_send = [send(data)[0] for data in frames(OFFERED)]
    play(bench, "a reset of the sender", to_send + ["tick txtake:a", "reset a"] + to_send,
         {OFFERED + 1: f" givenup {OFFERED} 0 on {ENABLED} ", -1: " ok "})
    play(bench, "a reset of the receiver",
         held_by_b + ["reset b"] + receive(*frames(1, first=SLOTS)) + INTERRUPT + ["recv b 0"],
         {len(held_by_b): f" givenup 0 {OFFERED + MOST_BUFFERED} on {ENABLED} ", -2: " handled 1 ", -1: " ok 60 "})
    waiting = [line for data in frames(3, first=SLOTS) for line in bring(data)[:-1]]
    places = [(3, "deliver:b"), (MANY_ENABLED, "rxdata:b"), (MANY_ENABLED, "deliver:b"),
              (MANY_ENABLED + 1, "deliver:b"),
              (MANY_ENABLED + 1, "rxdata:b"), (MANY_ACCESSES, "rxdone:b")]
    count = MANY["rx"] - 1
    play(bench, "steps in a reset of the receiver",
         receive(*frames(count)) + waiting + reset("b", *places) + INTERRUPT + ["recv b 0"],
         {-3: f" givenup 0 {count} on {MANY_ENABLED} accesses {MANY_ACCESSES} ", -2: " handled 1 ", -1: " ok 60 "},
         MANY)


def greatest_plan(bench):
    """Sixteen hosts with the greatest rings and eight sockets each: a run takes at most ALLOWED_BYTES of memory."""
    lines = [f"host h{n} 02:00:00:00:00:{n:02x} w{n // 8} rx {SLOTS} tx {SLOTS} buffers {BUFFERS}" for n in range(16)]
    lines += [f"socket h{n} {kind:04x}" for n in range(16) for kind in range(8)]
    bench.put("s.scenario", "".join(f"{line}\n" for line in lines).encode())
    folder(bench)
    with open(bench.path("printed"), "w+b") as printed:
        process = subprocess.Popen([bench.program, "run", "s.scenario", "outdir"], cwd=bench.folder, stdout=printed,
                                   stderr=subprocess.STDOUT)
        _, ended, usage = os.wait4(process.pid, 0)
        process.returncode = os.waitstatus_to_exitcode(ended)
        printed.seek(0)
        told_of = printed.read()
    bench.check("large rings: sixteen hosts", (process.returncode, told_of),
                (0, b"".join(told(f"h{n}") for n in range(16))))
    bench.check("large rings: sixteen hosts: memory", usage.ru_maxrss * 1024 <= ALLOWED_BYTES, True)


class Soak:
    """Drawn lines on two hosts with the greatest rings, which are played in the model as they are drawn."""

    def __init__(self, seed, events):
        self.drawing, self.events, self.rounds = random.Random(seed), events, max(20, events // 250_000)
        # Random events send frames of the EtherType of b's socket 0, and receive from socket 0.
        self.wire = wire_of((None,), (bytes.fromhex("88b5"), bytes.fromhex("0806")))
        self.lines = setup(self.wire.hosts)

    def play(self, *lines):
        for line in lines:
            self.lines.append(line)
            self.wire.play(line)

    def auto(self, count, start):
        """Adds a line `auto`, and plays its random events in the model."""
        self.lines.append(f"auto {count} {start}")
        next_word, wire = Words(start).next, self.wire
        hosts = [(name, host, [other for other in wire.hosts.values() if other is not host],
                  bytes.fromhex(EVERYONE + ADDRESSES[name] + "88b5"))
                 for name, host in wire.hosts.items()]
        for _ in range(count):
            word = next_word()
            name, host, others, data = hosts[word // 8 % len(hosts)]
            kind = word % 8
            if kind == 1:
                host.txput(others)
            elif kind == 5:
                host.interrupt(lambda: (host.rxdata(), host.rxdone()))
            elif kind == 6:
                wire.give(name, 0, host.recv(0))
            elif kind == 7:
                host.send(data)
            else:
                (host.txtake, None, host.rxdata, host.rxdone, host.deliver)[kind]()
            wire.number += 1

    def burst(self, sender, receiver):
        """Many frames are sent. Most of them are delivered, and some steps of the receive engine follow. The receiver's
        driver doesn't run meanwhile.
        """
        count = self.drawing.randrange(min(SLOTS + 4, self.events // self.rounds // 16))
        finished = self.drawing.random()
        for number in range(count):
            kind = self.drawing.choice(("88b5", "88b5", "0806", "0800"))
            data = frame(number % 251, EVERYONE, kind, self.drawing.choice(LENGTHS))
            self.play(*send(data, host=sender))
            if self.drawing.random() < 0.9:
                self.play(f"tick txtake:{sender}", f"tick txput:{sender}", f"tick deliver:{receiver}")
            if self.drawing.random() < finished:
                self.play(*(f"tick {kind}:{receiver}" for _ in range(-(-len(data) // 256))
                            for kind in ("rxdata", "rxdone")))

    def end(self, host):
        """Plays what the receiver of a burst does next: an interrupt, a drain, receives, or a reset with steps inside.
        """
        kinds = {"interrupt": 3, "drain": 3, "recv": 2, "reset": 1}
        kind = self.drawing.choices(list(kinds), kinds.values())[0]
        if kind == "recv":
            self.play(*[f"recv {host} 0"] * self.drawing.randrange(500))
        elif kind == "reset":
            places = sorted(self.drawing.choice((1, 2, 3, 4, 5, 1000)) for _ in range(6))
            self.play(*reset(host, *((place, self.drawing.choice((f"deliver:{host}", f"rxdone:{host}",
                                                                  f"txput:{host}"))) for place in places)))
        else:
            self.play(f"{kind} {host}")

    def finish(self):
        """All frames are sent, delivered and drained, so that no host holds any."""
        for name, host in self.wire.hosts.items():
            while host.ring or host.taken:
                self.play(f"tick txtake:{name}", f"tick txput:{name}",
                          *(f"tick deliver:{other}" for other in self.wire.hosts))
        while any(host.waiting for host in self.wire.hosts.values()):
            self.play(*(f"tick deliver:{name}" for name in self.wire.hosts))
        self.play(*(f"drain {name}" for name in self.wire.hosts))

    def draw(self):
        """Draws all lines: again and again a burst, what its receiver does then, and random events; at last, all frames
        are drained. Returns itself.
        """
        for _ in range(self.rounds):
            sender, receiver = self.drawing.choice(("ab", "ba"))
            before = self.wire.number
            self.burst(sender, receiver)
            self.end(receiver)
            rest = max(self.events // self.rounds - (self.wire.number - before), 0)
            self.auto(rest, self.drawing.randrange(1 << 32))
        self.finish()
        return self

    def text(self):
        return "".join(f"{line}\n" for line in self.lines).encode()


def counts_of(printed):
    """The numbers that a run printed for each host, by their names."""
    found = {}
    for line in printed.decode().splitlines():
        name, *words = line.replace(" exact", " exact 1").replace(" atleast", " exact 0").split()
        found[name] = dict.fromkeys(("T", "R", "off"), 0)
        if "givenup" in words:
            at = words.index("givenup")
            words[at:] = ["T", words[at + 1], "R", words[at + 2], "off", words[at + 4]]
        found[name].update(zip(words[::2], map(int, words[1::2])))
    return found


def equations(printed):
    """The equations of delivery that the counts of two hosts don't meet, each as a text. No frame may be left that is
    to be sent, waits, or is held.
    """
    counts = counts_of(printed)
    faults = []
    for name, other in ("ab", "ba"):
        mine = counts[name]
        for equation, left, right in [
            ("accepted = put + given up", mine["accepted"], mine["put"] + mine["T"]),
            ("put by the other host = reached", counts[other]["put"], mine["reached"]),
            ("reached = stored + missed + off", mine["reached"], mine["stored"] + mine["missed"] + mine["off"]),
            ("stored = given + unclaimed + given up", mine["stored"], mine["given"] + mine["unclaimed"] + mine["R"]),
            ("the count of missed frames is exact", mine["exact"], 1),
        ]:
            if left != right:
                faults.append(f"{name}: {equation}: {left}, {right}")
    return faults


def soak(bench, seed=1, events=SMALL_SOAK):
    """A small soak: the counts meet the equations. The counts and the frames of each socket are those of the model."""
    drawn = Soak(seed, events).draw()
    bench.put("s.scenario", drawn.text())
    path = folder(bench)
    ran = bench.run("run", "s.scenario", "outdir")
    bench.check(f"large rings: soak, seed {seed}: there are as many events", drawn.wire.number >= events, True)
    bench.check(f"large rings: soak, seed {seed}", (ran.returncode, ran.stdout), (0, lines_of(drawn.wire)))
    bench.check(f"large rings: soak, seed {seed}: the equations",
                equations(ran.stdout) if ran.returncode == 0 else None, [])
    bench.check(f"large rings: soak, seed {seed}: what is written", held(path) == files_of(drawn.wire), True)


def all_cases(bench):
    for part in [sends, receives, gives_up, greatest_plan, soak]:
        part(bench)
