"""Lines that the library answers in process have the answers of `nicbench serve`, also with steps before them."""

import ctypes
import os
import re
import subprocess

import nic82540em
from harness import TOP
from library_examples import SANITIZERS, WARNINGS
from library_served import MEMORY, RESTORED, SAVED, SEEDS, STEPS, with_offers
from nic82540em.server import Server

# Lines of which each is answered or refused in another way
LINES = (b"", b" ", b"bogus", b"\xff\xfe", b"readl", b"readl 0 1", b"readl -1", b"read 0 0", b"read 0 65537",
         b"read 4 3", b"b64read 4 3", b"write 4 2 0x00", b"b64write 4 3 AAEC", b"memset 4 3 7", b"readq 4",
         b"writew 0x1002 0x1234", b"readl 0xfeb00001", b"outl 0xcf8 0x80002010", b"inl 0xcfc", b"inb 0xcfc",
         b"endianness", b"irq_intercept_in ioapic", b"clock_step", b"clock_step 7", b"clock_set 3", b"line", b"digest",
         b"enabled", b"rings", b"frames", b"faults", b"target 0xfeb000c0 4", b"target 0x1000 1", b"choose 0",
         b"choose 5", b"restore", b"save", b"offer 00", b"settle", b"log targets", b"readl 0xfeb000c0", b"wire full",
         b"wire free", b"pace 65536", b"step eeprom", b"step", b"arrive", b"readl 0xfeb000c0\r", b"x" * 131200,
         b"x" * 131201, b"readl 0xfeb000c0 " + b"0" * 131200, b"restore")
# A line of a schedule that `nicbench serve --record` wrote
DEVIATION = re.compile(r"(\d+)\.(\d+) (.+) before (?:(read|write) )?(\S+)")


def served(library, lines, *options):
    """What `nicbench serve` prints for these lines."""
    ran = subprocess.run([library.program, "serve", *options], input=b"".join(line + b"\n" for line in lines),
                         capture_output=True, timeout=300)
    return ran.stdout if ran.returncode == 0 else ran.stderr


def first_difference(lines, got, wanted):
    """The first line with another answer, or None."""
    return next(((line[:80], one, other) for line, one, other in zip(lines, got, wanted) if one != other), None)


def lines_as_served(library):
    """Random and refused requests have the same bytes in process and by `serve`, with log and events on and off."""
    for seed in range(1, SEEDS + 1):
        lines = [b"log on", b"events on"] * (seed % 2) + [f"interleave {STEPS}".encode()] * (seed % 3 == 0)
        lines += [request.encode() for request in with_offers(seed)]
        lines[SAVED:SAVED] = [b"save"]
        lines[RESTORED:RESTORED] = [b"restore", b"events off", *LINES]
        registers = seed % 4 * 0x20000 + 0xFEB00000
        with Server(library.shared, memory=MEMORY, seed=seed, registers=registers) as server:
            got = [server.answer(line) for line in lines]
        wanted = served(library, lines, "--memory", str(MEMORY), "--seed", str(seed), "--registers", str(registers))
        library.check(f"{len(lines)} lines of seed {seed}", b"".join(got) == wanted, True)
    options = ("--link", "never", "--rxa", "2", "--missed", "7", "--address", "02:00:00:00:00:09")
    with Server(library.shared, link=0, rxa=2, missed=7, address=b"\x02\0\0\0\0\x09") as server:
        asked = [f"readl 0xfeb0{offset:04x}".encode() for offset in (0x4010, 0x1000, 0x5400, 0x5404, 0x0008)]
        library.check("lines with options", b"".join(map(server.answer, asked)), served(library, asked, *options))


def recorded(library, lines, seed):
    """The deviations that `serve` played at random before these lines, by their places, and the file of the schedule.

    Each deviation is a pair of the action and the name before which it was played.
    """
    path = library.path(f"lines{seed}.txt")
    options = ("--memory", str(MEMORY), "--seed", str(seed), "--record", path)
    served(library, [f"interleave {STEPS}".encode(), *lines], *options)
    found = {}
    with open(path, encoding="utf-8") as file:
        for match in filter(None, map(DEVIATION.fullmatch, file.read().splitlines())):
            place, name = (int(match[1]), int(match[2])), (match[4], match[5])
            found.setdefault(place, []).append((match[3], name))
    return found, path


def play(server, place, due, differ):
    """Plays what is due before a line: first the steps of the EEPROM and the PHY before an access, then the actions."""
    can = set(server.can())
    if place.kind in ("read", "write"):
        for tick in ("eeprom", "phy"):
            if tick in can and f"hold {tick}" not in [action for action, _ in due]:
                server.deviate(tick)
    for action, _ in due:
        if action.startswith("choose"):
            server.answers(int(action.split()[1]))
        elif not action.startswith("hold"):
            works = action in server.can()
            if server.deviate(action) != works:
                differ.append((place, action, works))


def deviations_as_served(library):
    """If the caller plays a recorded schedule at the places of lines, the bytes are those of `serve --schedule`.

    So the log, events and changes of the interrupt line come before the same answers.
    """
    raised = 0
    for seed in range(1, SEEDS + 1):
        # While a schedule is played, `interleave` has no effect. In process, the caller plays the schedule.
        asked = [request.encode() for request in with_offers(seed) if not request.startswith("interleave")]
        lines = [b"log on", b"events on"] * (seed % 2) + asked
        schedule, path = recorded(library, lines, seed)
        count, got, differ = sum(map(len, schedule.values())), [], []
        with Server(library.shared, memory=MEMORY) as server:
            for line in lines:
                place = server.comes(line)
                due = schedule.pop((place.round, place.access), []) if place else []
                differ += [(place, name) for _, name in due
                           if name != (place.kind if place.kind in ("read", "write") else None, place.name)]
                if place:
                    play(server, place, due, differ)
                got.append(server.answer(line))
        text = b"".join(got)
        raised += text.count(b"IRQ raise")
        wanted = served(library, lines, "--memory", str(MEMORY), "--schedule", path)
        library.check(f"the schedule of seed {seed}", (count > 50, schedule, differ), (True, {}, []))
        library.check(f"its bytes in process and served, seed {seed}", text == wanted, True)
    library.check("the interrupt line rose", raised > SEEDS, True)


def a_line_before_it_comes(library):
    """The place of each kind of line before it comes, and what can be played. Neither call changes anything."""
    asked = {b"readl 0xfeb000c0": ("read", 0, 1, 0xFEB000C0, 0, "ICR"),
             b"write 0x1001 1 0x00": ("write", 0, 1, 0x1001, 0, "0x1001"),
             b"arrive 00": ("arrive", 1, 0, 0, 0, "arrive"), b"offer 00": ("offer", 1, 0, 0, 0, "offer"),
             b"step phy": ("step", 1, 0, 0, 0, "step"), b"settle": ("settle", 1, 0, 0, 0, "settle"),
             b"choose 7": ("choose", 0, 1, 0, 7, "choose")}
    nothing = [b"readl 0xfeb00001", b"bogus", b"\xff", b"x" * 131201, b"line", b"clock_step", b"interleave 2", b"save",
               b"choose 0", b"write 4 2 0x00", b"outl 0xcf8 0", b"read 0x100000 1"]
    with Server(library.shared) as server:
        before = server.answer(b"digest"), server.state_digest(3)
        library.check("lines that come", {line: server.comes(line) for line in asked}, asked)
        library.check("lines that are no places", [server.comes(line) for line in nothing], [None] * len(nothing))
        library.check("nothing changed", (server.answer(b"digest"), server.state_digest(3)), before)
        library.check("the same digest in process", nic82540em.Nic(library.shared).state_digest(3), before[1])
    with Server(library.shared, memory=MEMORY) as server:
        differ, arrivals = None, 0
        for line in with_offers(3):
            server.answer(line.encode())
            can, enabled = server.can(), server.answer(b"enabled").decode().split()[1:]
            arrivals += "arrive" in can
            differ = differ or [kind for kind in can if kind != "arrive"] != enabled and (line, can, enabled) or None
        library.check("what can be played", (differ, arrivals > 20), (None, True))


def lines_in_little_room(library):
    """As many bytes of an answer or a name are copied as there is room for, and the whole length is returned."""
    with Server(library.shared) as server, nic82540em.Nic(library.shared) as nic:
        into = ctypes.create_string_buffer(b"........")
        line, coming = b"readl 0xfeb000c0", nic82540em.Coming()
        found = [(server.call("answer", line, len(line), into, 2), into.value)]
        found.append((server.call("told", into, 4), into.value))
        found.append((server.call("comes", line, len(line), ctypes.byref(coming), into, 1), into.value))
        found.append((nic.call("name", 1, 0xC0, into, 2), into.value))
        library.check("little room", found, [(22, b"OK......"), (22, b"OK 0...."), (3, b"IK 0...."), (3, b"IC 0....")])
        names = [nic.name("register", 0x5200), nic.name("register", 0x10), nic.name("memory", 0x12345)]
        library.check("names", names, ["MTA[0]", "register[0x10]", "0x12345"])
        library.check("no names", [nic.call("name", before, 1 << 32, into, 2) for before in (0, 1, 2, 5)], [0] * 4)
        library.check("no such action", server.call("deviate", 7), False)
        text = server.answer(b"writel 0xfeb000d0 0x80") + server.answer(b"writel 0xfeb000c8 0x80")
        library.check("no text is told twice", text, b"OK\nIRQ raise 0\nOK\n")
        server.close()
        dead = [server.call("answer", line, len(line), into, 2), server.call("told", into, 4), server.can(),
                server.call("deviate", 0), server.call("answers", 1), server.state_digest()]
        library.check("a closed server", dead, [0, 0, [], False, False, 0])


def refused_lines(library):
    """In library_lines.c, each allocation of lines and deviations fails in turn. The server is then dead. After it is
    closed, no block of the heap is left.
    """
    if library.is_there("cc", "refused lines"):
        target, source = library.path("refused_lines"), os.path.join(TOP, "tests", "library_lines.c")
        flags = ["-std=c99", "-g", *WARNINGS, SANITIZERS]
        if library.compiles("refused lines", "cc", *flags, "-o", target, source, *library.flags):
            library.prints("refused lines: runs", [target],
                           "a server is dead after each refusal, and no block is left\n")


PARTS = (lines_as_served, deviations_as_served, a_line_before_it_comes, lines_in_little_room, refused_lines)
