"""Tests schedules that `nicbench serve` plays and records."""

import refusing
from adapter_sessions import BASE, ICR, IMS, RCTL, RDLEN, RDT
from codes import failure
from server import ZERO, lines, number

FRAME = "ffffffffffff02000000000908000000".ljust(120, "0")
# A receive ring of eight descriptors at 0, two of which have buffers, at 0x800 and 0x1000.
RECEIVES = [(f"writel {BASE + RDLEN} 128", "OK"), ("writeq 0 0x800", "OK"), ("writeq 16 0x1000", "OK"),
            (f"writel {BASE + RDT} 2", "OK"),
            (f"writel {BASE + RCTL} 0x8002", "OK"), (f"writel {BASE + IMS} 0x80", "OK")]
READ_ICR = f"readl {BASE + ICR}"
RAISED, LOWERED = "IRQ raise 0\n", "IRQ lower 0\n"
REFUSED, UNMET = b"nicbench: E70 Schedule\n", b"nicbench: E71 Unmet\n"


def put(server, *deviations):
    server.put("schedule", lines(deviations))


def plays(server, name, deviations, talk, *words):
    """Checks a session in which a schedule is played."""
    put(server, *deviations)
    server.talks(f"schedules: {name}", talk, "--schedule", "schedule", *words)


def played(server):
    """Deviations are played at their places, by their numbers, and in the order of the file."""
    arrived = [*RECEIVES, (f"arrive {FRAME}", "OK stored")]
    plays(server, "a pair", ["1.1 rx before read ICR"], [*arrived, (READ_ICR, RAISED + LOWERED + number(0x80))])
    plays(server, "a step before another one", ["1.1 rxdata before read rx[0]+12", "1.2 rxdone before read rx[0]+12"],
          [*arrived, ("readb 12", ZERO), ("readb 12", RAISED + number(3))])
    plays(server, "a number", ["rx before read ICR#2"],
          [*arrived, (READ_ICR, ZERO), (READ_ICR, RAISED + LOWERED + number(0x80)), (READ_ICR, ZERO)])
    plays(server, "before a request", ["2.0 rx before arrive"],
          [*arrived, (f"arrive {FRAME}", RAISED + "OK stored"), (READ_ICR, LOWERED + number(0x80))])
    plays(server, "before the second settle", ["rxdata before settle#2", "rxdone before settle#2"],
          [("settle", ZERO), *arrived, ("settle", RAISED + ZERO)])
    plays(server, "an arrival", ["1.1 arrive before read ICR", "1.1 rx before read ICR"], [
        *RECEIVES, ("events on", "OK"), (f"offer {FRAME}", "OK"),
        (READ_ICR, f"arrived stored {FRAME}\n{RAISED}{LOWERED}{number(0x80)}"), ("settle", ZERO)])
    plays(server, "no frame to arrive", ["1.1 arrive before read ICR"], [("settle", ZERO), (READ_ICR, ZERO)])
    plays(server, "a refused request begins no round", ["1.1 rx before read ICR"],
          [*RECEIVES, ("arrive 0", "ERR value"), ("settle 1", "ERR count"), (f"arrive {FRAME}", "OK stored"),
           ("readl 0x100000", "ERR address"),
           (READ_ICR, RAISED + LOWERED + number(0x80))])
    plays(server, "random steps are off", [],
          [("interleave 9", "OK"), ("log on", "OK"), *[("readb 0", "# readb 0\n" + ZERO)] * 9])


def held(server):
    """Before an access, the EEPROM and the PHY take one step each if they have work, unless the schedule holds this
    step.
    """
    eerd = "readl 0xFEB00014"
    plays(server, "default steps", [], [("writel 0xFEB00014 1", "OK"), (eerd, number(0x00020010)), ("log on", "OK"),
                                        ("readb 0", "# readb 0\n" + ZERO)])
    plays(server, "a held EEPROM", ["0.2 hold eeprom before read EERD", "hold eeprom before read EERD#2"],
          [("writel 0xFEB00014 1", "OK"), (eerd, ZERO), (eerd, ZERO), (eerd, number(0x00020010))])
    plays(server, "one more step", ["0.2 hold eeprom before read EERD", "0.2 eeprom before read EERD"],
          [("writel 0xFEB00014 1", "OK"), (eerd, number(0x00020010))])
    phy = [("writel 0xFEB00020 0x08210000", "OK"), ("readl 0xFEB00020", number(0x18210000)),
           ("readl 0xFEB00020", number(0x18210000))]
    plays(server, "the PHY", [], phy)
    plays(server, "a held PHY", ["0.2 hold phy before read MDIC"],
          [phy[0], ("readl 0xFEB00020", number(0x08210000)), phy[1]])


def unmet(server):
    """Deviations that weren't met are reported at the end, in the words and the order of the file."""
    for name, deviation, asked in [
            ("another register", "1.1 rx before read ICR", ["settle", "readl 0xFEB00008"]),
            ("a write", "1.1 rx before read ICR", ["settle", "writel 0xFEB000C0 0"]),
            ("another place", "1.2 rx before read ICR", ["settle", READ_ICR]),
            ("another round", "2.1 rx before read ICR", ["settle", READ_ICR]),
            ("another request", "1.0 rx before arrive", ["settle"]),
            ("too few", "rx before read ICR#2", ["settle", READ_ICR]),
            ("no request", "rx before settle#1", [])]:
        put(server, "0.1 tx before read rx[1]+8", deviation)
        status, out, errors = server.serve(lines(asked), "--schedule", "schedule")
        met = lines(f"nicbench: not met: {one}" for one in ("0.1 tx before read rx[1]+8", deviation))
        server.check(f"schedules: unmet, {name}", (status, out.count(b"OK"), errors), (1, len(asked), UNMET + met))
    put(server, "1.1 rx before read ICR", "1.1 rx before read STATUS")
    got = server.serve(lines(["settle", READ_ICR]), "--schedule", "schedule")
    server.check("schedules: one of two is unmet", got,
                 (1, lines([ZERO, ZERO]), UNMET + b"nicbench: not met: 1.1 rx before read STATUS\n"))


def refused(server):
    """If a file isn't a schedule, can't be opened, or names other options than those of the server, no request is read.
    Only the seed may differ.
    """
    for text, told in [("4.6 rx", "line 1: no access or request is named"),
                       ("# x\n4.6 fly before read ICR", "line 2: no deviation"),
                       ("1.2 rx before read ICR\n1.1 rx before read ICR", "line 2: sort the lines by place"),
                       *[(f"options {words}\n", "the schedule is for an adapter with other options: see its first line")
                         for words in ("--rxa 2", "--seeds 2", "run")]]:
        server.put("schedule", text.encode())
        status, out, errors = server.serve(b"settle\n", "--schedule", "schedule")
        start = REFUSED + f"nicbench: {told}".encode()
        server.check(f"schedules: refused, {text!r}", (status, out, errors[:len(start)], errors.count(b"\n")),
                     (1, b"", start, 2))
    server.put("schedule", b"\xff")
    server.check("schedules: not UTF-8", server.serve(b"settle\n", "--schedule", "schedule"),
                 (1, b"", REFUSED + b"nicbench: the text isn't UTF-8\n"))
    for name, fault in [("missing", "E68 Open: missing"), (".", "E66 Read"), ("/dev/zero", "E68 Open: /dev/zero"),
                        ("-", "E68 Open: -")]:
        server.check(f"schedules: {name}", server.serve(b"settle\n", "--schedule", name),
                     (3, b"", failure(fault, name)))
    server.check("schedules: no folder to record in", server.serve(b"settle\n", "--record", "missing/record"),
                 (3, b"", failure("E68 Open: missing/record")))
    for words in [["--rxa", "2"], ["--rxa=2", "--seed", "3"]]:
        server.put("schedule", b"options --rxa 2 --seed 9\n")
        server.check(f"schedules: options {words}", server.serve(b"settle\n", "--schedule", "schedule", *words),
                     (0, lines([ZERO]), b""))


def recorded(server):
    """What a run plays is stored at the end, and plays the same run again."""
    talk = [*(asked for asked, _ in RECEIVES), "interleave 3", "writel 0xFEB00014 1", "writel 0xFEB00020 0x08210000",
            *["readl 0xFEB00014", "readl 0xFEB00020"] * 4, f"offer {FRAME}", "readl 0xFEB02810", "readb 12", READ_ICR,
            f"arrive {FRAME}",
            "readl 0xFEB02810", "readb 28", READ_ICR, "settle", READ_ICR, "step rxdata", "read 0 32"]
    for seed in range(40):
        server.put("record", b"old")
        first = server.serve(lines(talk), "--seed", str(seed), "--rxa", "4", "--record", "record")
        text = server.get("record")
        server.check(f"schedules: recorded, seed {seed}",
                     (first[0], first[2], text.startswith(b"# recorded by nicbench serve\noptions --rxa 4\n")),
                     (0, b"", True))
        server.put("schedule", text)
        again = server.serve(lines(talk), "--schedule", "schedule", "--record", "record", "--rxa", "4")
        server.check(f"schedules: played again, seed {seed}", again, first)
        server.check(f"schedules: recorded again, seed {seed}", server.get("record"), text)
    server.remove("record")
    server.check("schedules: options aren't stored twice",
                 (server.serve(b"", "--record=record", "--seed=1", "--link", "2", "--missed=3"), server.get("record")),
                 ((0, b"", b""), b"# recorded by nicbench serve\noptions --link 2 --missed=3\n"))


def restored(server):
    """A saved state has the place in the schedule and the deviations that wait."""
    plays(server, "saved", ["1.1 rx before read ICR"], [
        *RECEIVES, ("save", "OK"), *[(f"arrive {FRAME}", "OK stored"), (READ_ICR, RAISED + LOWERED + number(0x80)),
                                     ("restore", "OK")] * 2,
        (f"arrive {FRAME}", "OK stored"), (READ_ICR, RAISED + LOWERED + number(0x80))])


def chosen(server):
    """A request `choose` is answered by the schedule, at random after `interleave`, or else by 0."""
    plays(server, "chosen numbers", ["0.1 choose 2 before choose", "choose 1 before choose#3"], [
        ("choose 3", number(2)), ("choose 3", ZERO), ("choose 2", number(1)), ("choose 1000000000", ZERO)])
    plays(server, "a number that isn't below the limit",
          ["0.1 choose 3 before choose", "0.2 choose 999999998 before choose"], [
        ("choose 3", ZERO), ("choose 999999999", number(999999998))])
    plays(server, "choose counts as an access", ["1.2 choose 4 before choose", "1.3 rx before read ICR"], [
        *RECEIVES, (f"arrive {FRAME}", "OK stored"), ("readb 0", number(0)), ("choose 9", number(4)),
        (READ_ICR, RAISED + LOWERED + number(0x80))])
    plays(server, "a refused request isn't counted", ["0.1 choose 1 before choose"], [
        ("choose 0", "ERR value"), ("choose 1000000001", "ERR value"), ("choose x", "ERR value"),
        ("choose", "ERR count"), ("choose 1 2", "ERR count"), ("choose 2", number(1))])
    plays(server, "a saved choice", ["0.1 choose 1 before choose"], [
        ("save", "OK"), ("choose 2", number(1)), ("choose 2", ZERO), ("restore", "OK"), ("choose 2", number(1))])
    plays(server, "no line of the log", ["0.1 choose 1 before choose"], [
        ("log targets", "OK"), ("events on", "OK"), ("choose 2", number(1))])
    server.talks("schedules: choose without a schedule", [
        ("choose 1", ZERO), ("choose 5", ZERO), ("interleave 2", "OK"), ("choose 1", ZERO), ("interleave 0", "OK"),
        *[("choose 1000000000", ZERO)] * 4])
    for text, fault in [("0.1 choose 1 before read ICR", "only"), ("0.1 rx before choose", "only"),
                        ("1.0 choose 1 before choose", "before")]:
        server.put("schedule", text.encode())
        status, out, errors = server.serve(b"settle\n", "--schedule", "schedule")
        begins = errors.startswith(REFUSED + f"nicbench: line 1: {fault}".encode())
        server.check(f"schedules: refused, {text!r}", (status, out, begins), (1, b"", True))
    put(server, "0.1 choose 1 before choose")
    server.check("schedules: choose is unmet", server.serve(b"settle\n", "--schedule", "schedule"),
                 (1, lines([ZERO]), UNMET + b"nicbench: not met: 0.1 choose 1 before choose\n"))
    asked = lines(["interleave 1", *[f"choose {limit}" for limit in (1, 2, 3, 1000, 1000000000)], "readb 0"] * 3)
    seen = set()
    for seed in range(20):
        first = server.serve(asked, "--seed", str(seed), "--record", "record")
        numbers = [int(line.split()[1], 0) for line in first[1].decode().splitlines() if "0x" in line]
        below = all(value < limit for value, limit in zip(numbers, [1, 2, 3, 1000, 1000000000, 256] * 3))
        server.check(f"schedules: drawn numbers, seed {seed}", (first[0], len(numbers), below), (0, 18, True))
        seen.update(numbers)
        server.put("schedule", server.get("record"))
        again = server.serve(asked, "--schedule", "schedule", "--record", "record")
        server.check(f"schedules: the same numbers again, seed {seed}", (again, server.get("record")),
                     (first, server.get("schedule")))
    server.check("schedules: many numbers are drawn", len(seen) > 60, True)


def memory_refused(server):
    """Makes each allocation fail in turn, as tests/serve does without a schedule."""
    library = refusing.build(server.folder)
    put(server, "options --rxa 4", "0.2 hold eeprom before read CTRL", "1.0 tx before settle", "2.9 tx before read ICR",
        "rx before read ICR#1")
    asked = lines(["interleave 2", "writel 0xFEB00014 1", "readl 0xFEB00000", "readl 0xFEB00014", "save", "settle",
                   "restore", "settle", READ_ICR])
    words = ["--schedule", "schedule", "--rxa", "4", "--record", "record"]
    whole = server.serve(asked, *words)
    server.check("schedules: the run for refusals", (whole[0], whole[2].count(b"not met")), (1, 1))
    count = 0
    for count in range(1, 10_000):
        server.remove("refused")
        ran = server.serve(asked, *words,
                           env={"LD_PRELOAD": library, "REFUSE": str(count), "REFUSED": server.path("refused")})
        if server.get("refused") is None:
            break
        if ran != whole:
            got = (ran[0], whole[1].startswith(ran[1]), ran[2].endswith(b"nicbench: E57 Memory\n"))
            server.check(f"schedules: allocation {count} is refused", got, (4, True, True))
    server.check("schedules: allocations were refused", count > 10, True)


def all_cases(server):
    for part in [played, held, unmet, refused, recorded, restored, chosen, memory_refused]:
        part(server)
