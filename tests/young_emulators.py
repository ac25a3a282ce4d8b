"""Tests compare.py with emulators that aren't complete yet: that answer 0, end, don't answer, or have a wrong register.

Such an emulator is a script between compare.py and `nicbench serve`, which changes requests and answers.
"""

import json
import os
import re
import subprocess
import sys
import time

from harness import EMULATORS, text_of
from avoided import AVOIDED
from drawing import drawn
from registers import SINGLE, TABLES

BASE, VET, RCTL, CTRL, EERD, STATUS = 0xFEB00000, 0x38, 0x100, 0, 0x14, 8
READ_VET = f"readl {BASE + VET:#x}"
NAMES = [*SINGLE, *TABLES]
# An emulator with a fault, which CHANGE states by the variables `request`, its `words`, the `value` of an answer to
# `readl`, and the function `end`. `words` may be changed before the request is sent, and `value` after its answer.
YOUNG = """#!{python}
import os, subprocess, sys, time
server = subprocess.Popen([{program!r}, "serve", "--memory", "0xA0000"], stdin=subprocess.PIPE, stdout=subprocess.PIPE, text=True)
changes = {change!r}

for request in sys.stdin:
    words, value = request.split(), None
    exec(changes)
    print(*words, file=server.stdin, flush=True)
    lines = []
    while not lines or not lines[-1].startswith(("OK", "ERR", "FAIL")):
        lines.append(server.stdout.readline())
    if words[0] == "readl":
        value = int(lines[-1][3:], 16)
        exec(changes)
        lines[-1] = f"OK {{value:#x}}\\n"
    print("".join(lines), end="", flush=True)
"""
ZERO = "#!/bin/sh\nwhile read -r request; do echo OK 0x0; done\n"


def put_young(bench, change, name="young"):
    return bench.put_script(name, YOUNG.format(python=sys.executable, program=bench.program, change=change))


def compared(bench, *words, program=None):
    """Runs compare.py with an emulator. Returns its status, its lines and its errors, in which no traceback is."""
    status, lines, errors = bench.script("compare.py", "--other", program or bench.path("young"), *words)
    bench.check(f"{words}: no traceback", "Traceback" in errors, False)
    return status, lines, errors


def data_of(bench, *words, **more):
    """The object that compare.py prints with --json, and its status."""
    status, lines, _ = compared(bench, "--json", *words, **more)
    bench.check(f"{words}: one line of JSON", len(lines), 1)
    return status, json.loads(lines[0])


def zeros(bench):
    """An emulator that answers 0 is compared: its EEPROM and its link aren't ready, and some registers agree."""
    bench.put_script("young", ZERO)
    bench.put("requests", b"readl RCTL\nreadl RDBAH\nreadl IMS\nreadl VET\n")
    status, lines, errors = compared(bench, "--file", bench.path("requests"))
    wanted = ["the other emulator: the EEPROM doesn't answer: after a write of EERD, DONE, bit 4, isn't set",
              "the other emulator: the link is never up: LU, bit 1 of STATUS, isn't set",
              f"{bench.path('requests')}: answer at readl RCTL: serve 0x04008002, other 0x00000000", "    readl RCTL",
              "registers: 2 of 30 agree; these differ: VET, RCTL; these weren't read: "
              + ", ".join(name for name in NAMES if name not in ("RCTL", "RDBAH", "IMS", "VET"))]
    bench.check("zeros", (status, lines[:5], errors), (1, wanted, ""))
    bench.check("zeros: kinds", [re.sub(r": serve.*", "", line) for line in lines[5:]],
                [f"difference, once, first in {bench.path('requests')} at request {at}: answer at readl {name}"
                 for at, name in ((1, "RCTL"), (4, "VET"))])
    status, data = data_of(bench, "1", "2")
    named = sorted(sum(data["registers"].values(), []))
    bench.check("zeros: as JSON", (status, data["result"], data["unready"], named),
                (1, "differs", wanted[:2], sorted(NAMES)))


def unready(bench):
    """Without an EEPROM or a link, all other registers are compared."""
    for name, change, sentence in [
        ("EEPROM", f"if value is not None and int(words[1], 0) == {BASE + EERD}: value &= ~16", "the EEPROM"),
        ("link", f"if value is not None and int(words[1], 0) == {BASE + STATUS}: value &= ~2", "the link"),
    ]:
        put_young(bench, change)
        bench.put("requests", b"readl CTRL\nreadl RCTL\n")
        status, data = data_of(bench, "--file", bench.path("requests"))
        told = data["unready"]
        bench.check(f"no {name}", (status, len(told), sentence in told[0]), (1, 1, True))
        bench.check(f"no {name}: the rest", (data["differences"], data["registers"]["agree"]), ([], ["CTRL", "RCTL"]))


def broken(bench):
    """An emulator that ends, that sends no answer, or no end of it, and one that isn't there, get one sentence."""
    bench.put_script("closes", "#!/bin/sh\nread -r request\nexec >&-\nread -r request\nsleep 1000\n")
    bench.put_script("no-number", "#!/bin/sh\nwhile read -r request; do printf '\\377\\nOK 0xzz\\n'; done\n")
    events, first = "'events on'", f"'writel {BASE + EERD:#x} 0x1'"
    for name, command, status, wanted in [
        ("it ends", "sh -c 'exit 3'", 1, f"the other emulator ended with exit status 3 before it answered {events}"),
        ("it is killed", "sh -c 'kill -9 $$'", 1, f"the other emulator ended by SIGKILL before it answered {events}"),
        ("it closes its output", bench.path("closes"), 1,
         f"the other emulator closed its standard streams before it answered {events}"),
        ("lines without end", "yes frame", 1, f"the other emulator sent more than 1,048,576 bytes, and no answer to "
                                              f"{events}"),
        ("a line without end", "sh -c 'yes | tr -d \"\\n\"'", 1, "the other emulator sent more than 1,048,576 bytes, "
                                                               f"and no answer to {events}"),
        ("another number", bench.path("no-number"), 1, f"the other emulator answered 'readl {BASE + EERD:#x}' by "
                                                        "'OK 0xzz', and not by a number such as OK 0x0"),
        ("another answer", "yes ERR", 1, "the other emulator answered 'events on' by 'ERR', and not by OK or FAIL"),
        ("no program", "no-such-program", 2, "there is no no-such-program"),
        ("a folder", bench.folder, 2, f"{bench.folder} can't be started: Permission denied"),
        ("no words", "", 2, "the command of an emulator is empty"),
        ("an open quotation", "'", 2, "\"'\" isn't a command: No closing quotation"),
    ]:
        bench.check(name, compared(bench, "1", program=command or " "), (status, [], f"compare.py: {wanted}\n"))
    for command in ("cat", f"sh -c 'read -r r; echo OK; sleep 1000' young-{os.getpid()}"):
        request = events if command == "cat" else first
        bench.check(f"it doesn't answer: {command:.8}", compared(bench, "--seconds", "5", "1", program=command),
                    (1, [], f"compare.py: the other emulator didn't answer {request} within 5 s\n"))
    left = subprocess.run(["pgrep", "-f", f"young-{os.getpid()}"], capture_output=True, check=False)
    bench.check("nothing is left of it", left.stdout, b"")


def in_between(bench):
    """An emulator that ends or doesn't answer at a request is one difference. The next list is compared."""
    put_young(bench, f"if request.startswith({READ_VET!r}): sys.exit(5)")
    bench.put("requests", b"readl CTRL\nreadl VET\nreadl RCTL\n")
    told = f"end at readl VET: the other emulator ended with exit status 5 before it answered '{READ_VET}'"
    status, lines, errors = compared(bench, "--file", bench.path("requests"))
    bench.check("it ends at a request", (status, lines[:2], lines[-1], errors), (
        1, [f"{bench.path('requests')}: {told}", "    readl VET"],
        f"difference, once, first in {bench.path('requests')} at request 2: {told}", ""))
    status, data = data_of(bench, "1", "2")
    ends = [one["difference"] and one["difference"]["what"] for one in data["lists"]]
    bench.check("it ends in each list", (status, ends, data["differences"][0]["count"], len(data["differences"])),
                (1, ["end"] * 2, 2, 1))
    put_young(bench, f"if request.startswith({READ_VET!r}): time.sleep(1000)")
    bench.put("requests", b"readl VET\n")
    status, lines, errors = compared(bench, "--seconds", "5", "--file", bench.path("requests"))
    told = f"end at readl VET: the other emulator didn't answer '{READ_VET}' within 5 s"
    bench.check("it doesn't answer a request", (status, lines[0], errors), (1, f"{bench.path('requests')}: {told}", ""))


def summary(bench):
    """Two wrong registers are two kinds of difference. Each is counted as often as the lists read the register."""
    put_young(bench, f"if value is not None and int(words[1], 0) - {BASE} in ({VET}, {RCTL}): value ^= 64")
    seeds = [str(seed) for seed in range(1, 11)]
    lists = [drawn(int(seed), 400) for seed in seeds]
    counts = {name: sum(requests.count(f"readl {name}") for requests in lists) for name in ("VET", "RCTL")}
    bench.check("summary: the lists read both", all(counts.values()), True)
    status, lines, errors = compared(bench, *seeds)
    bench.check("summary: its status", (status, errors), (1, ""))
    bench.check("summary: registers", [line for line in lines if line.startswith("registers: ")],
                ["registers: 28 of 30 agree; these differ: VET, RCTL"])
    kinds = dict((name, int(count)) for count, name in re.findall(
        r"^difference, (\d+) times, .*: answer at readl (\w+): ", "\n".join(lines), re.M))
    bench.check("summary: kinds", kinds, counts)
    again = {re.sub(r".*: first (.*), as in seed \d+", r"\1", line) for line in lines if ", as in" in line}
    bench.check("summary: each kind is shown once, and named where it comes again",
                (sum(line.startswith("    ") for line in lines), sorted(again)),
                (2, ["answer at readl RCTL", "answer at readl VET"]))
    status, data = data_of(bench, *seeds)
    bench.check("summary: as JSON", (status, data["registers"]["differ"], len(data["registers"]["agree"]),
                                     data["registers"]["unread"],
                                     {one["register"]: one["count"] for one in data["differences"]}),
                (1, ["VET", "RCTL"], 28, [], counts))
    shortest = [one["shortest"] for one in data["lists"] if one["shortest"]]
    bench.check("summary: the shortest lists", sorted(shortest), [["readl RCTL"], ["readl VET"]])


def known(bench):
    """`--known` asks for each departure in the second table of the page. The model shows none of them. Another adapter
    shows the one that it has; with --all, or if it ends, this counts.
    """
    table = text_of("docs", "EMULATORS.md").split("avoid these departures", 1)[1]
    names = re.findall(r"^\| ([^|]*?) \|", table, re.M)[1:]
    bench.check("known: the page has the same list", [one.name for one in AVOIDED], names)
    server = f"{bench.program} serve --memory 0xA0000"
    for words in [], ["--all"]:
        bench.check(f"known: serve beside serve, {words}", compared(bench, "--known", *words, program=server),
                    (0, [f"asked for {name}: no difference" for name in names], ""))
    no_reset = f"""
if words[0] == "writel" and int(words[1], 0) == {BASE + CTRL}:
    words[2] = hex(int(words[2], 0) & ~(1 << 26))
"""
    put_young(bench, no_reset)
    wanted = ["asked for a reset: answer at readl RCTL: serve 0x00000000, other 0x04008002",
              *(f"asked for {name}: no difference" for name in names[1:])]
    bench.check("known: no reset", compared(bench, "--known"), (0, wanted, ""))
    status, lines, _ = compared(bench, "--known", "--all")
    bench.check("known: no reset, with --all", (status, lines[:-1]), (1, wanted))
    put_young(bench, f"""
if words[0] == "writel" and int(words[1], 0) == {BASE + CTRL} and int(words[2], 0) >> 26 & 1:
    sys.exit(4)
""")
    status, data = data_of(bench, "--known")
    shown = [one["departure"] for one in data["known"] if one["difference"]]
    bench.check("known: it ends at a reset", (status, shown, data["known"][0]["difference"]["what"]),
                (1, ["a reset"], "end"))


def known_on_qemu(bench):
    """QEMU shows each departure that the page names, and its other departures don't count."""
    status, lines, errors = bench.script("compare.py", "--known")
    names = [re.fullmatch(r"asked for (.*?): .*", line)[1] for line in lines]
    bench.check("known on QEMU", (status, names, [line for line in lines if line.endswith(": no difference")], errors),
                (0, [one.name for one in AVOIDED], [], ""))


def words(bench):
    """Invalid words, files that can't be read, and a server that can't be started, are reported."""
    server = f"{bench.program} serve --memory 0xA0000"
    bench.put("names", b"readl CTRL\nreadl FOO\n")
    bench.put("lacks", b"readl\n")
    bench.put("bytes", b"\xff\n")
    for name, told in [("none", "No such file or directory"),
                       ("names", "line 2: 'readl FOO' names no register, such as ICR or MTA(3)"),
                       ("lacks", "line 1: 'readl' names no register, such as ICR or MTA(3)"),
                       ("bytes", "'ascii' codec can't decode byte 0xff in position 0: ordinal not in range(128)")]:
        path = bench.path(name)
        bench.check(f"the file {name}", compared(bench, "--file", path, program=server),
                    (2, [], f"compare.py: {path}: {told}\n"))
    for given in (["--registers", "x"], ["--seconds", "0"], ["--seconds", "nan"], ["--fly"], ["one"]):
        status, lines, errors = compared(bench, *given, program=server)
        bench.check(f"the words {given}", (status, lines, "usage: compare.py" in errors), (2, [], True))
    script = os.path.join(EMULATORS, "compare.py")
    at_once = "ended with exit status 1 before it answered"
    for program, status, told in [("false", 1, f"nicbench serve {at_once} 'endianness'"),
                                  (bench.path("none"), 2, f"there is no {bench.path('none')}")]:
        ran = bench.execute(sys.executable, script, "--nicbench", program, "--other", server, "1")
        bench.check(f"{program} as the server", ran, (status, "", f"compare.py: {told}\n"))
    for program, status, told in [("false", 1, f"QEMU {at_once} 'writeq 0xfed00010 3'"),
                                  (bench.folder, 2, f"{bench.folder} can't be started: Permission denied")]:
        status_, lines, errors = bench.script("qemu.py", "--qemu", program)
        bench.check(f"{program} as QEMU", (status_, lines, errors), (status, [], f"qemu.py: {told}\n"))


def ended(bench):
    """At SIGTERM, compare.py ends the emulator."""
    bench.put_script("young", "#!/bin/sh\necho $$ >pid\nexec sleep 1000\n")
    script = os.path.join(EMULATORS, "compare.py")
    with subprocess.Popen([sys.executable, script, "--nicbench", bench.program, "--other", bench.path("young"), "1"],
                          cwd=bench.folder) as running:
        for _ in range(6000):
            if (bench.get("pid") or b"").endswith(b"\n"):
                break
            time.sleep(0.01)
        running.terminate()
        status = running.wait(60)
    bench.check("SIGTERM", (status, os.path.exists(f"/proc/{int(bench.get('pid') or 0)}")), (143, False))


def all_cases(bench):
    for part in (zeros, unready, broken, in_between, summary, known, words, ended):
        part(bench)
