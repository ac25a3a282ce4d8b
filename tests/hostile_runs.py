"""Tests examples/drivers/hostile.py: ten seeds find nothing, and each fault of an adapter is found.

An adapter with a fault is a script between hostile.py and the server. The script passes lines on in both directions. At
one answer, or at each of a kind, the script changes the answer or the adapter, or ends, or waits.
"""

import os
import re
import signal
import subprocess
import sys
from collections import Counter

from harness import DRIVERS
from scenario_auto import words_from

HOSTILE = os.path.join(DRIVERS, "hostile.py")
# How many seconds a run may take. A run without a fault takes a few.
LIMIT = 600
# Enough steps for 10,000 register writes.
SEEDS, STEPS, WRITES = range(1, 11), 11_500, 10_000
SIZE = 8192
REGISTERS, CTRL, RCTL, RDBAL = 0xFEB00000, 0x0000, 0x0100, 0x2800
RDBAH, RDLEN, RDH, TDH = 0x2804, 0x2808, 0x2810, 0x3810
RST, EN = 1 << 26, 1 << 1


def hostile(bench, program, *words):
    """Runs hostile.py. Returns the status, the lines of output, and the errors. An answer may take a minute, unless the
    words have another --limit.
    """
    ran = subprocess.run([sys.executable, HOSTILE, program, "--limit", "60", *words], cwd=bench.folder,
                         capture_output=True, timeout=LIMIT)
    return ran.returncode, ran.stdout.decode().splitlines(), ran.stderr


def counts_of(lines):
    """The counts in the last lines of a run with --counts."""
    return Counter({name: int(count) for name, _, count in (line.rpartition(": ") for line in lines)})


# What all seeds together must reach, and how often at least. The numbers are always the same, and somewhat higher than
# these.
LEAST = {
    "arrive filtered": 5000, "arrive illegal": 3500, "arrive missed": 2100, "arrive off": 7000, "arrive stored": 16000,
    "eeprom nothing": 3500, "eeprom ticked": 120, "frames taken while the rings overlap": 300, "phy nothing": 4000,
    "phy ticked": 80, "pieces over the transmit ring": 200, "pieces over their own descriptors": 250,
    "resets with a frame in the transmit packet buffer": 500, "resets with a piece in progress": 400,
    "rxdata fault": 1700, "rxdata fault: BSEX": 75, "rxdata fault: buffer outside memory": 400,
    "rxdata fault: buffer partly outside memory": 80, "rxdata fault: buffer past 2^64": 11,
    "rxdata fault: descriptor outside memory": 200, "rxdata fault: descriptor past 2^64": 9,
    "rxdata fault: head outside the ring": 250, "rxdata fault: no descriptors": 250,
    "rxdata fault: tail outside the ring": 200, "rxdata moved": 1900, "rxdata nothing": 23000, "rxdata part": 1000,
    "rxdone done": 2500, "rxdone nothing": 17000, "txput nothing": 16000, "txput put": 3000, "txtake fault": 1800,
    "txtake fault: buffer outside memory": 70, "txtake fault: buffer partly outside memory": 40,
    "txtake fault: buffer past 2^64": 20, "txtake fault: DEXT": 200, "txtake fault: EOP": 140,
    "txtake fault: descriptor outside memory": 200, "txtake fault: descriptor past 2^64": 10,
    "txtake fault: head outside the ring": 200, "txtake fault: length": 250, "txtake fault: no descriptors": 350,
    "txtake fault: tail outside the ring": 200, "txtake nothing": 14000, "txtake took": 4000,
    "write-backs after a write of RDBAL or RDBAH": 350, "write-backs outside the receive ring": 300,
    "write-backs outside the transmit ring": 300, "writes with a frame in the transmit packet buffer": 9000,
    "writes with a piece in progress": 6000,
}


def ten_seeds(bench):
    """Ten seeds with at least 10,000 register writes each: nothing is found, and each count reaches its least number.
    """
    total = Counter()
    for seed in SEEDS:
        status, lines, errors = hostile(bench, bench.program, "--seed", str(seed), "--steps", str(STEPS), "--counts")
        found = re.fullmatch(r"seed (\d+): (\d+) writes, (\d+) steps, nothing found", lines[0])
        bench.check(f"hostile: seed {seed}: nothing is found", (status, errors, found is not None), (0, b"", True))
        if found is None:
            print("\n".join(lines))
            return
        number, writes, steps = map(int, found.groups())
        bench.check(f"hostile: seed {seed}: its seed and its steps", (number, steps), (seed, STEPS))
        bench.check(f"hostile: seed {seed}: {writes} writes", WRITES <= writes <= STEPS, True)
        counts = counts_of(lines[1:])
        bench.check(f"hostile: seed {seed}: the numbers of the last lines",
                    (counts["writes"], counts["steps"], counts["seeds"]), (writes, steps, 1))
        total += counts
    for name, least in LEAST.items():
        bench.check(f"hostile: {name}: at least {least}", min(total[name], least), least)
    outcomes = [name for name in total if re.fullmatch(r"(rx|tx|eeprom|phy)\w* \w+", name)]
    bench.check("hostile: the outcomes are those of all steps", sum(total[name] for name in outcomes),
                STEPS * len(SEEDS))
    bench.check("hostile: all that is counted has a least number", set(total) - set(LEAST),
                {"seeds", "steps", "writes"})


# A script between hostile.py and the server. `change` gets the lines of one answer.
PROXY = """#!{python}
import os, re, signal, subprocess, sys
server = subprocess.Popen([{program!r}, *sys.argv[1:]], stdin=subprocess.PIPE, stdout=subprocess.PIPE, stderr=subprocess.DEVNULL)
left, status, last = {which}, None, lambda: None
record = open({record!r}, "wb")

def ask(request):
    server.stdin.write(request + b"\\n")
    server.stdin.flush()
    lines = []
    while not lines or lines[-1][:2] not in (b"OK", b"ER", b"FA", b""):
        lines.append(server.stdout.readline())
    return lines

def flip(access, place):
    value = int(ask(b"read%s %d" % (access, place))[-1].split()[1], 16)
    ask(b"write%s %d %d" % (access, place, value ^ 1))

def change(request, lines):
    global status, last
    {action}
    return lines

for request in sys.stdin.buffer:
    request = request.rstrip(b"\\n")
    lines = ask(request)
    if re.fullmatch({request!r}, request) and re.match({answer!r}, lines[-1]):
        left -= 1
        if left == 0 or {always}:
            lines = change(request, lines)
    sys.stdout.buffer.write(b"".join(lines))
    sys.stdout.buffer.flush()
last()
server.stdin.close()
ended = server.wait()
sys.exit(ended if status is None else status)
"""


def proxy(bench, request, answer, which, action, always=False):
    """Creates the script, and returns its path. Of the answers of this form to requests of this form, the script does
    the action at number `which`, from 1; with `always`, at each.
    """
    text = PROXY.format(python=sys.executable, program=bench.program, request=request.encode(),
                        answer=b"OK " + answer.encode() if answer else b"",
                        which=which, action=action, always=always, record=bench.path("hostile-record"))
    bench.put("hostile-proxy", text.encode())
    os.chmod(bench.path("hostile-proxy"), 0o755)
    return bench.path("hostile-proxy")


def finds(bench, name, error, *rule, words=()):
    """Checks that hostile.py finds the fault of the script with this rule, and that it prints the seed, the error and a
    log. Returns the lines of the log.
    """
    status, lines, errors = hostile(bench, proxy(bench, *rule), "--seed", "1", "--steps", "5000", *words)
    bench.check(f"hostile: {name}: the status", (status, errors), (1, b""))
    begin = "\n".join(lines[:1])
    bench.check(f"hostile: {name}: the error", begin if not re.fullmatch(f"seed 1: {error}", begin) else True, True)
    bench.check(f"hostile: {name}: what comes before the log", lines[1:3], ["", "Seed 1, its log:"])
    return lines[3:]


READ = f"read 0 {SIZE}"
OTHER_BYTE = r"after it, byte {} of memory is 0x[0-9a-f]{{2}} instead of 0x[0-9a-f]{{2}} \(wrong bytes: 1\)"


def memory(bench):
    """A byte of memory that differs is found after each kind of request, whatever its outcome."""
    log = finds(bench, "a byte in the answer to a read", "[^:]*: " + OTHER_BYTE.format("0x1fff"), READ, "", 100,
                "lines[-1] = lines[-1][:-2] + (b'0' if lines[-1][-2:-1] != b'0' else b'1') + lines[-1][-1:]")
    bench.check("hostile: a byte in the answer to a read: where the log ends", (log.count(f"# {READ}"), log[-1]),
                (100, f"# {READ}"))
    replayed(bench, log)
    for kind, outcomes in [("txtake", ["took", "fault", "nothing"]), ("txput", ["put", "nothing"]),
                           ("rxdata", ["part", "moved", "fault", "nothing"]),
                           ("rxdone", ["done", "nothing"]), ("eeprom", ["ticked", "nothing"]),
                           ("phy", ["ticked", "nothing"])]:
        for outcome in outcomes:
            log = finds(bench, f"memory changes in step {kind} -> {outcome}",
                        f"step {kind}: " + OTHER_BYTE.format("0x1000"),
                        f"step {kind}", outcome, 2, "flip(b'b', 0x1000)")
            bench.check(f"hostile: memory changes in step {kind} -> {outcome}: the last step of the log",
                        [line for line in log if line.startswith("# step")][-1:], [f"# step {kind} -> {outcome}"])
            replayed(bench, log)
    for request, answer in [("writel 0x.*", ""), ("arrive .*", "stored"), ("arrive .*", "missed"),
                            ("arrive .*", "filtered"), ("arrive .*", "illegal"),
                            ("arrive .*", "off"), ("write 0x.*", ""), ("b64write 0x.*", ""), ("memset .*", "")]:
        finds(bench, f"memory changes in {request} {answer}", f"{request[:-2]}.*: " + OTHER_BYTE.format("0x0"), request,
              answer, 3, "flip(b'b', 0)")
    finds(bench, "memory changes in a read of a register", ".*: " + OTHER_BYTE.format("0x0"), "readl .*", "", 500,
          "flip(b'b', 0)")
    finds(bench, "several bytes change", r"step rxdone: after it, byte 0x1ff0 of memory is .* \(wrong bytes: 3\)",
          "step rxdone", "done", 1,
          "[flip(b'b', 0x1ff0 + n) for n in range(3)]")


def replayed(bench, log):
    """A log can be replayed as docs/SERVE.md explains. The server itself has no fault, so its log is the same."""
    requests = [line.removeprefix("# ").partition(" ->")[0] for line in log if line.startswith("#")]
    ran = bench.run("serve", "--memory", str(SIZE), given="\n".join(["events on", "log on", *requests, ""]).encode())
    told = [line for line in ran.stdout.decode().splitlines() if not line.startswith("OK")]
    bench.check("hostile: a log is replayed", (ran.returncode, told == log), (0, True))


def steps(bench):
    """Wrong outcomes, heads and frames are found."""
    for kind, outcome, other in [("txtake", "took", "nothing"), ("txtake", "nothing", "fault"),
                                 ("txtake", "fault", "took"), ("txput", "put", "nothing"), ("txput", "nothing", "put"),
                                 ("txput", "nothing", "fault"), ("rxdata", "part", "moved"),
                                 ("rxdata", "moved", "part"), ("rxdata", "fault", "nothing"),
                                 ("rxdata", "nothing", "fault"), ("rxdone", "done", "nothing"),
                                 ("rxdone", "nothing", "done"), ("phy", "ticked", "fault"),
                                 ("eeprom", "nothing", "flown")]:
        wanted = "nothing or ticked" if kind in ("phy", "eeprom") else outcome
        finds(bench, f"step {kind} -> {outcome} is called {other}",
              f"step {kind}: the outcome is {other} instead of {wanted}",
              f"step {kind}", outcome, 2, f"lines[-1] = b'OK {other}\\n'")
    for kind, outcome, name, register in [("rxdata", "nothing", "RDH", RDH), ("rxdata", "fault", "RDH", RDH),
                                          ("rxdata", "part", "TDH", TDH), ("txtake", "nothing", "TDH", TDH),
                                          ("txtake", "fault", "TDH", TDH), ("txtake", "took", "TDH", TDH),
                                          ("rxdone", "done", "RDH", RDH), ("txput", "put", "TDH", TDH),
                                          ("phy", "ticked", "RDH", RDH)]:
        finds(bench, f"{name} changes in step {kind} -> {outcome}",
              rf"step {kind}: after it, {name} is \d+ instead of \d+",
              f"step {kind}", outcome, 1, f"flip(b'l', {REGISTERS + register})")
    put = r"step txput: there is {} on the wire instead of a frame of \d+ bytes \([0-9a-f]+\)"
    frame = r"a frame of \d+ bytes \([0-9a-f]*\)"
    for name, action, told in [
        ("another byte in a frame", "[line[:6] + (b'0' if line[6:7] != b'0' else b'1') + line[7:]]", frame),
        ("a byte too many", "[line[:-1] + b'00\\n']", frame), ("a byte too few", "[line[:-3] + b'\\n']", frame),
        ("no frame", "[]", "no frame"),
        ("two frames", "[line, line]", f"{frame} and {frame}"),
    ]:
        action = f"lines = [one for line in lines for one in ({action} if line[:5] == b'frame' else [line])]"
        finds(bench, f"{name} on the wire", put.format(told), "step txput", "put", 3, action)
    put, action = r"there is a frame of 2 bytes \(abcd\) on the wire", "lines.insert(0, b'frame abcd\\n')"
    finds(bench, "a frame after an access", f"readl 0x.*: {put}", "readl .*", "", 300, action)
    finds(bench, "a frame after another step", f"step rxdone: {put} instead of no frame", "step rxdone", "done", 1,
          action)


def told_faults(bench):
    """Wrong engines, indices and reasons in lines of faults are found, and lines that are missing or too many."""
    for engine, kind in ("rx", "rxdata"), ("tx", "txtake"):
        told = r"step {}: the faults are \[{}\] instead of \['{} \d+ [a-z]+'\]"
        for name, action, seen in [
            ("another reason", f"[b'fault {engine} ' + line.split()[2] + b' wire\\n']", rf"'{engine} \d+ wire'"),
            ("another index", f"[b'fault {engine} 70000 ' + line.split()[3] + b'\\n']", rf"'{engine} 70000 [a-z]+'"),
            ("another engine", "[line.replace(b'rx' if b'rx' in line else b'tx', b'no')]", r"'no \d+ [a-z]+'"),
            ("no line", "[]", ""),
            ("two lines", "[line, line]", rf"'{engine} \d+ [a-z]+', '{engine} \d+ [a-z]+'"),
        ]:
            action = f"lines = [one for line in lines for one in ({action} if line[:5] == b'fault' else [line])]"
            finds(bench, f"{name} of a fault of {kind}", told.format(kind, seen, engine), f"step {kind}", "fault", 2,
                  action)
    told, action = r"the faults (are )?\['rx 0 ring'\]", "lines.insert(0, b'fault rx 0 ring\\n')"
    finds(bench, "a fault after an access", f"readl 0x.*: there are {told}", "readl .*", "", 300, action)
    finds(bench, "a fault after another step", rf"step rxdone: {told} instead of \[\]", "step rxdone", "done", 1,
          action)


# The action of an adapter with a fault: it also writes a finished descriptor to a second place. It computes this place
# from the present registers of the receive ring.
PRESENT_RING = """low, high, length, head = [int(ask(b"readl %d" % register)[-1].split()[1], 16) for register in {registers}]
    global slot, fetched
    if request == b"step rxdata":
        slot = (head - 1) % (length // 16)
        fetched = (high << 32 | low) + 16 * slot
    elif (high << 32 | low) != fetched - 16 * slot and (high << 32 | low) + 16 * slot + 16 <= {size}:
        ask(b"write %d 8 %s" % ((high << 32 | low) + 16 * slot + 8, ask(b"read %d 8" % (fetched + 8))[-1].split()[1]))"""


def moved_rings(bench):
    """A write-back must go to the place where the descriptor was read, even if the ring was moved since then."""
    action = PRESENT_RING.format(registers=[REGISTERS + register for register in (RDBAL, RDBAH, RDLEN, RDH)], size=SIZE)
    log = finds(bench, "a write-back into the present ring", "step rxdone: after it, byte 0x.* of memory is .*",
                "step rx(data|done)",
                "(part|moved|done)", 0, action, True)
    later = log[max(place for place, line in enumerate(log)
                    if line in ("# step rxdata -> part", "# step rxdata -> moved")):]
    bases = tuple(f"# writel {REGISTERS + register:#x} " for register in (RDBAL, RDBAH))
    bench.check("hostile: a write-back into the present ring: the ring was moved",
                any(line.startswith(bases) for line in later), True)
    bench.check("hostile: a write-back into the present ring: the last step",
                [line for line in later if line.startswith("# step")][-1],
                "# step rxdone -> done")


def answers(bench):
    """hostile.py finds a server that doesn't answer, rejects a request, doesn't end, or ends too early or with another
    status. It also finds answers that are invalid or too many.
    """
    short = ["--limit", "4"]
    for kind in ["step rxdata", READ]:
        log = finds(bench, f"no answer to {kind}", f"{kind}: no answer in 4 s", kind, "", 40, "signal.pause()",
                    words=short)
        bench.check(f"hostile: no answer to {kind}: the log's end",
                    re.fullmatch(f"# {kind} -> not answered", log[-1]) is not None, True)
    log = finds(bench, "no answer at all", "log on: no answer in 4 s", "log on", "", 1, "signal.pause()", words=short)
    bench.check("hostile: no answer at all: the log", log, ["# log on -> not answered"])
    finds(bench, "a server that doesn't end", "the server is still running 4 s after the end of its input", "step .*",
          "", 1, "last = signal.pause",
          words=[*short, "--steps", "20"])
    finds(bench, "another exit status", "the server ends with status 5 and the output b''", "step .*", "", 1,
          "status = 5", words=["--steps", "20"])
    finds(bench, "an answer too many", "the server ends with status 0 and the output b'OK\\\\n'", "step .*", "", 1,
          "last = lambda: (sys.stdout.buffer.write(b'OK\\n'), sys.stdout.buffer.flush())", words=["--steps", "20"])
    log = finds(bench, "a server that ends", "step rxdata: the server has ended", "step rxdata", "", 20, "os._exit(0)")
    bench.check("hostile: a server that ends: the log's end", log[-1], "# step rxdata -> not answered")
    finds(bench, "a request is rejected", "arrive [0-9a-f]*: ERR value", "arrive .*", "", 9,
          "lines[-1] = b'ERR value\\n'")
    for name, request, answer, error in [
        ("a register that is no number", "readl .*", "OK x", "readl 0x[0-9a-f]+: the answer has an invalid form: .*"),
        ("memory that is no number", READ, "OK 0x" + "zz" * SIZE, f"{READ}: the answer has an invalid form: .*"),
        ("a byte of memory too few", READ, "OK 0x" + "00" * (SIZE - 1), "[^:]*: memory has 8191 bytes after it"),
        ("a byte of memory too many", READ, "OK 0x" + "00" * (SIZE + 1), "[^:]*: memory has 8193 bytes after it"),
    ]:
        finds(bench, name, error, request, "", 150, f"lines[-1] = b'{answer}\\n'")


def fates(bench):
    """A wrong fate of a frame is found, at once, or at a later step or arrival that shows it."""
    for fate, other, wanted in [("illegal", "stored", "illegal"), ("illegal", "off", "illegal"),
                                ("off", "stored", "off"), ("off", "filtered", "off"),
                                ("missed", "stored", "filtered or missed"), ("stored", "missed", "filtered or stored"),
                                ("filtered", "illegal", "filtered or stored"),
                                ("stored", "lost", "filtered or stored")]:
        finds(bench, f"a frame is {other} instead of {fate}", f"arrive: the fate is {other} instead of {wanted}",
              "arrive .*", fate, 1,
              f"lines[-1] = b'OK {other}\\n'")
    finds(bench, "a filtered frame is called stored", "(step rxdata|arrive): .*", "arrive .*", "filtered", 1,
          "lines[-1] = b'OK stored\\n'")
    finds(bench, "a stored frame is called filtered", "(step rxdata|arrive): .*", "arrive .*", "stored", 1,
          "lines[-1] = b'OK filtered\\n'")


def recorded(bench, seed, count):
    """Runs a seed over a script that records. Returns each request with its answer, except for reads at address 0, and
    the counts of hostile.py.
    """
    path = proxy(bench, "(?!read 0).*", "", 0, "record.write(request + b' => ' + lines[-1])", True)
    status, lines, errors = hostile(bench, path, "--seed", str(seed), "--steps", str(count), "--counts")
    bench.check(f"hostile: seed {seed}, recorded", (status, errors), (0, b""))
    rows = [line.partition(" => OK")[::2] for line in bench.get("hostile-record").decode().splitlines()]
    return [(request, answer.strip()) for request, answer in rows], counts_of(lines[1:])


def recounted(rows):
    """The counts of a run, computed from its requests and answers only."""
    counts, piece, rebased, taken = Counter(), False, False, 0
    for request, answer in rows:
        word, *rest = request.split()
        if word in ("step", "arrive"):
            counts[f"{rest[0] if word == 'step' else word} {answer}"] += 1
        if word == "step":
            counts["steps"] += 1
            taken += (answer == "took") - (answer == "put")
            if answer in ("part", "moved"):
                piece, rebased = True, False
            if answer == "done":
                counts["write-backs after a write of RDBAL or RDBAH"] += rebased
                piece = False
        if word == "writel":
            counts["writes"] += 1
            counts["writes with a piece in progress"] += piece
            counts["writes with a frame in the transmit packet buffer"] += taken > 0
            register, value = int(rest[0], 16) - REGISTERS, int(rest[1], 16)
            rebased = rebased or register in (RDBAL, RDBAH)
            if register == CTRL and value & RST:
                counts["resets with a piece in progress"] += piece
                counts["resets with a frame in the transmit packet buffer"] += taken > 0
                piece, taken = False, 0
    return counts


def requests(bench):
    """The requests of a seed are always the same, of all kinds, and counted correctly."""
    bench.check("hostile: random words", subprocess.run(
        [sys.executable, "-B", "-c",
         "from random_requests import Words; w = Words(7); print([w.next() for _ in range(9)])"], cwd=DRIVERS,
        capture_output=True).stdout,
        f"{words_from(7, 9)}\n".encode())
    rows, counts = recorded(bench, 3, 2500)
    again, _ = recorded(bench, 3, 400)
    other, _ = recorded(bench, 4, 100)
    bench.check("hostile: a seed always does the same", (again == rows[:len(again)], other == rows[:len(other)]),
                (True, False))
    told = recounted(rows)
    bench.check("hostile: the counts are those of the requests and answers", {name: counts[name] for name in told},
                dict(told))
    bench.check("hostile: there are special counts", {name for name in told if name[0] in "wr" and told[name] > 0} >= {
        "writes with a piece in progress", "write-backs after a write of RDBAL or RDBAH",
        "resets with a piece in progress",
        "resets with a frame in the transmit packet buffer"}, True)
    written = [(int(words[1], 16) - REGISTERS, int(words[2], 16)) for words in (request.split() for request, _ in rows)
               if words[0] == "writel"]
    offsets = {offset for offset, _ in written}
    bench.check("hostile: every offset is a word of the area",
                all(offset % 4 == 0 and 0 <= offset <= 0x1FFFC for offset in offsets), True)
    known = [0x0, 0x8, 0x14, 0x20, 0x38, 0xC0, 0xC8, 0xD0, 0xD8, 0x100, 0x400, 0x1000, 0x4010, 0x4074, 0x4080, 0x40A0]
    known += [ring + place for ring in (0x2800, 0x3800) for place in (0x0, 0x4, 0x8, 0x10, 0x18)]
    bench.check("hostile: all registers are written", set(known) - offsets, set())
    bench.check("hostile: tables and other offsets are written", [
        sum(low <= offset < high for offset in offsets) > least for low, high, least in [
            (0x5200, 0x5400, 20), (0x5400, 0x5480, 10), (0x5600, 0x5800, 20), (0x5800, 0x20000, 50)]], [True] * 4)
    bench.check("hostile: receive buffers of all sizes",
                {value >> 16 & 3 for offset, value in written if offset == RCTL and value & EN}, {0, 1, 2, 3})
    bench.check("hostile: receive buffers of 16 times their size",
                any(value >> 25 & 1 for offset, value in written if offset == RCTL), True)
    lengths = {len(request.split()[1]) // 2 for request, _ in rows if request.startswith("arrive")}
    bench.check("hostile: lengths of frames", (min(lengths), max(lengths), {59, 60, 1518, 1519} - lengths),
                (1, 1600, set()))
    destinations = [sum(request.startswith(f"arrive {start}") for request, _ in rows) > 50
                    for start in ["0200000000010", "ffffffffffff0", "01005e0000010"]]
    bench.check("hostile: destinations of frames", destinations, [True] * 3)
    only = {"events", "log", "writel", "readl", "write", "b64write", "memset", "arrive", "step"}
    bench.check("hostile: its requests, besides reads of memory", {request.split()[0] for request, _ in rows}, only)


def used(bench):
    """hostile.py runs with several sizes of memory, and seed after seed until Ctrl-C. Invalid arguments are refused."""
    for size in ["0", "1", "128", "3000", "0x10000"]:
        status, lines, errors = hostile(bench, bench.program, "--seed", "5", "--steps", "400", "--memory", size)
        bench.check(f"hostile: {size} bytes of memory", (status, len(lines), lines[0][-13:], errors),
                    (0, 1, "nothing found", b""))
    process = subprocess.Popen([sys.executable, HOSTILE, bench.program, "--steps", "60"], stdout=subprocess.PIPE,
                               stderr=subprocess.PIPE,
                               start_new_session=True)
    first = [process.stdout.readline().decode() for _ in range(3)]
    # As at Ctrl-C on a terminal, the signal goes to the group of processes.
    os.killpg(process.pid, signal.SIGINT)
    out, errors = process.communicate(timeout=LIMIT)
    lines = [*first, *out.decode().splitlines(True)]
    seeds = [re.fullmatch(r"seed (\d+): (\d+) writes, (\d+) steps, nothing found\n", line) for line in lines[:-1]]
    bench.check("hostile: Ctrl-C: seeds", [found and (int(found[1]), int(found[3])) for found in seeds],
                [(n + 1, 60) for n in range(len(seeds))])
    end = re.fullmatch(r"(\d+) seeds: (\d+) writes, (\d+) steps, nothing found\n", lines[-1])
    bench.check("hostile: Ctrl-C", (process.returncode, errors, end is not None), (0, b"", True))
    if end and all(seeds):
        number, writes, steps_done = map(int, end.groups())
        bench.check("hostile: Ctrl-C: its numbers",
                    (number, writes >= sum(int(found[2]) for found in seeds), 0 <= steps_done - 60 * len(seeds) <= 60),
                    (len(seeds) + 1, True, True))
    for words, told in [(["--seed", "-1"], b"--seed"), (["--steps", "0"], b"--steps"),
                        (["--memory", "65537"], b"--memory"), (["--limit", "0"], b"--limit"),
                        (["--fast"], b"--fast")]:
        status, lines, errors = hostile(bench, bench.program, *words)
        bench.check(f"hostile: {' '.join(words)}",
                    (status, lines, errors.startswith(b"hostile.py: error: ") and told in errors), (2, [], True))
    bench.check("hostile: no program", hostile(bench, bench.path("missing"))[:2], (2, []))


def all_cases(bench):
    for part in [requests, memory, steps, told_faults, moved_rings, fates, answers, used, ten_seeds]:
        part(bench)
