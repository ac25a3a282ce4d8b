"""Tests charts of tools/races: those in docs/RACES.md and race_charts.txt, the picture, and the value change dump.

The dump is read by a small parser here, and by `vcd2fst` of GTKWave if it is installed (Debian: package gtkwave).
"""

import os
import re
import shutil
import subprocess
import sys
import xml.etree.ElementTree as ElementTree

from finder.chart import ChartRow, cut
from finder.names import fields_of, value_in
from finder.log import runs_in
from harness import TOP
from race_finder import FOUND, PASSES, RACES, SMALL, SMALLEST, replay
from race_requests import read, whole, write
from race_finder_stages import ARRIVAL_BUGS, BUGS, MORE_BUGS, RESET_BUGS, STAGED, rows
from server import LIMIT, lines
from server_pages import read_page

CHART = [sys.executable, "-S", "-E", os.path.join(TOP, "tools", "run_chart")]
MOST_LINES, LONGEST = 25, 155

FINISHED = "A frame is finished while the handler runs"
# The bugs with charts in docs/RACES.md and race_charts.txt, each with the heading of its section
SECTIONS = {
    "late": FINISHED, "masks-late": FINISHED, "length": "A descriptor is written back between two loads of it",
    "head": "The head has passed a slot that is in progress", "part": "A frame spans several descriptors",
    "rdt": "A slot is used before its descriptor is stored", "tdt": "A frame is taken before it is stored",
    "freed": "The head has passed a frame that isn't sent", "eerd": "A word is read before it is there",
    "cuts": "The handler cuts in on a send", "rxo": "A frame is missed while misses are counted",
    "clears": "A word of the group table is cleared for a moment", "mpc": "A miss is lost in a reset",
}
# Bugs that have no chart, as they are no races
NO_RACES = ["group", "wraps", "offers-queued"]
SHOWN = (re.compile(r"^```\n\$ ([^\n]*examples/drivers/staged_test\.py (?:stages|cuts|offers|groups|resets) (\S+))\n"
                    r"(.*?)^```$", re.M | re.S))


def charts_of(page):
    """Yields the charts of a page: the bug, the heading of its section, the command and what it prints."""
    for section in re.split("^## ", page, flags=re.M)[1:]:
        for command, bug, shown in SHOWN.findall(section):
            yield bug, section.partition("\n")[0], command, shown


def command_of(test, bug, deviations):
    """The command that draws the chart of a bug, by the row of the table in examples/drivers/README.md."""
    begin, schedule = (f"echo '{deviations[0]}' | ", "/dev/stdin") if deviations else ("", "/dev/null")
    return f"{begin}tools/races --replay {schedule} -- python3 examples/drivers/staged_test.py {test} {bug}"


def pages(server):
    """Each bug has a chart, except NO_RACES, on the page or in race_charts.txt, below the heading of its section. The
    finder prints exactly this chart, and the section on the page names the bug.
    """
    races = read_page("docs", "RACES.md")
    text = f"{races}\n{read_page('finder', 'tests', 'race_charts.txt')}"
    found = {bug: rest for bug, *rest in charts_of(text)}
    wanted = {*BUGS, *MORE_BUGS, *ARRIVAL_BUGS, *RESET_BUGS} - {*NO_RACES}
    server.check("pages: all races have a chart", sorted(found), sorted(wanted))
    server.check("pages: there is one chart for each", len(list(charts_of(text))), len(found))
    sections = {section.partition("\n")[0]: section for section in re.split("^## ", races, flags=re.M)[1:]}
    for bug, test, _, deviations in rows():
        if bug in NO_RACES:
            continue
        heading, command, shown = found.get(bug, ("", "false", ""))
        server.check(f"pages: {bug}, its section", heading, SECTIONS.get(bug))
        server.check(f"pages: {bug}, a word of it", f"`{bug}`" in sections.get(heading, ""), True)
        server.check(f"pages: {bug}, its command", command, command_of(test, bug, deviations))
        shell = command.replace("tools/races", RACES, 1).replace("-- python3", f"-- {sys.executable} -S -E", 1)
        ran = subprocess.run(shell, shell=True, cwd=TOP, capture_output=True, timeout=LIMIT)
        server.check(f"pages: {bug}, its chart", (ran.returncode, ran.stdout.decode(), ran.stderr), (FOUND, shown, b""))
        stars = [line for line in shown.splitlines() if line.startswith("*")]
        server.check(f"pages: {bug}, its stars", len(stars), len(deviations))
        long = [line for line in shown.splitlines() if len(line) > LONGEST]
        server.check(f"pages: {bug}, its size", (shown.count("\n") <= MOST_LINES, long), (True, []))


# The text and the picture

COLUMNS = ("place", "driver", "registers", "memory", "adapter", "wire", "line")
ARROW = re.compile(" (<--+|--+>) ")
MARK = re.compile(r"^[* ] +(the handler (?:cuts in|returns|is late))\b")
SVG = "{http://www.w3.org/2000/svg}"


def columns_of(starts, begin, end):
    """The columns left of and right of an arrow, by the positions where columns begin."""
    return [name for name in COLUMNS if starts[name] <= begin][-1], [name for name in COLUMNS if starts[name] > end][0]


def text_rows(text):
    """The rows of a chart's text: for each its star, its texts by column, its arrow, and its bar; and the last line."""
    heading, *body, last = text.splitlines()
    starts = {name: heading.index(name) for name in COLUMNS}
    ends = dict(zip(COLUMNS, [*list(starts.values())[1:], None]))
    found = []
    for line in body:
        arrow = ARROW.search(line)
        told = arrow and (columns_of(starts, arrow.start(1), arrow.end(1)), ">" in arrow[1])
        line = ARROW.sub(lambda one: " " * len(one[0]), line)
        cells = {name: line[starts[name]:ends[name]].strip() for name in COLUMNS}
        for mark in MARK.findall(line):  # its text goes over other columns
            cells.update({"driver": mark, "registers": "", "memory": ""})
        bar = cells.pop("line")
        found.append((line[0], {name: cell for name, cell in cells.items() if cell}, told, bar))
    return found, last.strip()


def arrow_of(row, starts):
    """The arrow of a row of the picture: its columns, and whether it points to the right. If its head is wrong, its
    path; None if the row has no arrow.
    """
    paths = row.findall(f"{SVG}path")
    if not paths:
        return None
    tail, y, tip, *head = map(int, re.findall(r"\d+", paths[0].get("d")))
    begin, end = sorted((tail, tip))
    is_head = head[2:4] == [tip, y] and begin < head[0] == head[4] < end and y - head[1] == head[5] - y > 2
    return (columns_of(starts, begin, end), tip > tail) if is_head else paths[0].get("d")


def picture_rows(root):
    """The rows of a picture, in the form of `text_rows`, and its last line. A row in a rectangle `bar` has a bar."""
    heading = root.find(f"{SVG}g[@class='heading']")
    starts = {text.get("class"): int(text.get("x")) for text in heading if text.get("class") == text.text}
    bars = [[int(bar.get(key)) for key in ("x", "y", "height")] for bar in root.findall(f"{SVG}rect[@class='bar']")]
    found = []
    for row in root.findall(f"{SVG}g"):
        if row is heading:
            continue
        texts = {text.get("class"): text for text in row.findall(f"{SVG}text")}
        y = {int(text.get("y")) for text in texts.values()}
        middle = min(y) - 4
        is_up = any(x == starts["line"] and at < middle < at + height for x, at, height in bars)
        star = texts.pop("star").text if "star" in texts else " "
        in_place = len(y) == 1 and all(int(text.get("x")) == starts[name] for name, text in texts.items())
        has_mark = (row.find(f"{SVG}rect[@class='mark']") is not None, row.get("class") == "row deviation")
        cells = {name: text.text for name, text in texts.items()} if in_place and has_mark == (star == "*",) * 2 else {}
        found.append((star, cells, arrow_of(row, starts), "|" if is_up else ""))
    return found, root.find(f"{SVG}text[@class='end']").text


def light(color):
    """The relative luminance of a color such as #1f1f1f, by WCAG."""
    parts = [int(color[at:at + 2], 16) / 255 for at in (1, 3, 5)]
    parts = [part / 12.92 if part <= 0.04045 else ((part + 0.055) / 1.055) ** 2.4 for part in parts]
    return sum(part * weight for part, weight in zip(parts, (0.2126, 0.7152, 0.0722)))


def contrasts(style):
    """Yields, for the light scheme and for the dark one: the smallest contrast of texts and arrows, and that of the
    bar.
    """
    for scheme in style.split("@media (prefers-color-scheme: dark)"):
        color = {name: light(one) for name, one in re.findall(r"([.\w]+) \{ (?:fill|stroke): (#[0-9a-f]{6})", scheme)}
        pairs = [(color[one], color[back]) for one in ("text", "path", ".bar") for back in (".page", ".mark")]
        ratios = [(max(pair) + 0.05) / (min(pair) + 0.05) for pair in pairs]
        yield min(ratios[:4]), min(ratios[4:])


def log_of(server, schedule, command):
    """The run of a schedule. Stores its log in the file `log`."""
    status, out, _ = replay(server, schedule, "--log", "--json", command=command)
    server.put("log", out.encode())
    run, = runs_in(out)
    server.check(f"{command[-2:]}: its log", status, FOUND if run.fault else PASSES)
    return run


def drawn(server, *words):
    """What tools/run_chart draws of the log."""
    status, out, errors = server.execute(*CHART, *words, "log")
    server.check(f"charts: {words}", (status, errors), (0, ""))
    return out


def stored_picture(server, name):
    """Checks the picture of the log. Returns the rows of its text."""
    return check_picture(server, name, ElementTree.fromstring(drawn(server, "--svg")), drawn(server))


def check_picture(server, name, root, text):
    """The picture has the rows of the text. All its elements are inside of its size, and of the kinds that are listed
    here. Returns the rows of the text.
    """
    wanted, last = text_rows(text)
    got, end = picture_rows(root)
    server.check(f"picture: {name}, its last line", end, last)
    server.check(f"picture: {name}, its number of rows", len(got), len(wanted))
    for at, (one, other) in enumerate(zip(got, wanted)):
        server.check(f"picture: {name}, row {at + 1}", one, other)
    kinds = {one.tag.removeprefix(SVG) for one in root.iter()}
    wanted_kinds = {"g", "path", "rect", "style", "svg", "text", "title"}
    server.check(f"picture: {name}, its elements", kinds | {"path", "rect"}, wanted_kinds)
    sizes = {"x": int(root.get("width")), "y": int(root.get("height"))}
    outside = [one.tag for one in root.iter() for key in sizes if not 0 <= int(one.get(key, 0)) < sizes[key]]
    server.check(f"picture: {name}, all is inside", outside, [])
    return wanted


def looks(server):
    """The picture is readable on light and on dark backgrounds, and has a generic font."""
    root = ElementTree.fromstring(drawn(server, "--svg"))
    page = root.find(f"{SVG}rect[@class='page']")
    size = [root.get("width"), root.get("height")]
    server.check("picture: its background", [page.get("width"), page.get("height")], size)
    server.check("picture: its view", root.get("viewBox").split(), ["0", "0", *size])
    found = list(contrasts(root.find(f"{SVG}style").text))
    server.check("picture: two backgrounds", len(found), 2)
    server.check("picture: its contrasts", [(text > 7, bar > 3) for text, bar in found], [(True, True)] * 2)
    server.check("picture: its font", root.get("font-family"), "monospace")


def pictures(server):
    """Pictures of several runs have the rows of their texts; all kinds of rows are among them."""
    seen = []
    for test, bug, schedule in [("cuts", "cuts", "2.6 rxdone before write tx[1]"), ("stages", "part", ""),
                                ("stages", "eerd", "0.9 hold eeprom before read EERD"),
                                ("stages", "late", "4.6 rxdone before read ICR")]:
        log_of(server, schedule, [*STAGED, test, bug])
        seen += stored_picture(server, bug)
    looks(server)
    arrows = {row[2] for row in seen if row[2]}
    pairs = [("driver", "registers"), ("driver", "memory"), ("memory", "adapter")]
    ways = [(pair, way) for pair in pairs for way in (True, False)]
    ways += [(("registers", "adapter"), False), (("adapter", "wire"), True)]
    server.check("pictures: arrows that are seen", sorted(arrows), sorted(ways))
    marks = [{row[3] for row in seen}, {row[0] for row in seen}]
    server.check("pictures: bars and stars", marks, [{"", "|"}, {" ", "*"}])
    server.check("pictures: rows that are cut", ".." in [row[1].get("place") for row in seen], True)
    server.put("small", SMALL.encode())
    log_of(server, SMALLEST, ["sh", "small", "fails"])
    seen = stored_picture(server, "small")
    arrival = [row[2] for row in seen if row[1].get("adapter") == "stored"]
    server.check("pictures: an arrival", arrival, [(("adapter", "wire"), False)])
    log_of(server, "", ["sh", "-c", r"printf '<a&b>]]>\033\377' >&2; exit 1"])
    root = ElementTree.fromstring(drawn(server, "--svg"))
    end = root.find(f"{SVG}text[@class='end']").text
    server.check("pictures: any fault", end, "exit status 1: <a&b>]]>\ufffd\xff")


# The dump

RINGS = ("RDH", "RDT", "TDH", "TDT")
UNITS = 16


def parse_dump(text):
    """The variables of a dump (type, size) and their changes (time, value) by path. The dump must be well-formed."""
    head, end, body = text.partition("$enddefinitions $end\n")
    assert end
    sections = re.findall(r"\$(\w+)\s(.*?)\$end", head, re.S)
    scopes, variables, codes = [], {}, {}
    for word, rest in sections:
        rest = rest.split()
        if word == "scope":
            scopes.append(rest[1])
        elif word == "upscope":
            scopes.pop()
        elif word == "var":
            path = ".".join([*scopes, rest[3]])
            assert path not in variables and rest[2] not in codes and re.fullmatch(r"[A-Za-z_]\w*", rest[3])
            variables[path], codes[rest[2]] = (rest[0], int(rest[1])), path
        else:
            assert word in ("date", "version", "comment", "timescale")
    assert not scopes and re.search(r"\$timescale\s+1\s?ns\s+\$end", head)
    return variables, changes_of(body, variables, codes)


def changes_of(body, variables, codes):
    """The changes in the body of a dump."""
    changes, time = {path: [] for path in variables}, -1
    for line in body.splitlines():
        if line.startswith("#"):
            assert int(line[1:]) > time
            time = int(line[1:])
        elif not line.startswith("$"):
            value, code = line[1:].split(" ") if line[0] == "b" else (line[0], line[1:])
            path = codes[code]
            assert time >= 0 and (set(value) == {"x"} or len(value.lstrip("0")) <= variables[path][1])
            changes[path].append((time, None if "x" in value else int(value, 2)))
    return changes


class Wanted:
    """What a dump must have, by the steps of its run."""

    def __init__(self, steps):
        self.time, self.changes, self.wrong = 0, {}, []
        self.ring = dict.fromkeys([*RINGS, "RDLEN", "TDLEN"], 0)
        for name in ("irq", *RINGS):
            self.note(name, 0)
        for step in steps:
            self.step(step)
            for name in RINGS:
                self.note(name, self.ring[name])

    def note(self, name, value):
        if not self.changes.get(name) or self.changes[name][-1][1] != value:
            self.changes.setdefault(name, []).append((self.time, value))

    def happen(self, name):
        self.changes.setdefault(name, []).append((self.time, 1))

    def step(self, step):
        if step.is_access():
            self.time = (self.time // UNITS + 1) * UNITS
            self.access(step)
        elif step.action in ("raise", "lower"):
            self.note("irq", int(step.action == "raise"))
        elif step.action == "frame":
            self.happen("frame")
        elif step.action not in ("fault", "choose", "request"):
            self.time += 1
            self.happen(step.outcome.replace(" ", "_") if step.action == "mark" else f"{step.action}_{step.outcome}")
            letter = {"part": "R", "moved": "R", "took": "T"}.get(step.outcome)
            if letter:
                self.ring[f"{letter}DH"] = (self.ring[f"{letter}DH"] + 1) % (self.ring[f"{letter}DLEN"] // 16)

    def access(self, step):
        is_write, name, value = step.action == "write", step.name, step.value
        is_register = name[0].isupper() or name.startswith("register")
        self.happen(f"{step.action}_{'register' if is_register else 'memory'}")
        if not is_register:
            return
        if is_write and name == "CTRL" and value >> 26 & 1:
            self.ring = dict.fromkeys(self.ring, 0)
        if name in RINGS and not is_write and self.ring[name] != value:
            self.wrong.append((self.time, name, value))
        if name in self.ring and is_write:
            self.ring[name] = value & (0xFFFF if name in RINGS else 0xFFF80)
        if name not in RINGS:
            self.note(name.replace("[", "_").rstrip("]"), value)


def readers(server, name, variables, changes):
    """`vcd2fst` of GTKWave, if it is installed, reads the same variables and changes from the dump."""
    if not (shutil.which("vcd2fst") and shutil.which("fst2vcd")):
        print(f"dump: {name}: vcd2fst (Debian: package gtkwave) isn't installed: only the parser of the test reads it")
        return
    folder = server.folder
    ran = subprocess.run(["vcd2fst", "run.vcd", "run.fst"], cwd=folder, capture_output=True, timeout=LIMIT)
    server.check(f"dump: {name}, vcd2fst", (ran.returncode, ran.stderr), (0, b""))
    ran = subprocess.run(["fst2vcd", "run.fst"], cwd=folder, capture_output=True, timeout=LIMIT)
    got, again = parse_dump(ran.stdout.decode())
    server.check(f"dump: {name}, its variables in GTKWave", got, variables)
    others = [path for path in changes if again[path] != changes[path]]
    server.check(f"dump: {name}, its changes in GTKWave", others, [])


def check_dump(server, name, run):
    """A dump contains the changes of the log. Returns its variables, and its changes by the names of variables."""
    text = drawn(server, "--vcd")
    server.put("run.vcd", text.encode())
    variables, changes = parse_dump(text)
    wanted = Wanted(run.steps)
    got = {path.rpartition(".")[2]: told for path, told in changes.items()}
    server.check(f"dump: {name}, heads and tails are what the driver reads", wanted.wrong, [])
    for one, told in got.items():
        if one not in ("round", "access", "deviation"):  # these aren't in the log
            known = told[1:] if told[:1] == [(0, None)] else told  # a register isn't known before its first access
            server.check(f"dump: {name}, {one}", known, wanted.changes.pop(one, []))
    server.check(f"dump: {name}, nothing is left out", sorted(wanted.changes), [])
    readers(server, name, variables, changes)
    return variables, got


def dumps(server):
    """The dumps of three drivers, and of requests that reach everything, are valid."""
    # At the end: an offset without a register, an interrupt, and a reset, after which heads and tails are 0.
    more = ["readl 0xFEB00044", "writel 0xFEB00044 5", write("IMS", 255), write("ICS", 4), read("ICR"),
            write("TDT", 0x70005), read("TDT"), write("CTRL", 1 << 26), read("RDH"), read("TDT")]
    server.put("requests", lines([*whole(), *more]))
    for name, schedule, command in [("late", "4.6 rxdone before read ICR", [*STAGED, "stages", "late"]),
                                    ("cuts", "2.6 rx before write tx[1]", [*STAGED, "cuts", "cuts"]),
                                    ("eerd", "0.9 hold eeprom before read EERD", [*STAGED, "stages", "eerd"]),
                                    ("all", "", ["sh", "-c", "exec 3<&0; cat requests & exec cat <&3 >answers"])]:
        variables, got = check_dump(server, name, log_of(server, schedule, command))
        deviations = [time for time, _ in got["deviation"]]
        server.check(f"dump: {name}, its deviations", len(deviations), bool(schedule))
        for at in [(time // UNITS + 1) * UNITS for time in deviations]:  # the access after the deviation
            place = [[value for time, value in got[word] if time <= at][-1] for word in ("round", "access")]
            server.check(f"dump: {name}, the place of its deviation", "{}.{}".format(*place), schedule.split(" ")[0])
    kinds = {tuple(path.split(".")[:-1]): kind for path, kind in variables.items() if kind[0] != "event"}
    wanted = {"adapter": ("wire", 1), "rings": ("reg", 16), "driver": ("integer", 32),
              **dict.fromkeys(("registers", "MTA", "VFTA", "RAL", "RAH"), ("reg", 32))}
    server.check("dump: its scopes", kinds, {("race", scope): kind for scope, kind in wanted.items()})


def dump_of_any_fault(server):
    """A fault with keywords and other characters doesn't end the comment of a dump."""
    run = log_of(server, "", ["sh", "-c", "echo 'a $end $var \"b\" \N{EURO SIGN}' >&2; exit 1"])
    comment = re.findall(r"^\$comment (.*) \$end$", drawn(server, "--vcd"), re.M)
    server.check("dump: any fault", comment, ['exit status 1: a ?end ?var "b" ?'])
    check_dump(server, "any fault", run)


# The files

FIELDS = [("rx[3]+8", "f205000001"), ("rx[3]+8", "0000000000"), ("rx[12]", "00" * 16), ("tx[0]+12", "01"),
          ("tx[7]", "00000200000000003c00000911000000"), ("rx[0]+7", "0000"), ("rx[0]+8", "07"),
          ("rx[0]+12", "00" * 8), ("0x1000", "00000000"), ("rx[0]", "00010000" * 2)]
VALUES = [("ICR", 0x80), ("RCTL", 0x04038002), ("TCTL", 0xA), ("EERD", 0x110), ("RAH[0]", 1 << 31), ("MTA[0]", 1),
          ("RDT", 0)]
FIELDS_TOLD = """\
length 1522, status 0x1 DD
length 0, status 0x0
buffer 0x0, length 0, checksum 0x0, status 0x0, errors 0x0, special 0x0
status 0x1 DD
buffer 0x20000, length 60, command 0x9 EOP RS, status 0x11 DD
None
None
None
None
buffer 0x10000000100
0x80 RXT0
0x4038002 EN BAM SECRC
0xa EN PSP
0x110 DONE
0x80000000 AV
0x1
0x0
"""


# Cuts charts of numbered rows. Each case states the rows with stars, what other rows show in memory, and the number of
# rows.
SLOTS = {11: "tx[1]+8 a", 18: "tx[1] b", 19: "tx[1]+8 a", 20: "tx[0] c", 21: "buffer of tx[1] d", 25: "tx[1] b",
         28: "tx[1] e", 30: "tx[1] f"}
CUT = [((), {}, 30), ((), {}, 3), ((10,), {}, 40), ((10, 30), {}, 60), ((10, 21), {}, 32), ((0,), {}, 2),
       ((10,), {at: "read" for at in range(35, 40)}, 40), ((10,), SLOTS, 60)]
CUT_TOLD = """\
10 11 12 13 14 15 16 17 18 19 20 21 22 23 24 25 26 27 28 29
0 1 2
6 7 8 9 * 11 12 13 14 15 18 rows 34 35 36 37 38 39
6 7 8 9 * 11 12 13 14 15 10 rows 26 27 28 29 * 31 32 33 34 35 18 rows 54 55 56 57 58 59
6 7 8 9 * 11 12 13 14 15 16 17 18 19 20 * 22 23 24 25 26 27 28 29 30 31
* 1
6 7 8 9 * 11 12 13 14 15 18 rows 34 4 rows 39
6 7 8 9 * 11 12 13 14 15 2 rows 18 2 rows 21 6 rows 28 25 rows 54 55 56 57 58 59
"""


def cuts(server):
    """The rows that a chart shows: near deviations, at the end, other uses of a slot; 20 rows without a deviation."""
    for (stars, memory, count), wanted in zip(CUT, CUT_TOLD.splitlines()):
        shown = [ChartRow({"": "*"} if at in stars else {"": "", "place": str(at), "memory": memory.get(at, str(at))})
                 for at in range(count)]
        told = [row.cells.get("") or row.cells.get("driver") or row.cells["place"] for row in cut(shown)]
        server.check(f"cuts: {count} rows, {stars}", " ".join(told), wanted)


def fields(server):
    """The texts of descriptors and registers."""
    told = [fields_of(name, len(data) // 2, int.from_bytes(bytes.fromhex(data), "little")) for name, data in FIELDS]
    told += [value_in(register, value) for register, value in VALUES]
    server.check("fields and bits", "".join(f"{one}\n" for one in told), FIELDS_TOLD)


def all_cases(server):
    for part in [pages, pictures, dumps, dump_of_any_fault, cuts, fields]:
        part(server)
