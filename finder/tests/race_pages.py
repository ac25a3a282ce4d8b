"""Tests the pages of runs: what each step changes, why a run fails, and the files that the programs write.

The states are compared with what the driver reads, and with the heads and tails that a test reads after each request.
race_pages_rules.py tests the rules with short logs, and race_pages_browser.py opens pages in Chromium. Node.js runs the
scripts of a page here; page_script.py.
"""

import os
import re
import sys
from html.parser import HTMLParser
from random import Random

from finder.log import RunLog, Step, runs_in, text_of as log_text
from finder.names import OF_STEPS
from finder.page.c_file import c_file
from finder.page.write import page, shortened, template
from harness import DRIVERS, TOP, not_run, text_of
from page_script import logic
from race_finder import FOUND, PASSES, RACES, SMALL, SMALLEST, USAGE, find, replay

STAGED = [sys.executable, "-S", "-E", os.path.join(DRIVERS, "staged_test.py")]
QUEUE = [sys.executable, "-S", "-E", os.path.join(DRIVERS, "queue_test.py")]
RANDOM = [sys.executable, "-S", "-E", os.path.join(TOP, "finder", "tests", "race_pages_requests.py")]
RIGHT = [[*STAGED, "stages", "right"], [*STAGED, "stages", "masks"], [*STAGED, "offers", "right"],
         [*STAGED, "cuts", "pool"], [*STAGED, "groups", "right"], [*STAGED, "resets", "right"], [*QUEUE, "right"]]
TXSTOP = "6.15 tx before read STATUS\n6.19 tx before read tx[1]+12\n6.23 tx before read tx[2]+12\n"
CHARTS = os.path.join("finder", "tests", "race_charts.txt")
COMMAND = re.compile(r"\$ (?:(?:echo|printf) '(.*)' \| )?tools/races .*?-- python3 examples/drivers/staged_test.py"
                     " (.*)")
MOST_BYTES = 200_000  # for 1,000 steps
EXAMPLE = ["python3", "-S", "examples/drivers/receive_test.py", "wrong"]


DRAWN = "rx", "tx", "rxdata", "rxdone", "txtake", "txput"


def run_of(server, command, schedule=""):
    """The log of a run with a schedule."""
    out = replay(server, schedule, "--log", "--json", command=command)[1]
    return runs_in(out)[0]


def logs_of(server, command, schedule):
    """The logs of a run with a schedule, and of the run without deviations."""
    return run_of(server, command, schedule), run_of(server, command)


def drawn(run, seed):
    """A schedule with steps before some accesses of a run, in rounds that other deviations may have changed."""
    random = Random(seed)
    places = [step for step in run.steps if step.is_access() and not step.place.startswith("0.")]
    some = sorted(random.sample(range(len(places)), min(len(places), 12)))
    return "".join(f"{places[at].place} {random.choice(DRAWN)} before {places[at].action} {places[at].name}\n"
                   for at in some)


def random_states(server):
    """What random requests read is what the steps before lead to, also with resets, faults, and rings that are moved.
    The page can be made.
    """
    outcomes = set()
    for seed in range(1, 25):
        run = run_of(server, [*RANDOM, str(seed), "400"])
        if seed % 2:
            run = run_of(server, [*RANDOM, str(seed), "400"], drawn(run, seed))
        server.check(f"random states: seed {seed}", (len(run.steps) > 300, logic().wrong(run)), (True, []))
        outcomes |= {(step.action, step.outcome) for step in run.steps if step.actor != "driver"}
        last = max((one["step"] for one in logic().findings(run)), default=0)
        texts = logic().call("shownOf", run)["texts"]
        server.check(f"random states: seed {seed}, its texts", (len(texts), all(texts), last < len(run.steps)),
                     (len(run.steps), True, True))
    wanted = {(kind, outcome) for kind, its in OF_STEPS.items() for outcome in its} - {("txput", "wirefull")}
    server.check("random states: all outcomes", wanted - outcomes, set())
    fates = {outcome for action, outcome in outcomes if action == "arrive"}
    server.check("random states: fates", {"off", "stored", "missed"} - fates, set())


def states(server):
    """What a driver reads is what the steps before lead to, with drawn schedules of drivers without a bug. No rule
    finds anything in these runs.
    """
    for command in RIGHT:
        name, run = " ".join(command[4:]), run_of(server, command)
        for seed in (None, 1, 2, 7):
            one = run_of(server, command, drawn(run, seed)) if seed else run
            server.check(f"states: {name}, seed {seed}", logic().wrong(one), [])
            is_right = one.fault is None or bool(re.search("at this place, the test|doesn't reach", one.fault))
            server.check(f"states: {name}, seed {seed}: no rule finds anything",
                         (is_right, logic().kinds(one), logic().reasons(one._replace(fault=None))), (True, [], []))


def frames(server):
    """In the run without deviations, the driver loads DD of each stored frame, and each sent frame is on the wire."""
    run = run_of(server, [*STAGED, "stages", "right"])
    cells = {cell: text for cell, text in logic().call("played", run)["cells"].items() if "frame " in cell}
    came = [step for step in run.steps if step.action == "arrive"]
    put = [step for step in run.steps if step.action == "frame"]
    names = [f"frame R{at}" for at in range(len(came))] + [f"frame T{at}" for at in range(len(put))]
    server.check("frames: all have a place", sorted(cells), sorted(names))
    ends = {(name[:len("frame R")], text.partition(": ")[2]) for name, text in cells.items()}
    loaded = "the driver has loaded DD"
    server.check("frames: where they are at the end", sorted(ends),
                 [("frame R", loaded), ("frame T", "on the wire"), ("frame T", loaded)])


def rules(server):
    """The first reason of each variant of the Python driver is the race of docs/RACES.md under which its chart is. Each
    heading that a rule names is in RACES.
    """
    heading, count = "", 0
    for line in text_of(CHARTS).splitlines():
        heading = line.removeprefix("## ") if line.startswith("## ") else heading
        found = COMMAND.match(line)
        if not found:
            continue
        count += 1
        command = [*STAGED, *found[2].split()]
        run, other = logs_of(server, command, (found[1] or "").replace("\\n", "\n"))
        told = logic().reasons(run, other if run.schedule else None)
        server.check(f"rules: {found[2]}", told[0]["section"] if told else None, heading)
    server.holds("rules: there are charts", count > 12, f"{count}")
    for section in logic().call("constants")["sections"].values():
        server.check(f"rules: RACES has {section!r}", f"\n## {section}\n" in text_of("docs", "RACES.md"), True)
    run, other = logs_of(server, [*QUEUE, "txstop"], TXSTOP)
    lanes_of_run = list(dict.fromkeys(step.actor for step in run.steps if step.is_access()))
    server.check("rules: txstop, the handler has a lane", lanes_of_run, ["driver", "handler"])
    told = [(one["kind"], one["isHint"], run.steps[one["step"]][1:4]) for one in logic().reasons(run, other)]
    server.check("rules: txstop", told, [("quiet", True, ("read", "6.14", "tx[0]+12"))])


def pairs(server):
    """All steps of both runs are in the pairs, in order. Accesses in one pair are the same, up to the first
    difference. After it, as many accesses of a round as possible are in pairs: `least` of those of the shorter run.
    """
    for name, command, schedule, least in [
            ("late", [*STAGED, "stages", "late"], "4.6 rxdone before read ICR", 1),
            ("length", [*STAGED, "stages", "length"], "4.8 rxdone before read rx[1]+12", 0.9),
            ("txstop", [*QUEUE, "txstop"], TXSTOP, 0.9)]:
        run, other = logs_of(server, command, schedule)
        aligned, first = logic().pairs(run, other), logic().call("difference", run, other)
        for side, log in enumerate((run, other)):
            server.check(f"pairs: {name}, run {side}", [pair[side] for pair in aligned if pair[side] is not None],
                         list(range(len(log.steps))))
        both = [(run.steps[one], other.steps[two]) for one, two in aligned if None not in (one, two)]
        server.check(f"pairs: {name}, alike", [pair for pair in both if pair[0][:2] != pair[1][:2]
                                               or pair[0].name != pair[1].name], [])
        end = len(run.steps) if first["step"] is None else first["step"]
        same = [(step, its) for step, its in aligned if step is not None and step < end and run.steps[step].is_access()]
        server.check(f"pairs: {name}, before the first difference",
                     [pair for pair in same if None in pair or run.steps[pair[0]][:7] != other.steps[pair[1]][:7]], [])
        count = min(sum(step.is_access() for step in log.steps) for log in (run, other))
        paired = sum(one.is_access() for one, _ in both)
        server.holds(f"pairs: {name}, most accesses", paired >= least * count, f"{paired} of {count}")
    same = run_of(server, [*STAGED, "stages", "late"])
    server.check("pairs: of equal runs", (logic().call("difference", same, same), logic().pairs(same, same)),
                 (None, [(at, at) for at in range(len(same.steps))]))


def longest(ours, theirs):
    """The length of the longest common subsequence."""
    above = [0] * (len(theirs) + 1)
    for one in ours:
        row = [0]
        for at, two in enumerate(theirs):
            row.append(above[at] + 1 if one == two else max(above[at + 1], row[at]))
        above = row
    return above[-1]


def aligned(server):
    """Any two lists of accesses are aligned. All steps are in the pairs, in order. Those in one pair are alike, and no
    more can be in pairs. Rounds are aligned with rounds of the same number.
    """
    random, wrong = Random(3), []
    for _ in range(300):
        ours, theirs = ([Step("driver", "read", f"1.{at}", random.choice("ABCD") + "CTL", 4, 7)
                         for at in range(random.randrange(12))] for _ in range(2))
        found = logic().pairs(RunLog("one", steps=tuple(ours)), RunLog("two", steps=tuple(theirs)))
        both = [pair for pair in found if None not in pair]
        indices = [[pair[side] for pair in found if pair[side] is not None] for side in (0, 1)]
        names = [step.name for step in ours], [step.name for step in theirs]
        prefix = next((at for at, (one, two) in enumerate(zip(*names)) if one != two), min(map(len, names)))
        if (indices != [list(range(len(ours))), list(range(len(theirs)))]
                or any(names[0][one] != names[1][two] for one, two in both)
                or len(both) != prefix + longest(names[0][prefix:], names[1][prefix:])):
            wrong.append((names, found))
    server.check("aligned: random lists", wrong, [])
    steps = tuple(Step("driver", "read", f"{number}.1", "ICR", 4, number) for number in range(1, 9))
    for out in (2, 5):
        found = logic().pairs(RunLog("one", steps=steps), RunLog("two", steps=steps[:out] + steps[out + 1:]))
        server.check(f"aligned: without round {out + 1}", [pair for pair in found if None in pair], [(out, None)])
    long = tuple(Step("driver", "read", f"1.{at}", random.choice("ABCD") + "CTL", 4, 7) for at in range(5000))
    found = logic().pairs(RunLog("one", steps=long), RunLog("two", steps=(steps[0], *long)))
    paired = sum(None not in pair for pair in found)
    server.holds("aligned: long rounds", paired > 4000 and len(found) == 2 * 5001 - 1 - paired, f"{paired}")


class Elements(HTMLParser):
    """The elements of a page, the addresses that they name, and the log."""

    def __init__(self, text):
        super().__init__()
        self.found, self.links, self.log, self.is_log = [], [], "", False
        self.feed(text)

    def handle_starttag(self, tag, attrs):
        words = dict(attrs)
        self.found.append(tag)
        self.links += [words[name] for name in ("href", "src", "action", "data") if words.get(name)]
        self.is_log = words.get("id") == "data"

    def handle_endtag(self, _tag):
        self.is_log = False

    def handle_data(self, data):
        self.log += data if self.is_log else ""


def sizes(server):
    """A page of 1,000 steps has at most MOST_BYTES, also with another run, and names nothing outside of itself."""
    for name, command, schedule in [("right", [*STAGED, "stages", "right"], ""),
                                    ("rdt", [*STAGED, "stages", "rdt"], "58.5 rxdata before write rx[2]"),
                                    ("queue", [*QUEUE, "right"], "6.15 tx before read STATUS")]:
        run, other = logs_of(server, command, schedule)
        runs = [run, other] if schedule else [run]
        text = page(runs)
        steps = max(1000, sum(len(one.steps) for one in runs))
        server.holds(f"sizes: {name}", len(text.encode()) <= MOST_BYTES * steps // 1000, f"{len(text)}, {steps} steps")
        elements = Elements(text)
        server.check(f"sizes: {name}: its log", runs_in(elements.log) == [*map(shortened, runs)], True)
        server.check(f"sizes: {name}: nothing outside",
                     (elements.links, re.findall(r"https?:|@import|url\(|fetch\(", text)), ([], []))


def escapes(server):
    """No text of a run becomes a part of the page."""
    bad = "</script><b onload=x>&amp;\"'\ud800"
    run = RunLog(bad, (bad,), bad, (Step("driver", "mark", outcome=bad), Step("driver", "read", "1.1", bad, 4),
                                    Step("adapter", "rxdata", outcome=bad), Step(bad, "mark", bad)))
    text = page([run, run]).encode("utf-8", "replace").decode()
    elements, plain = Elements(text), Elements(page([RunLog("x")]))
    server.check("escapes: the elements of the page", elements.found, plain.found)
    server.check("escapes: the end of the script", text.count("</script>"), 2)
    server.check("escapes: the log", runs_in(elements.log) == [run, run], True)
    for part in template():
        server.check("escapes: the template has no mark left", re.findall(r"\b(TITLE|STYLE|DATA|SCRIPT)\b", part), [])


def lanes(server):
    """Each actor has a lane: the processors of a driver, its handler if the log has one, the adapter, and the wire."""
    for actors, wanted in [(["wire", "driver"], ["driver", "adapter", "wire"]),
                           (["adapter", "handler", "driver"], ["driver", "handler", "adapter", "wire"]),
                           (["processor 1", "adapter", "processor 0"],
                            ["processor 1", "processor 0", "adapter", "wire"]),
                           (["driver", "processor 1", "handler"],
                            ["driver", "processor 1", "handler", "adapter", "wire"])]:
        run = RunLog("x", steps=tuple(Step(actor, "mark", outcome="x") for actor in actors))
        server.check(f"lanes: {actors}", logic().call("lanes", run), wanted)


def lines_of_logs(server):
    """A log is read as it was written."""
    run, other = logs_of(server, [*STAGED, "stages", "late"], "4.6 rxdone before read ICR")
    for runs in ([run, other], [other]):
        server.check("lines: the same again", runs_in(log_text(runs)) == runs, True)


def files(server):
    """`--html` stores a page after a search and after a replay. A page that can't be written is refused before."""
    server.put("small", SMALL.encode())
    small = ["sh", "small", "fails"]
    for name, run in [("search", lambda *words: find(server, "--explore", "2", *words, command=small)),
                      ("replay", lambda *words: replay(server, SMALLEST, *words, command=small))]:
        status, out, errors = run("--html", "race.html")
        server.check(f"files: {name}, the output", (status, out.splitlines()[-1], errors),
                     (FOUND, "The page of this run: race.html", ""))
        ours, other = runs_in(Elements(server.get("race.html").decode()).log)
        server.check(f"files: {name}, the page", (sum(step.is_deviation for step in ours.steps),
                                                  "finished too late" in ours.fault), (2, True))
        server.check(f"files: {name}, beside the run without deviations", other.fault, None)
        server.remove("race.html")
    for path in ("none/x.html", "small/", ".", ""):
        status, _, errors = replay(server, "", "--html", path, command=["true"])
        server.check(f"files: {path!r} is refused", (status, "--html" in errors), (USAGE, True))
    status, _, errors = replay(server, "", "--html", "race.html", command=["sh", "small", "right"])
    run, = runs_in(Elements(server.get("race.html").decode()).log)
    server.check("files: a run that passes", (status, run.fault, errors), (PASSES, None, ""))


def example(server):
    """docs/race.html is the page that its command makes."""
    server.put("played", b"3.6 rx before read ICR\n")
    words = ["--replay", server.path("played"), "--html", server.path("race.html"), "--", *EXAMPLE]
    status, _, errors = server.execute(RACES, *words, folder=TOP)
    told = ("echo '3.6 rx before read ICR' | tools/races --replay /dev/stdin --html docs/race.html -- "
            + " ".join(EXAMPLE))
    same = server.get("race.html").decode() == text_of("docs", "race.html")
    server.check("example: it is made", (status, errors), (FOUND, ""))
    server.holds("example: docs/race.html", same, f"make it by: {told}")
    same = c_file() == text_of("bindings", "c", "explore", "page.c")
    server.holds("example: page.c", same, "make it by: python3 -m finder.page.c_file")


def all_cases(server):
    for part in [sizes, escapes, lines_of_logs, files, example]:
        part(server)
    if not logic():
        not_run("what pages show", "there is neither Node.js nor Chromium")
        return
    for part in [states, random_states, frames, rules, pairs, aligned, lanes]:
        part(server)
