"""Tests pages of the explorer: the reason on the page of a run is the race of its driver.

The same test, played by the finder through pipes, leads to the same reasons, and to the same states of rings.
"""

import os
import re

from finder.log import runs_in
from finder.page.write import shortened, template
from harness import text_of
from page_script import logic

# For each driver of stages.c, a schedule with one deviation that fails, and the heading of its race in docs/RACES.md.
# `--holds` isn't needed to play one.
CASES = [("late", "4.6 rxdone before read ICR", "A frame is finished while the handler runs"),
         ("masks-late", "4.7 rxdone before read ICR", "A frame is finished while the handler runs"),
         ("length", "4.8 rxdone before read rx[1]+12", "A descriptor is written back between two loads of it"),
         ("rdt", "58.5 rxdata before write rx[2]", "A slot is used before its descriptor is stored"),
         ("tdt", "63.3 txtake before write tx[0]", "A frame is taken before it is stored"),
         ("freed", "63.4 txtake before read TDH", "The head has passed a frame that isn't sent"),
         ("eerd", "0.5 hold eeprom before read EERD", "A word is read before it is there"),
         ("offers:rxo", "39.3 arrive before write ICR", "A frame is missed while misses are counted")]
# The wrong solutions of the lab whose log shows why they fail: the heading of the race. In the log of solution 9, the
# receiver's loads are missing.
LAB = {1: "A full ring looks empty", 2: "A frame is finished while the handler runs",
       3: "A frame is finished while the handler runs", 4: "A descriptor is written back between two loads of it",
       5: "A frame is taken before it is stored", 6: "A frame is taken before it is stored",
       7: "The head has passed a frame that isn't sent", 8: "A slot is done before it is offered"}


# The races of explorer/page_races.c: the heading, and whether the driver fails by itself. Of the others, each schedule
# of one deviation that fails has this reason, and no other red note.
RACES = {"buffer": ("A descriptor is written back between two loads of it", False),
         "length": ("A descriptor is written back between two loads of it", False),
         "lap": ("A slot is used before its descriptor is stored", False),
         "rdt": ("A slot is used before its descriptor is stored", False),
         "kept": ("A frame is written to a buffer that is still read", False),
         "nested": ("The handler cuts in on a send", False),
         "late": ("A frame is finished while the handler runs", False),
         "head": ("The head has passed a slot that is in progress", False),
         "tdt": ("A frame is taken before it is stored", False),
         "full": ("A full ring looks empty", True), "held": ("All buffers are held", True),
         "dd": ("A slot is done before it is offered", True), "part": ("A frame spans several descriptors", True),
         "ics": ("The handler wakes itself", True)}
# Of the run without deviations, these accesses and requests get each of these deviations.
FIRST, STEPS = 140, ("tx", "rx", "txtake", "rxdata", "irq")


# A test that ends by a signal if its frame is finished before the access to STATUS
ABORTS = """
#include <nic82540em_explore.h>
#include <stdio.h>
#include <stdlib.h>
static const char *test(void *word)
{
    static const uint8_t frame[60] = { 255, 255, 255, 255, 255, 255 };
    uint64_t descriptor[2] = { 0x800, 0 };
    (void)word;
    puts("</script>");
    x_write(NIC_RDLEN, 128);
    x_store(0, descriptor, 16);
    x_write(NIC_RDT, 1);
    x_write(NIC_RCTL, NIC_RCTL_EN | NIC_RCTL_BAM);
    x_arrive(frame, sizeof frame);
    x_read(NIC_STATUS);
    if (x_line() || x_read(NIC_ICR))
        abort();
    return 0;
}
int main(int count, char **words) { return nic82540em_explore(count, words, test, 0); }
"""


def run_of(bench, command, schedule, is_checked=True):
    """The run of a schedule by --log --json."""
    bench.source("page.txt", schedule)
    status, out, errors = bench.run(*command, "--replay", bench.path("page.txt"), "--log", "--json")
    if is_checked:
        bench.check(f"pages: {command[1:]}: {schedule}", errors, "")
    return runs_in(out)[0]


def play(bench, command, schedule, name):
    """The runs on the page of a test with this schedule, after the checks of their states."""
    bench.source("page.txt", f"{schedule}\n")
    status, _, errors = bench.run(*command, "--replay", bench.path("page.txt"), "--html", bench.path("page.html"))
    runs = runs_of_page(bench.get("page.html").decode())
    bench.check(f"pages: {name}", (status, errors, [run.fault is None for run in runs]), (1, "", [False, True]))
    for run in runs:
        bench.check(f"pages: {name}: states", logic().wrong(run), [])
    return runs


def check_pages(bench, stages):
    """The pages of CASES, of a driver without a bug, and of the lab."""
    for name, schedule, heading in CASES:
        run, other = play(bench, [stages, name], schedule, name)
        found = logic().reasons(run, other)
        bench.check(f"pages: {name}: why", (found[0]["section"] if found else None), heading)
        bench.check(f"pages: {name}: RACES has it", f"\n## {heading}\n" in text_of("docs", "RACES.md"), True)
        bench.check(f"pages: {name}: the deviation", sum(step.is_deviation for step in run.steps), 1)
    for name in ("right", "cuts:right", "offers:pool"):
        run = run_of(bench, [stages, name], "")
        bench.check(f"pages: {name}: no rule finds anything", (run.fault, logic().kinds(run)), (None, []))


def runs_of_page(text):
    """The runs whose logs are in a page."""
    return runs_in(re.search('<script type="application/json" id=data>(.*?)</script>', text, re.S)[1])


def places_of(run):
    """The places of accesses and requests, as lines of schedules name them."""
    for step in run.steps:
        if step.place and step.is_access():
            yield f"{step.place} {{}} before {step.action} {step.name}"
        elif step.place:
            name = step.outcome.split(":")[0] if step.action == "request" else step.action
            yield f"{step.place} {{}} before {name}"


def failing(bench, command, lines):
    """The runs of the schedules of one line that fail."""
    for line in lines:
        run = run_of(bench, command, f"{line}\n")
        is_other = (run.fault or "").startswith("at this place, the test makes")
        bench.check(f"pages: {command[1:]}: {line}", is_other, False)
        if run.fault:
            yield run


def check_races(bench, program):
    """Each schedule of one deviation that fails has the reason of its race. Drivers without a race have none."""
    for name, (heading, is_alone) in RACES.items():
        run = run_of(bench, [program, name], "", False)
        bench.check(f"pages: {name}: without deviations", (run.fault is not None, logic().wrong(run)), (is_alone, []))
        lines = [line.format(step) for line in list(places_of(run))[:FIRST] for step in STEPS]
        found = [run] if is_alone else list(failing(bench, [program, name], lines))
        bench.holds(f"pages: {name}: some schedules fail", bool(found))
        for one in found:
            told = logic().reasons(one, None if is_alone else run)
            wrong = logic().wrong(one), [it["kind"] for it in told if it.get("isHint")]
            first = {it["section"] for it in told if not it.get("isLater")}
            bench.check(f"pages: {name}: {one.schedule}", (wrong, first), (([], []), {heading}))
    for name in ("right", "lap-right", "kept-right", "nested-right"):
        run = run_of(bench, [program, name], "")
        bench.check(f"pages: {name}: no rule finds anything", (run.fault, logic().kinds(run)), (None, []))


def check_html(bench, program):
    """With --html, the explorer stores a page of the log, after a search and a replay. Without a run that fails, it
    stores none. A run that ends by a signal has a page, too.
    """
    for name in ("nested", "buffer", "lap", "part"):
        status, out, errors = bench.run(program, name, "--out", bench.path("out"), "--html", bench.path("found.html"))
        told = out.endswith(f"The page of this run: {bench.path('found.html')}\n")
        bench.check(f"pages: --html, {name}", (status, told, errors), (1, True, ""))
        status, _, errors = bench.run(program, name, "--replay", bench.path("out"), "--html", bench.path("again.html"))
        bench.check(f"pages: --html, {name}, the replay", (status, errors), (1, ""))
        text = bench.get("found.html").decode()
        bench.check(f"pages: --html, {name}: the same page", bench.get("again.html").decode() == text, True)
        runs = runs_of_page(text)
        wanted = [run_of(bench, [program, name], schedule, False)
                  for schedule in (bench.get("out").decode(), "")[:1 + bool(runs[0].schedule)]]
        bench.check(f"pages: --html, {name}: the logs", runs, [*map(shortened, wanted)])
        bench.check(f"pages: --html, {name}: states", [*map(logic().wrong, runs)], [[]] * len(runs))
        head, middle, end = template()
        bench.check(f"pages: --html, {name}: the template",
                    (text.startswith(f"{head}{program} {name}: {runs[0].fault}".replace("'", "&#x27;")), middle in text,
                     text.endswith(end)), (True, True, True))
    lengths = {step.size for step in runs[0].steps if step.action == "arrive"}
    bench.check("pages: --html: sizes of frames", lengths, {300})
    path = bench.path("none.html")
    for words, wanted in [(("right", "--explore", "1", "--html", path), (0, "")),
                          (("nested", "--pipe", "--html", path), (2, "--html: it goes without --pipe")),
                          (("nested", "--html", "none/x.html"), (2, "none/x.html: No such file")),
                          (("nested", "--html", "/"), (2, "--html: /: Is a directory"))]:
        status, _, errors = bench.run(program, *words)
        bench.check(f"pages: --html: {words}", (status, wanted[1] in errors, bench.get("none.html")),
                    (wanted[0], True, None))
    status, out, _ = bench.run(program, "nested", "--json", "--html", path)
    got = status, out.count("\n"), bench.get("none.html") is not None
    bench.check("pages: --html with --json", got, (1, 1, True))
    ends = bench.build("ends", bench.source("ends.c", ABORTS))
    status, _, errors = bench.run(ends, "--html", path)
    run = runs_of_page(bench.get("none.html").decode())[0]
    bench.check("pages: --html: a run that ends by a signal", (status, errors, run.fault, run.steps[-1].name),
                (1, "", "ended by SIGABRT", "ICR"))


def check_lab(bench, grade, library):
    """With HTML, examples/lab/grade stores a page of a solution that fails, and none of the right one."""
    solution = os.path.join(os.path.dirname(grade), "solution.c")
    for number, heading in LAB.items():
        env = {"CFLAGS": f"-DWRONG={number}", "HTML": bench.path("lab.html")}
        status, out, errors = bench.execute(grade, library, solution, env=env, limit=600)
        bench.check(f"pages: lab {number}", (status, "fail: " in out, errors), (1, True, ""))
        found = logic().reasons(*runs_of_page(bench.get("lab.html").decode())[:2])
        bench.check(f"pages: lab {number}: why", found[0]["section"] if found else None, heading)
        bench.remove("lab.html")
    status, _, errors = bench.execute(grade, library, solution, env={"HTML": bench.path("lab.html")}, limit=600)
    bench.check("pages: lab, the right solution", (status, errors, bench.get("lab.html")), (0, "", None))
