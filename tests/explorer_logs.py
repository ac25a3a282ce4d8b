"""Tests the log of a run in JSON, which the explorer prints for --replay FILE --log --json, and the pictures that
tools/run_chart draws from it. The log has the steps of the text log of the same run.
"""

import json
import os
import re
import sys
import xml.etree.ElementTree as ElementTree

from finder.log import UNENDED, runs_in
from harness import TOP
from race_finder_charts import check_picture, parse_dump

CHART = [sys.executable, "-S", "-E", os.path.join(TOP, "tools", "run_chart")]
# Drivers of stages.c, and schedules: steps, a hold, an arrival, a handler of the test's own
STAGES = [("late", "4.6 rxdone before read ICR"), ("right", ""), ("cuts:cuts", "2.6 rx before write tx[1]"),
          ("eerd", "0.5 hold eeprom before read EERD"), ("offers:rxo", "39.3 arrive before write ICR")]
# A test with a handler that cuts in, which chooses, and takes a step of its own
MOMENTS = """
#include <nic82540em_explore.h>
#include <stdio.h>
static unsigned sum;
static void handler(void)
{
    sum += x_read(NIC_ICR);
}
static const char *test(void *word)
{
    static const uint8_t frame[60] = { 255, 255, 255, 255, 255, 255 };
    uint64_t descriptor[2] = { 0x800, 0 };
    (void)word, sum = 0;
    puts("the test prints");
    fflush(stdout);
    x_handler(handler);
    x_write(NIC_RDLEN, 128);
    x_store(0, descriptor, 16);
    x_write(NIC_RDT, 1);
    x_write(NIC_RCTL, NIC_RCTL_EN | NIC_RCTL_BAM);
    x_arrive(frame, sizeof frame);
    x_write(NIC_IMS, NIC_RXT0);
    if (x_choose(3) == 2)
        x_step(NIC_RXDATA);
    x_interrupts(false);
    x_step(NIC_RXDONE);
    x_read(NIC_STATUS);
    x_interrupts(true);
    x_line();
    x_settle();
    x_read(NIC_STATUS);
    return sum & NIC_RXT0 ? 0 : "the handler never saw RXT0";
}
int main(int count, char **words) { return nic82540em_explore(count, words, test, 0); }
"""
# Schedules of it, with what a chart has in the rows with stars, and in the one after the last of them
MOMENT_CASES = [
    ("1.2 choose 2 before choose\n2.0 rxdata before step", ["1.2    choose 3: 2", "rxdata moved", "2.0    step"]),
    ("1.2 choose 2 before choose\n3.0 hold step before step", ["1.2    choose 3: 2", "hold step", "3.0    step"]),
    ("1.2 rx before choose\n1.2 irq before choose", ["rxdata moved", "rxdone done", "the handler cuts in", "read <"]),
    ("1.2 choose 2 before choose\n2.0 rxdata before step\n3.1+2 late irq before handler",
     ["choose 3: 2", "rxdata moved", "the handler is late", "3.1+3  line: asserted"]),
]


def text_line(step):
    """The line of the text log for a step, or None if it has none."""
    star, place = "*" if step.is_deviation else " ", ""
    if step.place:
        number, _, access = step.place.partition(".")
        place = f"  {number}.{access:<4} "
    if step.is_access():
        return f"{place}{step.action} {step.name}{value_text(step)}"
    if step.action in ("raise", "lower"):
        return f"         the line is {step.action.rstrip('e')}ed"
    if step.action == "choose":
        return f"{place}choose {f'{step.value:#x}' if step.value else 0}"
    if step.action in ("request", "mark"):
        return place + step.outcome if place else f"{star}        {step.outcome}"
    if step.action == "hold":
        return f"{star}        hold {step.outcome}"
    return None if step.action == "frame" else f"{place or f'{star}        '}{step.action}: {step.outcome}"


def value_text(step):
    """What the text log has after the name of an access."""
    if step.value is not None:
        return f" {f'{step.value:#x}' if step.value else 0}"
    data = (step.data or b"").hex()
    if step.size or step.data == b"":
        return f", {step.size} bytes: {data[:32]}{'..' if len(data) > 32 else ''}"
    return " by a pointer" + (f", where these bytes are: {data}" if data else "")


def logs_of(bench, program, name, schedule):
    """The run in the log of a schedule, after its comparison with the text log; and the path of the log."""
    path = bench.source("log.txt", f"{schedule}\n" if schedule else "")
    words = [program, *([name] if name else []), "--replay", path, "--log"]
    status, text, _ = bench.run(*words)
    got, out, errors = bench.run(*words, "--json")
    where = f"logs: {name or 'moments'}, {schedule.splitlines()}"
    run, = runs_in(out)
    lines = text.splitlines()
    printed = [line for line in lines if line != "the test prints"]
    bench.check(f"{where}: the same steps", [*filter(None, map(text_line, run.steps))], printed[:-1])
    bench.check(f"{where}: the same end", (got, run.fault or "The test passes."), (status, lines[-1]))
    bench.check(f"{where}: what the test prints is elsewhere", errors,
                "the test prints\n" if "the test prints" in lines else "")
    bench.check(f"{where}: the first line", (run.command, list(run.schedule)),
                (" ".join(words[:words.index("--replay")]), schedule.splitlines()))
    result = json.loads(out.splitlines()[-1])
    alone = json.loads(bench.run(*words[:-1], "--json")[1].splitlines()[-1])
    bench.check(f"{where}: the last line is that of --json", result, alone)
    return run, bench.source("log.json", out)


def check_steps(run, bench, name):
    """Frames and bytes are whole, and places don't decrease."""
    data = [step for step in run.steps if step.data is not None and step.size]
    bench.check(f"logs: {name}: whole bytes", [step for step in data if len(step.data) != step.size], [])
    put = sum(step.outcome == "put" for step in run.steps)
    bench.check(f"logs: {name}: frames", sum(step.action == "frame" for step in run.steps), put)


def check_charts(bench, path, run, name):
    """The text, the picture, the dump and the page of a log."""
    status, text, errors = bench.run(*CHART, path)
    bench.check(f"logs: {name}: the chart", (status, text.splitlines()[-1], errors),
                (0, f"   {run.fault or 'The test passes.'}", ""))
    status, whole, _ = bench.run(*CHART, "--rows", "all", path)
    shown = [line for line in whole.splitlines() if re.match(r" {2,}\d+\.\d+", line)]
    bench.check(f"logs: {name}: all rows", len(shown) >= sum(step.is_access() for step in run.steps), True)
    status, picture, _ = bench.run(*CHART, "--svg", path)
    check_picture(bench, f"logs: {name}", ElementTree.fromstring(picture), text)
    variables, changes = parse_dump(bench.run(*CHART, "--vcd", path)[1])
    count = sum(step.is_deviation and step.action != "choose" for step in run.steps)
    bench.check(f"logs: {name}: the dump", (len(changes["race.adapter.deviation"]), "race.rings.RDH" in variables),
                (count, True))
    status, page, _ = bench.run(*CHART, "--html", path)
    log = re.search('<script type="application/json" id=data>(.*?)</script>', page, re.S)[1]
    bench.check(f"logs: {name}: the page", (status, len(runs_in(log)[0].steps)), (0, len(run.steps)))
    return text


def check_logs(bench, stages):
    """The log in JSON of each run, and its pictures."""
    for name, schedule in STAGES:
        run, path = logs_of(bench, stages, name, schedule)
        check_steps(run, bench, name)
        check_charts(bench, path, run, name)
    moments = bench.build("moments", bench.source("moments.c", MOMENTS))
    for schedule, wanted in MOMENT_CASES:
        run, path = logs_of(bench, moments, "", schedule)
        check_steps(run, bench, "moments")
        rows = check_charts(bench, path, run, "moments").splitlines()
        stars = [at for at, line in enumerate(rows) if line.startswith("*")]
        shown = [rows[at] for at in (*stars, stars[-1] + 1)]
        bench.check(f"logs: {schedule.splitlines()}: its stars", len(shown), len(wanted))
        for line, text in zip(shown, wanted):
            bench.holds(f"logs: {schedule.splitlines()}: {text}", text in line, line)


# Logs that tools/run_chart refuses, with words of the reason
HEAD = '{"format": "nic82540em race log", "version": 2, "command": "x", "schedule": []}'
STEP = '{"actor": "driver", "action": "read", "place": "1.1", "name": "ICR", "size": 4, "value": 128}'
END = '{"result": "passes", "fault": null}'
BAD = [("", "it is empty"), (STEP, "line 1: it isn't the first line"),
       (f"{HEAD}\n{END}\n{STEP}", "line 3: it isn't the line"), (f"{HEAD}\nx", "line 2: it isn't JSON"),
       (HEAD.replace("2,", "1,"), "line 1: it isn't a log with format"),
       (HEAD.replace("[]", "1"), "line 1: the command"),
       *[(f"{HEAD}\n{STEP.replace(old, new)}", f"line 2: {told}") for old, new, told in [
           ("128", "true", "'value' of a step isn't of type"), ("128", "-1", "a step has a number below 0"),
           ("size", "most", "a step has no key 'most'"), ('"value": 128', '"data": "0"', "'data' of a step isn't hexa"),
           ("action", "act", "it is no step")]],
       (f"{HEAD}\n[]", "line 2: it isn't the line"), (f"{HEAD}\n{END.replace('null', '1')}", "line 2: the fault")]
REFUSED = [(("none",), "none: No such file"), (("--vcd", "--svg", "log"), "not allowed with"), ((), "required: LOG"),
           (("--rows", "few", "log"), "invalid choice"), (("--from", "1", "log"), "--from and --to are for scenarios"),
           (("log", "log"), "OTHER: it is for --html"), (("log", "log", "log"), "one file or two"),
           (("--vcd", "scenario", "log"), "--vcd and --rows are for the logs of tests"),
           (("/dev/null",), "has no host")]


def check_refused(bench):
    """tools/run_chart refuses wrong words and logs. A log without a last line is drawn, and two logs make one page."""
    for text, told in BAD:
        bench.source("bad", f"{text}\n" if text else "")
        status, out, errors = bench.run("sh", "-c", '"$@" - <bad', "sh", *CHART)
        bench.check(f"logs: {told}", (status, out, f"run_chart: -: " in errors and told in errors), (2, "", True))
    log = bench.source("log", f"{HEAD}\n{STEP}\n{END}\n")
    bench.source("scenario", "host a wire w\n")
    for words, told in REFUSED:
        status, out, errors = bench.run(*CHART, *words)
        bench.check(f"logs: {words}", (status, out, errors.startswith("run_chart: ") and told in errors), (2, "", True))
    cut = bench.source("cut", f"{HEAD}\n{STEP}\n")
    bench.check("logs: a log without an end", bench.run(*CHART, cut)[1].splitlines()[-1], f"   {UNENDED}")
    page = bench.run(*CHART, "--html", cut, log)[1]
    same = bench.run("sh", "-c", 'cat cut log | "$@" --html -', "sh", *CHART)[1] == page
    bench.check("logs: a page of two logs", (same, page.startswith("<!doctype")), (True, True))
    bench.check("logs: both are in it", (page.count('"format"'), page.count('"result"')), (1 + 1, 2))
