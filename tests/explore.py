#!/usr/bin/env -S python3 -B
"""Checks the explorer of bindings/c/explore with the examples of examples/explore.

usage: tests/explore.py PROGRAM LIBRARY

PROGRAM is `nicbench`, and LIBRARY is what `tools/library` wrote. The last line is 'N passed, M failed', and the exit
status is 1 if anything failed.
"""

import json
import os
import re
import shutil
import subprocess
import sys

from harness import TOP, Ended, Program, not_run, test_all, words_of_script
from page_script import logic
from explorer_actors import SOURCE, check_actors
from explorer_builds import builds, lies
from explorer_commands import (commands, ended_commands, jobs, languages, refused_words, resets, shrinks,
                               stopped_commands)
from explorer_devices import check_devices
from explorer_draws import by_priorities
from explorer_enumerated import Enumerated, build_enumerator, enumerated
from explorer_lab import course
from explorer_logs import check_logs, check_refused
from explorer_pages import check_html, check_lab, check_pages, check_races
from explorer_races import calls, endless, hooks, kept, passes, schedules, untold
from explorer_results import RECEIVES, check_results
from explorer_search import searching

EXPLORER, EXAMPLES = os.path.join(TOP, "bindings", "c", "explore"), os.path.join(TOP, "examples", "explore")
LIMIT = 3600
PASSES, FOUND, USAGE, NOT_RUN, NOTHING = range(5)
ZEROED = ["-O0", "-ftrivial-auto-var-init=zero"]
WARNINGS = ["-std=gnu11", "-Wall", "-Wextra", "-Werror"]
# For tests of stages.c, how many schedules have exactly 1, 2, .. deviations. The enumerator (explorer/enumerate.c)
# counts all with one deviation again in the part `counts`. It counted those of two deviations of `stages` and `offers`.
STAGES = 600, 188_346, 40_447_801, 6_607_198_528
OFFERS, EXCHANGE, CUTS, HELD = (138, 10_218), 310, 336, 702
# For each bug, how many schedules with up to one and with up to two deviations fail. The enumerator counts those with
# one.
FAILING = ("late", 3, 149), ("freed", 139, 54_230)
# For each bug: the test and the driver, options, and a deviation. Of the failing schedules with one deviation, that
# with this deviation is at the earliest place.
BUGS = [("late", "", "4.6 rxdone before read ICR"), ("length", "", "4.8 rxdone before read rx[1]+12"),
        ("freed", "", "63.4 txtake before read TDH"), ("rdt", "", "58.5 rxdata before write rx[2]"),
        ("tdt", "", "63.3 txtake before write tx[0]"), ("masks-late", "", "4.7 rxdone before read ICR"),
        ("eerd", "--holds", "0.5 hold eeprom before read EERD"),
        ("cuts:cuts", "", "2.1 rxdone before write 0x20000"), ("offers:rxo", "", "39.3 arrive before write ICR")]
BY_ITSELF = "head", "part"
RIGHT = "right", "masks", "pool"
# The tests of which every schedule is searched, each with its number of schedules
EVERY = {"exchange:right": "1.31e+59", "exchange:masks": "1.79e+61", "exchange:pool": "1.31e+59",
         "offers:right": "2.67e+102", "offers:masks": "4.21e+109", "offers:pool": "2.67e+102", "right": "2.65e+111",
         "masks": "1.13e+117", "pool": "2.65e+111", "cuts:right": "5.73e+67", "cuts:masks": "2.62e+70",
         "cuts:pool": "5.73e+67", "2exchange:right": "3.67e+118",
         "2cuts:right": "3.92e+135"}
# A test that ends by a signal if a frame is finished between the two reads of its status
ENDS = """
#include <nic82540em_explore.h>
#include <stdlib.h>
static const char *test(void *word)
{
    static const uint8_t frame[60] = { 255, 255, 255, 255, 255, 255 };
    uint64_t descriptor[2] = { 0x800, 0 };
    uint8_t status[2];
    (void)word;
    x_write(NIC_RDLEN, 128);
    x_store(0, descriptor, 16);
    x_write(NIC_RDT, 1);
    x_write(NIC_RCTL, NIC_RCTL_EN | NIC_RCTL_BAM);
    x_arrive(frame, sizeof frame);
    for (int n = 0; n < 2; n++)
        x_load(12, &status[n], 1);
    if (status[1] & !status[0])
        END;
    return 0;
}
int main(int count, char **words) { return nic82540em_explore(count, words, test, 0); }
"""
# Tests that use what remains of an earlier frame: its bytes in a buffer, the length in its descriptor, and the counter
# of received frames. `early` is above 2 if a frame was finished before the first look at its status.
LEFT_BEHIND = """
#include <nic82540em_explore.h>
static uint8_t is_done(uint64_t descriptor)
{
    uint8_t status;
    x_load(descriptor + 12, &status, 1);
    return status & 1;
}
static void receive(uint8_t byte, unsigned length)
{
    uint8_t frame[100] = { 255, 255, 255, 255, 255, 255 };
    for (unsigned n = 14; n < length; n++)
        frame[n] = byte;
    x_arrive(frame, length);
}
static const char *test(void *word)
{
    uint64_t descriptor[2] = { 0x800, 0 }, sent[2] = { 0x4000, 60 | 9u << 24 };
    uint8_t last, length;
    int early = 0;
    (void)word;
    x_write(NIC_TDBAL, 0x1000);
    x_write(NIC_TDLEN, 128);
    x_write(NIC_TCTL, NIC_TCTL_EN);
    x_write(NIC_RDLEN, 128);
    x_write(NIC_RCTL, NIC_RCTL_EN | NIC_RCTL_BAM | NIC_RCTL_BSIZE(3));
    for (unsigned n = 0; n < 2; n++) {
        x_store(16 * n, descriptor, 16);
        x_write(NIC_RDT, n + 1);
        x_store(0x1000 + 16 * n, sent, 16);
        x_write(NIC_TDT, n + 1);
        receive(n ? 7 : 255, n ? 60 : 100);
        early += is_done(16 * n);
        x_settle();
        early += is_done(0x1000 + 16 * n);
    }
    x_load(0x800 + 99, &last, 1);
    x_load(0x1008, &length, 1);
    USE
    return 0;
}
int main(int count, char **words) { return nic82540em_explore(count, words, test, 0); }
"""
USES = {"a buffer": ("if (early > 2 && last == 255) return \"old\";", FOUND),
        "a buffer, rightly": ("if (last != 255) return \"new\";", PASSES),
        "a descriptor": ("if (early > 2 && length == 60) return \"old\";", FOUND),
        "a counter": ("if (early > 2 && x_read(NIC_GPRC) == 2) return \"two\";", FOUND),
        "a counter, rightly": ("if (x_read(NIC_GPRC) != 2) return \"other\";", PASSES)}
# A driver that keeps its next slot in a static variable, which each run sets at its start
STATIC = """
#include <nic82540em_explore.h>
static unsigned next;
static const char *test(void *word)
{
    static const uint8_t frame[60] = { 255, 255, 255, 255, 255, 255 };
    uint64_t descriptor[2] = { 0x800, 0 };
    uint8_t status;
    (void)word;
    next = 0;
""" + RECEIVES + """        next += status & 1;
    }
    return next == 3 ? 0 : "a frame was lost";
}
int main(int count, char **words) { return nic82540em_explore(count, words, test, 0); }
"""
EMPTY = """
#include <nic82540em_explore.h>
static const char *test(void *word) { return word; }
int main(int count, char **words) { return nic82540em_explore(count, words, test, 0); }
"""


class Explorer(Program):
    """Builds tests with the explorer, and runs them."""

    def __init__(self, program, library, folder):
        super().__init__(program, folder)
        self.library = library
        self.compiler = shutil.which(os.environ.get("CC", "cc"))

    def build(self, name, *sources, words=(), objects=()):
        """Compiles a test, and links it with the explorer. Returns the path of the program."""
        out = os.path.join(self.folder, name)
        line = [self.compiler, *(words or ZEROED), *WARNINGS, "-I", os.path.join(self.library, "include"), "-o", out,
                *sources, *objects,
                os.path.join(self.library, "lib", "libnic82540em_explore.a")]
        ran = subprocess.run(line, capture_output=True, text=True)
        self.check(f"{name}: it is compiled without a warning", (ran.returncode, ran.stderr), (0, ""))
        return out

    def source(self, name, text):
        return self.put(name, text.encode())

    def run(self, *words, env=None, data=None):
        """Runs a program. Returns its exit status, its output and its errors."""
        return self.execute(*words, env=env, given=data, limit=LIMIT)

    def none_of(self, *words):
        """If a search finds no failure, the number of schedules that it covers. Otherwise the status, the output and
        the errors of the search.
        """
        status, out, errors = self.run(*words)
        found = re.search(r": none of (\S+) fails\n", out)
        return int(found[1]) if found and status == PASSES and not errors else (status, out, errors)


def counts(bench):
    """Searches report the exact numbers of schedules."""
    total = 1
    for depth, count in enumerate(STAGES, 1):
        total += count
        bench.check(f"counts: stages, depth {depth}", bench.none_of(bench.stages, "right", "--explore", str(depth)),
                    total)
    bench.check("counts: offers, depth 2", bench.none_of(bench.stages, "offers:right", "--explore", "2"),
                1 + sum(OFFERS))
    for words, count in [(["offers:right"], OFFERS[0]), (["exchange:right"], EXCHANGE), (["cuts:right"], CUTS),
                         (["right", "--holds"], HELD)]:
        bench.check(f"counts: {words}", bench.none_of(bench.stages, *words, "--explore", "1"), 1 + count)
    bench.check("counts: each run from nothing", bench.none_of(bench.stages, "right", "--explore", "1", "--again"),
                1 + STAGES[0])
    enumerator = build_enumerator(bench, "enumerate-stages", *sources("stages.c", "driver.c"))
    for words, count, failing in [(["right"], STAGES[0], 0), (["offers:right"], OFFERS[0], 0),
                                  (["cuts:right"], CUTS, 0), (["exchange:right"], EXCHANGE, 0),
                                  (["right", "--holds"], HELD, 0),
                                  *(([name], None, first) for name, first, _ in FAILING)]:
        got = Enumerated(bench.run(enumerator, *words, "--explore", "1")[1])
        bench.check(f"counts: enumerated: {words}", (got.tried[1] if count else None, got.outcomes.get(15, (0,))[0]),
                    (count, failing))
    fast = bench.build("stages-O2", *sources("stages.c", "driver.c"), words=["-O2"])
    bench.check("counts: another build", bench.none_of(fast, "right", "--explore", "2"), 1 + sum(STAGES[:2]))


def sources(*names):
    return [os.path.join(EXAMPLES, name) for name in names]


def bugs(bench):
    """Each bug is found, with one deviation or with none. The schedule of one deviation is stored and played again,
    also by `serve`, and the right driver passes it.
    """
    for name, words, deviation in BUGS:
        found = os.path.join(bench.folder, "found.txt")
        status, out, errors = bench.run(bench.stages, name, *words.split(), "--out", found, "--serve", bench.program)
        with open(found) as file:
            lines = file.read().splitlines()
        bench.check(f"bugs: {name}", (status, lines[2:], errors), (FOUND, [deviation], ""))
        bench.check(f"bugs: {name}: smallest", "\nsmallest: no schedule with fewer deviations fails\n" in out, True)
        bench.check(f"bugs: {name}: served", out.splitlines()[-1],
                    f"{bench.program} serve plays it, with the same result")
        fault = lines[1].removeprefix("# ")
        bench.check(f"bugs: {name}: again", bench.run(bench.stages, name, "--replay", found), (FOUND, f"{fault}\n", ""))
        right = f"{name.partition(':')[0]}:right" if ":" in name else "right"
        bench.check(f"bugs: {name}: right", bench.run(bench.stages, right, "--replay", found)[1].splitlines()[-1:],
                    ["The test passes."])
    for name in BY_ITSELF:
        status, out, _ = bench.run(bench.stages, name)
        bench.check(f"bugs: {name}", (status, "\nno race: the test fails by itself, without any deviation\n" in out),
                    (FOUND, True))


def all_that_fail(bench):
    """With --all, a search reports each schedule that fails, or each seed that fails."""
    for name, *wanted in FAILING:
        for depth, count in enumerate(wanted, 1):
            out = bench.run(bench.stages, name, "--explore", str(depth), "--all")[1]
            bench.check(f"all: {name}, depth {depth}", int(re.search(r"holds: (\d+) of \d+ fail\n", out)[1]), count)
    # If no schedule fails, a search with --all covers the same number of schedules.
    for name, depth in ("cuts:right", "3"), ("offers:masks", "5"):
        numbers = [bench.none_of(bench.stages, name, "--explore", depth, *words) for words in ([], ["--all"])]
        bench.check(f"all: {name}, the same schedules", numbers[0], numbers[1])
    out = bench.run(bench.stages, "late", "--explore", "1", "--all")[1]
    bench.check("all: kinds", "\n3 of rxdone before read ICR, such as 4.6 rxdone before read ICR\n" in out, True)
    out = bench.run(bench.stages, "late", "--all", "--runs", "200")[1]
    seeds, count = re.findall(r"^seed \d+: ", out, re.M), int(re.search(r"^(\d+) of them fail$", out, re.M)[1])
    bench.check("all: seeds", (len(seeds), count > 10), (count, True))


def without_chart(got):
    """The status, the last line, without blanks at its ends, and the errors of a run whose chart is drawn"""
    status, out, errors = got
    return status, out.splitlines()[-1].strip() if out else "", errors


def races(bench):
    """With --pipe, tools/races plays tests of the explorer: `late` fails with the same schedule. The right driver
    passes.
    """
    schedule, env = bench.source("late.txt", "4.6 rxdone before read ICR\n"), {"RACES_LIBRARY": bench.library}
    finder = [os.path.join(TOP, "tools", "races"), "--replay"]
    got = bench.run(*finder, schedule, "--", bench.stages, "late", "--pipe", env=env)
    bench.check("races: late", without_chart(got), (FOUND, "exit status 1: frame 1 was never received", ""))
    for name in ("right", "cuts:right", "offers:right"):
        got = bench.run(*finder, "/dev/null", "--", bench.stages, name, "--pipe", env=env)
        bench.check(f"races: {name}", without_chart(got), (PASSES, "The test passes.", ""))


def drawn(bench):
    """Runs of drawn schedules have the same answers from saved states and from nothing. Too many states end a
    search.
    """
    status, out, errors = bench.run(bench.stages, "right", "--check", "--runs", "100")
    bench.check("drawn: check", (status, out.splitlines()[-1:], errors),
                (PASSES, ["each has the answers of a run from nothing"], ""))
    status, out, _ = bench.run(bench.stages, "length", "--check", "--runs", "50")
    bench.check("drawn: the smallest of --check", (status, "\n4.8 rxdone before read rx[1]+12\n" in out), (FOUND, True))
    status, out, _ = bench.run(bench.stages, "right", "--states", "10", "--runs", "20")
    bench.check("drawn: too many states",
                (status, bool(re.match(r"ended by --states 10, after \d+ states and \d+ schedules?: none of these "
                                       r"fails\n", out))), (NOT_RUN, True))
    for name in RIGHT:
        bench.check(f"drawn: {name}", bench.run(bench.stages, name, "--runs", "300")[::2], (PASSES, ""))
    test = bench.build("passes", os.path.join(TOP, "tests", "explorer", "passes.c"))
    words = "line", "wrong", "--holds", "--all", "--runs", "1", "--json"
    results = {json.loads(bench.run(test, *words, "--seed", str(seed))[1])["result"] for seed in range(1, 200)}
    bench.check("drawn: with held steps, each is repeated", results, {"passes", "fails", "nothing"})


def left_behind(bench):
    """A search clears some bytes and counters that no run should read again. A run that reads what an earlier frame
    left still finds it unchanged. A driver with a static variable passes.
    """
    for name, (use, wanted) in USES.items():
        test = bench.build("left", bench.source("left.c",
                                                LEFT_BEHIND.replace("USE", f"(void)early, (void)last, (void)length; "
                                                                           f"{use}")))
        for words in (["--explore", "every"], ["--explore", "3"], ["--explore", "2", "--again"]):
            status, out, errors = bench.run(test, *words)
            bench.check(f"left behind: {name} {words}", (status, "from nothing. What" in out, errors),
                        (wanted, False, ""))
    static = bench.build("static", bench.source("static.c", STATIC))
    for words in ([], ["--explore", "every"]):
        status, out, _ = bench.run(static, *words, "--json")
        bench.check(f"left behind: a static variable {words}", (status, json.loads(out)["result"]), (PASSES, "passes"))


def logs(bench):
    """The log of a schedule has each access and step of the run."""
    late = bench.source("late.txt", "4.6 rxdone before read ICR\n")
    status, out, errors = bench.run(bench.stages, "late", "--replay", late, "--log")
    wanted = ("  4.5    read rx[1]+8, 5 bytes: 0000000000\n*        rxdone: done\n  4.6    read ICR 0x84\n"
              "         the line is lowered\n")
    bench.check("logs: late", (status, wanted in out, out.splitlines()[-1], errors),
                (FOUND, True, "frame 1 was never received", ""))
    wanted = USAGE, "", "explore: --log: it needs --replay\nFor more information, try '--help'.\n"
    bench.check("logs: without a schedule", bench.run(bench.stages, "late", "--log"), wanted)
    check_logs(bench, bench.stages)
    check_refused(bench)


def ends(bench):
    """A test that ends by a signal fails, also if each run begins from nothing. A test that makes no access isn't
    searched. Returns the program of such a test.
    """
    for name, code in [("SIGABRT", "abort()"), ("SIGSEGV", "*(volatile int *)0 = 0"),
                       ("SIGFPE", "status[1] /= status[0]")]:
        test = bench.build(name, bench.source(f"{name}.c", ENDS.replace("END", code)), words=["-O0"])
        for words in ([], ["--again", "--explore", "2"]):
            status, out, _ = bench.run(test, *words, "--json")
            result = json.loads(out)
            got = result["result"], result["fault"], result["schedule"]
            bench.check(f"ends: {name} {words}", (status, *got),
                        (FOUND, "fails", f"ended by {name}", ["1.2 rx before read rx[0]+12"]))
    empty = bench.build("empty", bench.source("empty.c", EMPTY))
    for words in ([], ["--explore", "2"], ["--explore", "every"]):
        status, out, _ = bench.run(empty, *words)
        bench.check(f"ends: nothing {words}", (status, out.splitlines()[-1]),
                    (NOTHING, "nothing was searched: in no run did a deviation do anything"))
    return empty


def arguments(bench):
    """Wrong words and wrong schedules are refused. Environment variables can stand for words."""
    for words, wanted in [(["--fly"], "--fly: there is no such option"), (["--runs"], "--runs: it has no value"),
                          (["--explore", "x"], "--explore: its value isn't a number, or is too great"),
                          (["--explore", "17"], "--explore: its value isn't a number, or is too great")]:
        got = bench.run(bench.stages, "right", *words)
        bench.check(f"arguments: {words}", got,
                    (USAGE, "", f"explore: {wanted}\nFor more information, try '--help'.\n"))
    for lines, wanted in [("4.6 rz before read ICR\n", "line 1: it has no deviation, such as rx"),
                          ("4.6 rx before read ICR\n4.5 rx before read ICR\n", "line 2: sort the lines by place"),
                          ("4.6 rx before read ICR\n3.7 rx before read ICR\n", "line 2: sort the lines by place")]:
        bad = bench.source("bad.txt", lines)
        bench.check(f"arguments: a schedule: {wanted}", bench.run(bench.stages, "right", "--replay", bad),
                    (USAGE, "", f"explore: {bad}: {wanted}\n"))
    bench.check("arguments: a folder in place of a schedule", bench.run(bench.stages, "right", "--replay", "/"),
                (USAGE, "", "explore: /: it can't be read\n"))
    served = bench.run(bench.stages, "right", "--replay", "/dev/null", "--serve", "nonesuch")
    bench.check("arguments: no program", served,
                (PASSES, "The test passes.\nnonesuch serve can't play it: it can't be started\n", ""))
    got = bench.run(bench.stages, "right", "--explore", "every", "--all")
    bench.check("arguments: all of every", got,
                (USAGE, "",
                 "explore: --all: with --explore, it needs a number: of every schedule, more may fail than can be "
                 "listed\nFor more information, try '--help'.\n"))
    other = bench.source("other.txt", "4.6 rxdone before read RDH\n999.1 rx before read ICR\n")
    status, out, _ = bench.run(bench.stages, "right", "--replay", other)
    bench.check("arguments: another access", (status, out.splitlines()[0]),
                (FOUND, "4.6 rxdone before read RDH: at this place, the test makes another access: read rx[1]+8"))
    served = bench.run(bench.stages, "right", "--replay", other, "--serve", bench.program, "--json")[1]
    bench.check("arguments: another access, served", json.loads(served)["served"], False)
    bench.check("arguments: NIC_EXPLORE", bench.run(bench.stages, "late", env={"NIC_EXPLORE": "1"})[0], FOUND)
    late = bench.source("late.txt", "4.6 rxdone before read ICR\n")
    bench.check("arguments: NIC_REPLAY", bench.run(bench.stages, "late", env={"NIC_REPLAY": late})[:2],
                (FOUND, "frame 1 was never received\n"))
    bench.check("arguments: help", bench.run(bench.stages, "--help")[0::2], (PASSES, ""))


def pointers(bench):
    """A driver with pointers is explored without a change."""
    driver = os.path.join(bench.folder, "pointers.o")
    words = [bench.compiler, "-c", "-O1", "-ftrivial-auto-var-init=zero", "-fno-builtin", "-fsanitize=thread",
             "--param=tsan-distinguish-volatile=1"]
    ran = subprocess.run([*words, "-o", driver, *sources("pointers.c")], capture_output=True, text=True)
    bench.check("pointers: the driver is compiled", (ran.returncode, ran.stderr), (0, ""))
    hooks = os.path.join(EXPLORER, "pointers", "hooks.c")
    test = bench.build("pointers", *sources("pointers_test.c"), hooks, objects=[driver])
    status, out, _ = bench.run(test, "right", "--explore", "every")
    bench.check("pointers: every schedule",
                (status, out.startswith("every schedule, with any number of deviations, without holds: none of ")),
                (PASSES, True))
    result = json.loads(bench.run(test, "late", "--json")[1])
    bench.check("pointers: late", (result["result"], result["schedule"]), ("fails", ["4.7 rx before read ICR"]))
    bench.check("pointers: no chart", "tools/races" in bench.run(test, "late")[1], False)


def lab(bench):
    """The right solution of the lab passes, and each of the ten wrong ones fails, with at most one deviation."""
    folder = os.path.join(TOP, "examples", "lab")
    for number in range(11):
        words = [os.path.join(folder, "grade"), bench.library, os.path.join(folder, "solution.c"), "--explore", "1"]
        status, out, errors = bench.run(*words, env={"CFLAGS": f"-DWRONG={number} -Wall -Wextra -Werror"})
        result, grade = json.loads(out.splitlines()[0]), out.splitlines()[1].partition(":")[0]
        wanted = (PASSES, "passes", "pass", True, "") if number == 0 else (FOUND, "fails", "fail", True, "")
        got = status, result["result"], grade, len(result["schedule"]) <= 1, errors
        bench.check(f"lab: {number}", got, wanted)


def rust(bench):
    """The crate of bindings/rust_explore runs a test with a heap, whose panics are failures. Without rustc, nothing is
    tested.
    """
    if not shutil.which("rustc"):
        print("rust: there is no rustc, so the crate isn't built")
        return
    crate, folder = os.path.join(TOP, "bindings", "rust_explore", "src", "lib.rs"), os.path.join(bench.library, "lib")
    compiler = ["rustc", "--edition", "2021", "-D", "warnings", "-L", f"native={folder}"]
    for name, words in [("the crate", ["--crate-type", "rlib", "--crate-name", "nic82540em_explore", "-l",
                                       "static=nic82540em_explore", "-o", "libex.rlib", crate]),
                        ("the test", ["--extern", "nic82540em_explore=libex.rlib", "-o", "receive",
                                      *sources("receive.rs")])]:
        bench.check(f"rust: {name} is compiled", bench.run(*compiler, *words), (0, "", ""))
    test = os.path.join(bench.folder, "receive")
    status, out, errors = bench.run(test, "right", "--explore", "every")
    bench.check("rust: every schedule", (status, ": none of " in out, errors), (PASSES, True, ""))
    bench.check("rust: check", bench.run(test, "right", "--check", "--runs", "100")[::2], (PASSES, ""))
    result = json.loads(bench.run(test, "late", "--json")[1])
    bench.check("rust: late", [result[key] for key in ("result", "fault", "schedule")],
                ["fails", "frame 1 was never received", ["4.6 rx before read ICR"]])


def every(bench):
    """The drivers without a bug pass every schedule, and the numbers of schedules are those of EVERY."""
    for name, number in EVERY.items():
        status, out, errors = bench.run(bench.stages, name, "--explore", "every")
        found = re.search(r": none of (\S+) fails\n", out)
        bench.check(f"every: {name}", (status, found and found[1], errors), (PASSES, number, ""))
        print(f"{name}: {out}", end="", flush=True)


def results(bench):
    """Tests that end by a signal or make no access, and what the explorer prints (explorer_results.py)."""
    check_results(bench, bench.stages, ends(bench))


def pages(bench):
    """Pages of runs from the explorer's log (explorer_pages.py)."""
    if not logic():
        not_run("pages", "there is neither Node.js nor Chromium")
        return
    check_pages(bench, bench.stages)
    races = bench.build("page_races", os.path.join(TOP, "tests", "explorer", "page_races.c"))
    check_races(bench, races)
    check_html(bench, races)
    check_lab(bench, os.path.join(TOP, "examples", "lab", "grade"), os.path.join(bench.folder, "nic"))


def devices(bench):
    """Devices of a test's own (explorer_devices.py)."""
    check_devices(bench, lambda name, sources: bench.build(name, *sources))


def actors(bench):
    """Actors of a test (explorer_actors.py)."""
    check_actors(bench, bench.build("actors", SOURCE))


def make(folder):
    program, given = map(os.path.abspath, words_of_script())
    bench = Explorer(program, shutil.copytree(given, os.path.join(folder, "nic")), folder)
    if not bench.compiler:
        raise Ended("there is no C compiler")
    bench.stages = bench.build("stages", *sources("stages.c", "driver.c"))
    return bench


PARTS = (counts, searching, passes, calls, kept, builds, lies, hooks, untold, schedules, endless, enumerated, bugs,
         all_that_fail, by_priorities, races, commands, languages, jobs, shrinks, resets, ended_commands,
         stopped_commands, refused_words, drawn, logs, arguments, left_behind, results, pages, pointers, devices,
         actors, rust, lab, course, every)

test_all(make, PARTS)
