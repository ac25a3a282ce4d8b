"""Tests what the explorer prints: results and JSON, ends by signals, progress, and where a handler cuts in.
tests/explore.py runs these tests.
"""

import json
import os
import pty
import re
import resource
import signal
import subprocess
import time

from harness import TOP, text_of

EXAMPLES = os.path.join(TOP, "examples", "explore")
PASSES, FOUND, USAGE, NOT_RUN, NOTHING = range(5)
SIGNALS = signal.SIGINT, signal.SIGTERM, signal.SIGHUP
WITHOUT_TOUCH = ("the handler cut in at accesses and requests, not between uses of shared variables: "
                 "x_touch makes these places")
KEYS = {"result", "seed", "fault", "schedule", "runs", "search", "seen", "impossible", "served"}
SEARCH_KEYS = {"complete", "tried", "smallest", "holds", "first", "schedules", "states", "depth"}
# For searches: the cases that their runs have seen, and the number of kinds of places that they reached. Then the
# number of kinds without a deviation, some of them, and the end of the line about them.
SEEN = [("stages", "right --explore 1", [True, True, True, True, False, None], 35, 22, ["write MTA[]"],
         "before 13 of 35 kinds of places; never before 22 that only round 0 has"),
        ("stages", "offers:right --explore 1", [True, True, False, False, True, None], 34, 24, ["write PBA"],
         "never before write PBA, nor before 23 that only round 0 has"),
        ("stages", "cuts:cuts --explore 2 --all", [True, False, True, True, False, True], 38, 24, ["arrive"], None),
        ("stages", "cuts:right --explore 1", [True, False, True, False, False, False], 40, 24, ["handler on"],
         "never before arrive, nor before 23 that only round 0 has"),
        ("passes", "masked --explore every", [False, False, None, None, False, False], 12, 11, ["write memory"],
         "before 1 of 12 kinds of places; never before write RDT, arrive, read ICR, read rx[]+12, write rx[], nor "
         "before 6 that only round 0 has")]
SEEN_KEYS = "receive_wrapped", "receive_dry", "transmit_wrapped", "transmit_full", "missed", "handler_in_send"
# A test that fails if two frames are sent before it looks at their descriptors. A search that ends early finds it only
# by schedules in which each frame has its two steps at two places.
SENDS = """
#include <nic82540em_explore.h>
static const char *test(void *word)
{
    uint64_t descriptor[2] = { 0x4000, 60 | 9u << 24 };
    uint8_t first, last;
    (void)word;
    x_write(NIC_TDBAL, 0x1000);
    x_write(NIC_TDLEN, 128);
    x_write(NIC_TCTL, NIC_TCTL_EN);
    for (unsigned n = 0; n < 2; n++)
        x_store(0x1000 + 16 * n, descriptor, 16);
    x_write(NIC_TDT, 2);
    for (int n = 0; n < 6; n++)
        x_load(0x100C, &first, 1);
    x_load(0x101C, &last, 1);
    x_settle();
    return first & last & 1 ? "both were sent" : 0;
}
int main(int count, char **words) { return nic82540em_explore(count, words, test, 0); }
"""
# The line in which the handler of my_test.c reads ICR, and the end of this handler
READS_ICR, LOOPS = ("    x_read(NIC_ICR); /* first: a frame that is finished later raises the line again */\n",
                    "    }\n}\n\nstatic void send(")
# C: offers a ring of 8 slots. Six times, a frame arrives or the adapter settles. Loads the status of the next slot.
RECEIVES = """    x_write(NIC_RDLEN, 128);
    for (unsigned n = 0; n < 8; n++)
        x_store(16 * n, descriptor, 16);
    x_write(NIC_RDT, 7);
    x_write(NIC_RCTL, NIC_RCTL_EN | NIC_RCTL_BAM);
    for (int n = 0; n < 6; n++) {
        if (n % 2 == 0)
            x_arrive(frame, sizeof frame);
        else
            x_settle();
        x_load(16 * next + 12, &status, 1);
"""
# A test whose accesses depend on the number of its process, so that no run is as one in a new process
PROCESS = r"""
#include <nic82540em_explore.h>
#include <unistd.h>
static const char *test(void *word)
{
    static const uint8_t frame[60] = { 255, 255, 255, 255, 255, 255 };
    uint64_t descriptor[2] = { 0x800, 0 };
    uint8_t status;
    unsigned next = 0;
    (void)word;
    x_write(NIC_MTA, (uint32_t)getpid());
""" + RECEIVES + r"""        next += status & 1;
    }
    return 0;
}
int main(int count, char **words) { return nic82540em_explore(count, words, test, 0); }
"""
# A counter in a static variable that no run sets back, and a fault of two lines that needs escapes in JSON
COUNTER = r"""
#include <nic82540em_explore.h>
static unsigned received;
static const char *test(void *word)
{
    static const uint8_t frame[60] = { 255, 255, 255, 255, 255, 255 };
    uint64_t descriptor[2] = { 0x800, 0 };
    uint8_t status;
    unsigned next = 0, own = 0;
""" + RECEIVES + r"""        next += status & 1, own += status & (n % 2 == 0), received += status & 1;
    }
    if (word)
        return own ? "a \"frame\" \\ was\nearly: \xff \xc3\xa4" : 0;
    return received == 3 ? 0 : "a frame was lost";
}
int main(int count, char **words) { return nic82540em_explore(count, words, test, count > 1 && words[1][0] == 'f' ? words : 0); }
"""
# A transmit queue that the driver stops when it is full, and that the handler starts. If the handler cuts in between
# the driver's look at `free` and the stop, after all frames were sent, nothing starts the queue again. AGAIN: the
# driver looks at `free` once more.
STOPPED = """
#include <nic82540em_explore.h>
enum { RING = 0x2000, BUFFERS = 0x20000, SLOTS = 8, FRAMES = MOST + 3 };
static struct { unsigned at, done, free; bool is_stopped; } *d;
static void interrupt(void)
{
    uint8_t status;
    x_read(NIC_ICR);
    for (; d->free < MOST; d->free++, d->done = (d->done + 1) % SLOTS) {
        x_load(RING + 16 * d->done + 12, &status, 1);
        if (!(status & NIC_TXD_DD))
            break;
    }
    if (d->free)
        d->is_stopped = false;
}
static bool send(uint8_t number)
{
    uint8_t frame[60] = { 255, 255, 255, 255, 255, 255 };
    uint64_t descriptor[2] = { BUFFERS + 2048 * d->at, 60 | 9u << 24 };
    frame[14] = number;
    x_touch(false, 0);
    if (d->is_stopped)
        return false;
    x_store(descriptor[0], frame, 60);
    x_store(RING + 16 * d->at, descriptor, 16);
    d->at = (d->at + 1) % SLOTS;
    d->free--;
    x_write(NIC_TDT, d->at);
    if (d->free == 0) {
        x_touch(true, 0);
        d->is_stopped = true;
        if (AGAIN) {
            x_touch(false, 0);
            d->is_stopped = d->free == 0;
        }
    }
    return true;
}
static const char *test(void *word)
{
    (void)word;
    d = x_memory(sizeof *d);
    d->free = MOST;
    x_write(NIC_TDBAL, RING), x_write(NIC_TDLEN, 128), x_write(NIC_TCTL, NIC_TCTL_EN);
    x_write(NIC_IMS, NIC_TXDW);
    x_handler(interrupt);
    for (unsigned n = 0; n < FRAMES; n++)
        for (unsigned tries = 0; !send(n); tries++) {
            x_settle();
            if (tries == 9)
                return "the queue is never started again";
        }
    x_settle();
    return x_put_count() == FRAMES ? 0 : "a frame was never sent";
}
int main(int count, char **words) { return nic82540em_explore(count, words, test, 0); }
"""


def result_of(bench, *words):
    """The exit status and the JSON object of a command. The keys of the object are checked."""
    status, out, errors = bench.run(*words, "--json")
    result = json.loads(out)
    search = SEARCH_KEYS | ({"failed"} if "--all" in words else set())
    got = set(result) - {"pct"}, set(result["search"]), errors
    bench.check(f"json: {' '.join(words[1:])}, its keys", got, (KEYS, search, ""))
    return status, result


def build_all(bench):
    """Builds the test with a static counter, and three tests of a queue that is stopped: wrong, with a longer ring, and
    right. Returns the paths of all four.
    """
    counter = bench.build("counter", bench.source("counter.c", COUNTER), words=["-O0", "-ftrivial-auto-var-init=zero"])
    text = [("stopped", 5, 0), ("longer", 7, 0), ("looks", 5, 1)]
    paths = [bench.source(f"{name}.c", STOPPED.replace("AGAIN", str(again)).replace("MOST", str(most)))
             for name, most, again in text]
    return counter, *(bench.build(name, path) for (name, _, _), path in zip(text, paths))


def unsaved(bench, counter):
    """A test that depends on what isn't saved is reported as such, and not as a race. A static counter that no run sets
    back is saved: the test passes.
    """
    process = bench.build("process", bench.source("process.c", PROCESS))
    for words in ([], ["--explore", "every"], ["--explore", "1", "--again"], ["--check"], ["--pct", "2"], ["--all"]):
        status, out, errors = bench.run(process, *words)
        got = status, "the test doesn't repeat itself" in out, "fails" in out, errors
        bench.check(f"unsaved: a process {words}", got, (NOT_RUN, True, False, ""))
        status, result = result_of(bench, process, *words)
        bench.check(f"unsaved: a process {words} as JSON", (status, result["result"], result["fault"]),
                    (NOT_RUN, "unsaved", None))
        status, result = result_of(bench, counter, *words)
        bench.check(f"unsaved: a counter {words}", (status, result["result"]), (PASSES, "passes"))


def faults(bench, counter):
    """A fault of two lines: its schedule is stored and played again, and its JSON is valid. The stored command has a
    long word and a word of two lines.
    """
    found = os.path.join(bench.folder, "two lines.txt")
    words = ["f", "x" * 400, "two\nlines"]
    status, _, errors = bench.run(counter, *words, "--out", found)
    bench.check("faults: stored", (status, errors), (FOUND, ""))
    status, out, errors = bench.run(counter, "f", "--replay", found)
    bench.check("faults: again", (status, "early" in out, errors), (FOUND, True, ""))
    status, result = result_of(bench, counter, "f")
    bench.check("faults: as JSON", (status, result["fault"], len(result["schedule"])),
                (FOUND, 'a "frame" \\ was\nearly: \xff ä', 1))
    status, result = result_of(bench, counter, "f", "--replay", found)
    bench.check("faults: a replay as JSON", (status, result["result"], result["search"]["complete"]),
                (FOUND, "fails", None))


def template(bench):
    """my_test.c passes every schedule. If its handler reads ICR last, the explorer prints the race that docs/RACES.md
    shows. Returns the program.
    """
    path = os.path.join(EXAMPLES, "my_test.c")
    text, page, readme = (text_of(file) for file in (path, os.path.join(TOP, "docs", "RACES.md"),
                                                     os.path.join(TOP, "README.md")))
    mine, late = bench.build("my_test", path), text.replace(READS_ICR,
                                                            "").replace(LOOPS, f"    }}\n    "
                                                                               f"x_read(NIC_ICR);{LOOPS[5:]}")
    status, out, errors = bench.run(mine, "--explore", "every")
    lines = out.splitlines()
    shown = re.search(rf"^\$ ./my_test --explore every\n{re.escape(lines[0])}\n(\d+) states, ", page, re.M)
    bench.check("template: every schedule", (status, shown is not None, lines[-1], errors),
                (PASSES, True, WITHOUT_TOUCH, ""))
    # with run-time checks in the library, other bytes remain on the stack, so there are some more states
    states = int(lines[1].split()[0])
    bench.check(f"template: {states} states", shown is not None and abs(int(shown[1]) / states - 1) < 0.05, True)
    bench.check("template: README", lines[0][lines[0].index(": none of"):] in readme, True)
    bench.check("template: drawn", bench.run(mine)[1].splitlines()[-1], WITHOUT_TOUCH)
    late = bench.build("late", bench.source("late.c", late))
    status, out, _ = bench.run("./late")
    bench.check("template: ICR is read last",
                (status, out.partition("\n\nTo play")[0].replace("late", "my_test") in page), (FOUND, True))
    out = bench.run(late, "--explore", "2", "--all")[1]
    bench.check("template: what all have",
                "\n2 of rx before write TDT; rx before read ICR, such as 6.3 " in out,
                True)
    return mine


def lengths(bench, stages):
    """A test that is twice as long has about twice the states, if its halves begin with both rings at the same
    slots.
    """
    for name in "exchange:right", "cuts:right", "offers:right", "right":
        states = [int(re.search(r"^(\d+) states", bench.run(stages, f"{times}{name}", "--explore", "every")[1],
                                re.M)[1]) for times in ("", "2.")]
        bench.check(f"lengths: {name}, {states}", 1.99 < states[1] / states[0] < 2.1, True)


def handlers(bench, stopped, looks):
    """The template passes every schedule. With `x_touch`, no line reports where the handler cut in, and `serve` can't
    play a schedule. A race of two variables is found in less than 3 processor seconds.
    """
    mine = template(bench)
    status, out, _ = bench.run(looks, "--explore", "every")
    bench.check("handlers: with x_touch", (status, "none of" in out, WITHOUT_TOUCH in out), (PASSES, True, False))
    before = resource.getrusage(resource.RUSAGE_CHILDREN).ru_utime
    status, result = result_of(bench, stopped, "--explore", "5")
    took = resource.getrusage(resource.RUSAGE_CHILDREN).ru_utime - before
    got = status, result["schedule"], result["search"]["smallest"], took < 3
    bench.check(f"handlers: the race of two variables, {took:.1f} s", got,
                (FOUND, ["0.25 tx before touch"] * 5, True, True))
    out = bench.run(stopped, "--explore", "5", "--serve", bench.program)[1].splitlines()
    bench.check("handlers: x_touch and --serve",
                [line for line in out if line.startswith(f"{bench.program} serve")],
                [f"{bench.program} serve can't play it: the test calls x_touch"])
    schedule = bench.source("frames.txt", "2.1 rx before write 0x20000\n")
    out = bench.run(mine, "--replay", schedule, "--log")[1]
    wanted = ("         the line is raised\n  2.1    write 0x20000, 60 bytes: ffffffffffff00000000000000000000..\n"
              "         the handler cuts in\n  2.2    read ICR 0x80\n")
    bench.check("handlers: the log", (wanted in out,
                                      out.count("the handler cuts in") == out.count("the handler returns")),
                (True, True))
    races = [os.path.join(TOP, "tools", "races"), "--replay", schedule, "--rows", "all"]
    out = bench.run(*races, "--", mine, "--pipe")[1]
    wanted = out.splitlines()[-1:], out.count("the handler cuts in") == out.count("the handler returns") > 0
    bench.check("handlers: the chart", wanted, (["   The test passes."], True))


def seen(bench, stages):
    """The result of a search has the cases that its runs have seen, and the places without a deviation."""
    programs = {"stages": stages, "passes": bench.build("passes", os.path.join(TOP, "tests", "explorer", "passes.c"))}
    for program, words, cases, reached, never, some, line in SEEN:
        result = result_of(bench, programs[program], *words.split())[1]["seen"]
        got = [result[key] for key in SEEN_KEYS], result["reached"], len(result["never"])
        bench.check(f"seen: {words}", (got, set(some) <= set(result["never"])), ((cases, reached, never), True))
        if line:
            out = bench.run(programs[program], *words.split())[1]
            bench.check(f"seen: {words}, the line", f"{line}\n" in out, True)


def as_json(bench, stages, longer):
    """The JSON object of each kind of search has the same keys, and the expected results."""
    status, result = result_of(bench, stages, "right")
    search = result["search"]
    got = status, search["tried"], search["first"], search["complete"], search["depth"], result["runs"]
    bench.check("json: by default", got, (PASSES, [1, 600, 188_346, 40_447_801], 40_636_748, True, None, 1000))
    status, result = result_of(bench, stages, "late", "--explore", "2", "--all")
    search = result["search"]
    got = (status, search["tried"], len(search["failed"]), search["complete"], search["smallest"],
           len(result["schedule"]))
    bench.check("json: all of two deviations", got, (FOUND, [1, 608, 191_164], 149, True, True, 1))
    status, result = result_of(bench, stages, "late", "--all", "--runs", "100")
    failed = result["search"]["failed"]
    got = status, result["seed"] == failed[0]["seed"], all(one["fault"] for one in failed), result["search"]["complete"]
    bench.check("json: all seeds", got, (FOUND, True, True, True))
    status, result = result_of(bench, stages, "exchange:right", "--explore", "every")
    bench.check("json: every", (status, result["search"]["tried"], result["search"]["schedules"] > 1e57),
                (PASSES, [], True))
    status, result = result_of(bench, stages, "right", "--pct", "2", "--runs", "20")
    pct = result["pct"]
    bench.check("json: PCT", (status, pct["depth"], pct["actors"], round(1 / pct["bound"])),
                (PASSES, 2, 4, 4 * pct["events"]))
    status, result = result_of(bench, stages, "right", "--check", "--runs", "20")
    bench.check("json: --check", (status, result["result"], result["runs"]), (PASSES, "passes", 20))
    other = bench.source("other.txt", "4.6 rxdone before read RDH\n")
    status, result = result_of(bench, stages, "right", "--replay", other)
    bench.check("json: another access", (status, result["result"], "another access" in result["fault"]),
                (FOUND, "mismatch", True))
    status, result = result_of(bench, longer, "--explore", "every")
    bench.check("json: a long one is shrunk", (len(result["schedule"]), result["search"]["smallest"]), (7, True))


def smaller(bench):
    """A search that ends early shrinks the schedule that it has found: steps at two places become pairs."""
    test = bench.build("sends", bench.source("sends.c", SENDS))
    status, result = result_of(bench, test, "--explore", "8", "--all", "--states", "8")
    lengths_of = {len(one["schedule"]) for one in result["search"]["failed"]}
    bench.check("smaller: pairs", (status, lengths_of, result["schedule"]),
                (FOUND, {4}, ["0.7 tx before read tx[0]+12"] * 2))


def nothing(bench, empty):
    """A test that makes no access isn't searched, with any options. The only line of output reports this."""
    for words in ([], ["--check"], ["--pct", "2"], ["--all"], ["--explore", "every"], ["--explore", "2", "--all"]):
        wanted = NOTHING, "nothing was searched: in no run did a deviation do anything\n", ""
        bench.check(f"nothing: {words}", bench.run(empty, *words), wanted)
        status, result = result_of(bench, empty, *words)
        bench.check(f"nothing: {words} as JSON", (status, result["result"]), (NOTHING, "nothing"))


def listen():
    """Lets a new process end by each of the signals, also if its parent ignores them."""
    for number in SIGNALS:
        signal.signal(number, signal.SIG_DFL)


def ended_by(number, after, *words):
    """The exit status and the output of a program that gets this signal `after` seconds after its start."""
    process = subprocess.Popen(words, stdout=subprocess.PIPE, text=True, preexec_fn=listen)
    time.sleep(after)
    process.send_signal(number)
    out = process.communicate(timeout=60)[0]
    return process.returncode, out


def signals(bench, stages):
    """A signal ends any search, which then prints what it has tried."""
    long = [stages, "2right", "--explore", "every"]
    for number, status in (signal.SIGINT, 130), (signal.SIGTERM, 143), (signal.SIGHUP, 129):
        got, out = ended_by(number, 1, *long)
        form = rf"ended by {number.name}, after \d+ states and [0-9.e+]+ schedules?: none of these fails\n"
        bench.check(f"signals: {number.name}", (got, bool(re.fullmatch(form, out))), (status, True))
    for words in (long, [stages, "right", "--runs", "1000000000"], [stages, "right", "--check", "--runs", "1000000000"],
                  [stages, "right", "--explore", "8"]):
        status, out = ended_by(signal.SIGTERM, 1.5, *words, "--json")
        result = json.loads(out)
        got = status, result["result"], result["search"]["complete"]
        bench.check(f"signals: {' '.join(words[1:])} as JSON", got, (143, "ended", False))
    status, out = ended_by(signal.SIGINT, 1.5, stages, "freed", "--explore", "3", "--all")
    shown = re.search(r"^ended by SIGINT, after \d+ states and \d+ schedules: \d+ of these fail\n", out, re.M)
    got = status, bool(shown), "\nthe smallest so far has 1 deviation\n" in out, out.count("\n# ")
    bench.check("signals: the smallest so far", got, (130, True, True, 2))
    status, out = ended_by(signal.SIGINT, 2, stages, "late", "--all", "--runs", "100000000")
    got = (status, "\nsmallest: " in out
           or "\nended by SIGINT: not all schedules with fewer deviations were tried\n" in out)
    bench.check("signals: of seeds that fail", got, (130, True))


def progress(stages):
    """What a search prints on a terminal in seven seconds."""
    process, terminal = pty.fork()
    if not process:
        listen()
        os.execv(stages, [stages, "2right", "--explore", "every"])
    time.sleep(7)
    os.kill(process, signal.SIGINT)
    shown = b""
    while True:
        try:
            part = os.read(terminal, 4096)
        except OSError:
            break
        if not part:
            break
        shown += part
    os.waitpid(process, 0)
    return shown.decode()


def words(bench, stages):
    """Checks the help, the groups of schedules that fail, and the progress on a terminal."""
    helps = bench.run(stages, "-h")
    bench.check("words: -h", (helps[0], helps[1].startswith("Searches the schedules")), (PASSES, True))
    out = bench.run(stages, "late", "--explore", "2", "--all")[1]
    kinds = re.findall(r"^(\d+) of (.*), such as [^\n]*$", out, re.M)
    bench.check("words: kinds", (len(kinds), kinds[0]), (7, ("3", "rxdone before read ICR")))
    bench.check("words: larger ones", "such as 4.6 rxdone before read ICR; 125 with others, too\n" in out, True)
    bench.check("words: progress", bool(re.search(r"\r\d+ states, [0-9.e+]+ schedules so far\x1b\[K\r",
                                                  progress(stages))), True)


def sanitized(bench):
    """A program with AddressSanitizer, for which no state is saved, finds the same race. If it can't be built, nothing
    is tested.
    """
    program, files = os.path.join(bench.folder,
                                  "sanitized"), [os.path.join(EXAMPLES, name) for name in ("stages.c", "driver.c")]
    archive, include = os.path.join(bench.library, "lib",
                                    "libnic82540em_explore.a"), os.path.join(bench.library, "include")
    status, _, errors = bench.run(bench.compiler, "-O1", "-fsanitize=address", "-I", include, "-o", program, *files,
                                  archive)
    if status:
        print(f"sanitized: not built: {errors.strip().splitlines()[-1]}")
        return
    status, out, errors = bench.run(program, "late", "--explore", "1")
    bench.check("sanitized: late", (status, "\n4.6 rxdone before read ICR\n" in out, errors), (FOUND, True, ""))
    status, out, errors = bench.run(program, "right", "--runs", "20")
    bench.check("sanitized: right", (status, "no run fails\n" in out, errors), (PASSES, True, ""))


def check_results(bench, stages, empty):
    counter, stopped, longer, looks = build_all(bench)
    unsaved(bench, counter)
    faults(bench, counter)
    handlers(bench, stopped, looks)
    as_json(bench, stages, longer)
    smaller(bench)
    seen(bench, stages)
    nothing(bench, empty)
    signals(bench, stages)
    words(bench, stages)
    lengths(bench, stages)
    sanitized(bench)
