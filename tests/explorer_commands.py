"""Tests tools/races itself.

The same test has the same results in process and over pipes, in each language, and with each number of jobs. What a
COMMAND does wrong has a sentence and a status, and no process remains. tests/explore.py runs these parts.
"""

import json
import os
import re
import shutil
import signal
import subprocess
import sys
import time

from harness import TOP

PASSES, FOUND, USAGE, NOT_RUN, NOTHING = range(5)
RACES = os.path.join(TOP, "tools", "races")
DRIVERS = os.path.join(TOP, "examples", "drivers")
# Searches of polled.c, which are the same in process and over pipes
SEARCHES = ("--explore 1", "--explore 2 --all", "--explore 1 --holds", "--runs 60 --all", "--runs 60 --all --holds",
            "--runs 60 --all --pct 2", "--runs 60 --all --pct 3")
# For bugs of stages.c: options, and the first schedule of one deviation that fails (tests/explore.py)
BUGS = {"late": ("", "4.6 rxdone before read ICR"), "length": ("", "4.8 rxdone before read rx[1]+12"),
        "rdt": ("", "58.5 rxdata before write rx[2]"), "tdt": ("", "63.3 txtake before write tx[0]"),
        "masks-late": ("", "4.7 rxdone before read ICR"), "eerd": ("--holds", "0.5 hold eeprom before read EERD"),
        "cuts:cuts": ("", "2.1 rxdone before write 0x20000"), "offers:rxo": ("", "39.3 arrive before write ICR")}
SMALLEST = "3.6 rx before read ICR"
# What a COMMAND does, its options, and the status and the fault, or the error, of the search
ENDS = {
    "fails": ("echo settle; read a; echo one >&2; echo 'the last' >&2; exit 3", FOUND, "exit status 3: the last"),
    "is ended": ("echo settle; read a; kill -SEGV $$", FOUND, "ended by SIGSEGV"),
    "hangs": ("echo settle; read a; sleep 1000", FOUND, "it doesn't end in 1 second"),
    "ignores SIGTERM": ("trap '' TERM; echo settle; read a; while :; do sleep 1; done", FOUND,
                        "it doesn't end in 1 second"),
    "closes its output": ("echo settle; read a; exec >&-; sleep 1000", FOUND, "it doesn't end in 1 second"),
    "closes its input": ("exec <&-; echo settle; exit 0", NOTHING, None),
    "ends no line": ("printf settle; sleep 1000", FOUND, "it doesn't end in 1 second"),
    "ends at its last line": ("printf settle", NOTHING, None),
    "writes an endless line": ("yes | tr -d '\\n'", FOUND, "it writes a line of more than 262144 bytes"),
    "floods its errors": ("yes error >&2", FOUND, "it doesn't end in 1 second"),
    "starts children": ("setsid sleep 1000 & sleep 1000 & echo settle; read a; exit 0", NOTHING, None),
    "sends nothing": ("true", NOTHING, None),
    "prints zeros": ("head -c 100000 /dev/zero; echo; read a; exit 4", FOUND, "exit status 4"),
}
# A COMMAND in Python. A frame is lost if it is finished between the last look and the read of ICR. A process plays many
# runs, and appends its number to the file PIDS. With `keeps`, a run fails if earlier ones were played here.
SMALL = """
import os, sys
def ask(request):
    print(request, flush=True)
    for line in sys.stdin:
        word, *rest = line.split()
        if word in ("OK", "ERR", "FAIL"):
            return rest[0] if rest else word
    sys.exit(3)
def read(request): return int(ask(request), 16)
def run(wrong):
    ask("events on")
    for slot in range(3):
        ask(f"write {0x1000 + 16 * slot:#x} 16 0x{(0x10000 + 2048 * slot).to_bytes(8, 'little').hex()}{'00' * 8}")
    for offset, value in ((0x2800, 0x1000), (0x2808, 128), (0x2818, 3), (0x100, 0x8002), (0xD0, 0x80)):
        ask(f"writel {0xFEB00000 + offset:#x} {value:#x}")
    frame, got = "arrive " + "ff" * 6 + "00" * 54, 0
    for request in (frame, "step rxdata", "step rxdone", frame):
        ask(request)
    if not wrong: read("readl 0xFEB000C0")
    while read(f"read {0x100C + 16 * got:#x} 1") & 1: got += 1
    if wrong: read("readl 0xFEB000C0")
    ask("settle")
    if read("readl 0xFEB000C0") & 0x80:
        while read(f"read {0x100C + 16 * got:#x} 1") & 1: got += 1
    return "lost" if got < 2 else None
with open(sys.argv[2], "a") as pids:
    pids.write(f"{os.getpid()}\\n")
runs = 0
while True:
    fault = run(sys.argv[1] == "wrong")
    if sys.argv[1] == "keeps" and runs > 4: fault = "played before"
    runs += 1
    if fault: print(fault, file=sys.stderr, flush=True)
    print("reset", int(bool(fault)), flush=True)
    if sys.stdin.readline() != "OK\\n": sys.exit(bool(fault))
"""


def races(bench, *words, **more):
    """Runs tools/races with the library that is tested. Returns its exit status, its output and its errors."""
    return bench.run(RACES, *words, env={"RACES_LIBRARY": bench.library}, **more)


def result_of(bench, *words):
    """The JSON object of a search without what differs between two forms of one test."""
    result = json.loads(bench.run(*words)[1] if words[0] != RACES else races(bench, *words[1:])[1])
    result["fault"] = (result["fault"] or "").removeprefix("exit status 1: ")
    for one in result["search"].get("failed", []):
        one["fault"] = one["fault"].removeprefix("exit status 1: ")
    result["search"].pop("states")
    return {key: result[key] for key in ("result", "seed", "fault", "schedule", "runs", "search")}


def receive(bench):
    """Compiles the example in C. Returns the path of the program."""
    out = os.path.join(bench.folder, "receive_c")
    words = [bench.compiler, "-o", out, os.path.join(DRIVERS, "receive_test.c")]
    bench.check("the example is compiled", bench.run(*words)[0], 0)
    return out


def commands(bench):
    """A test over pipes has the schedules, the results and the log that it has in process."""
    polled = bench.build("polled", os.path.join(TOP, "tests", "explorer", "polled.c"))
    for name in ("right", "wrong", "offers"):
        for search in SEARCHES:
            words = [*search.split(), "--json"]
            here = result_of(bench, polled, name, *words, "--again")
            there = result_of(bench, RACES, *words, "--", polled, name, "--pipe")
            bench.check(f"commands: {name} {search}", there, here)
        log = [bench.run(polled, name, "--replay", "/dev/null", "--log"),
               races(bench, "--replay", "/dev/null", "--log", "--", polled, name, "--pipe")]
        bench.check(f"commands: the log of {name}", log[1], log[0])
    for name, (options, deviation) in BUGS.items():
        result = json.loads(races(bench, "--explore", "1", *options.split(), "--json", "--", bench.stages, name,
                                  "--pipe")[1])
        bench.check(f"commands: {name}", result["schedule"], [deviation])


def languages(bench):
    """The example has the same results in each language, for each seed."""
    tests = {"C": [receive(bench)], "Python": [sys.executable, "-S", os.path.join(DRIVERS, "receive_test.py")]}
    if shutil.which("rustc"):
        tests["Rust"] = [os.path.join(bench.folder, "receive_rust")]
        words = ["rustc", "-o", *tests["Rust"], os.path.join(DRIVERS, "receive_test.rs")]
        bench.check("languages: Rust is compiled", bench.run(*words)[0], 0)
    else:
        print("languages: there is no rustc, so the test in Rust isn't run")
    for search in ("--runs 60 --all", "--explore 1 --all", "--seed 7"):
        results = {language: result_of(bench, RACES, *search.split(), "--json", "--", *test, "wrong")
                   for language, test in tests.items()}
        bench.check(f"languages: {search}: the smallest", results["C"]["schedule"], [SMALLEST])
        for language, result in results.items():
            bench.check(f"languages: {search}: {language}", result, results["C"])
    for language, test in tests.items():
        bench.check(f"languages: right in {language}", races(bench, "--runs", "100", "--", *test, "right")[::2],
                    (PASSES, ""))


def jobs(bench):
    """The number of jobs changes no result."""
    test = [receive(bench), "wrong"]
    for search in ("--runs 50 --all", "--explore 1 --all", "--explore 1", "--seed 2 --pct 2", "--explore 2"):
        out = [re.sub(r"\d+ a second", "", races(bench, *search.split(), "--jobs", str(count), "--", *test)[1])
               for count in (1, 2, 3, 7)]
        bench.check(f"jobs: {search}", (out[1:], SMALLEST in out[0]), (out[:1] * 3, True))
    small = [sys.executable, "-S", bench.source("small.py", SMALL), "right", os.path.join(bench.folder, "pids")]
    for depth in ("2", "every"):
        out = [races(bench, "--memory", "0x20000", "--explore", depth, "--jobs", str(count), "--", *small)[1]
               for count in (1, 4)]
        found = [re.search(r": none of (\d+) fails\n", text)[1] for text in out]
        bench.check(f"jobs: known states, {depth}", found[1], found[0])
        bench.check(f"jobs: known states, {depth}: more than one", int(found[0]) > 40, True)


def shrinks(bench):
    """A schedule that another program has recorded is made smaller."""
    test = [receive(bench), "wrong"]
    recorded = bench.source("recorded.txt", "# recorded\noptions --missed 0\n3.4 rxdata before write RDT\n"
                                            "3.6 rxdone before read ICR\n7.6 rx before read ICR\n")
    status, out, errors = races(bench, "--shrink", recorded, "--", *test)
    got = status, "2 deviations: exit status 1: frame 1" in out, f"\n{SMALLEST}\n" in out, errors
    bench.check("shrinks: a race", got, (FOUND, True, True, ""))
    bench.check("shrinks: none", races(bench, "--shrink", "/dev/null", "--", *test),
                (PASSES, "The test passes.\n", ""))
    far = bench.source("far.txt", "999.1 rx before read ICR\n")
    bench.check("shrinks: too far", races(bench, "--shrink", far, "--", *test),
                (USAGE, "", f"races: {far}: line 1: the run doesn't reach this place\n"))


def resets(bench):
    """A COMMAND that asks for its next run by `reset` plays many runs in a process, and one from nothing at the end."""
    small, pids = bench.source("small.py", SMALL), os.path.join(bench.folder, "pids")
    race = FOUND, "fails", ["4.3 rx before read ICR"]
    for name, wanted, most in (("right", (PASSES, "passes", []), 4), ("wrong", race, 30),
                               ("keeps", (FOUND, "unrepeatable", []), 30)):
        if os.path.exists(pids):
            os.remove(pids)
        status, out, errors = races(bench, "--runs", "40", "--jobs", "1", "--json", "--", sys.executable, "-S", small,
                                    name, pids)
        result = json.loads(out)
        with open(pids) as file:
            count = len(file.readlines())
        got = status, result["result"], result["schedule"] if name != "keeps" else []
        bench.check(f"resets: {name}", (got, errors, count <= most), (wanted, "", True))


def is_left(mark):
    """Whether a process has this word in its environment."""
    for pid in filter(str.isdigit, os.listdir("/proc")):
        try:
            with open(f"/proc/{pid}/environ", "rb") as file:
                if mark.encode() in file.read().split(b"\0"):
                    return True
        except OSError:
            continue
    return False


def ended_commands(bench):
    """What a COMMAND does wrong has a sentence and a status, and no process remains."""
    for number, (name, (script, wanted, fault)) in enumerate(ENDS.items()):
        mark = f"RACES_MARK={os.getpid()}.{number}"
        key, _, value = mark.partition("=")
        words = "--seconds", "1", "--runs", "4", "--jobs", "2", "--json", "--", "sh", "-c", script
        status, out, errors = bench.run(RACES, *words, env={"RACES_LIBRARY": bench.library, key: value})
        bench.check(f"ended commands: {name}", (status, json.loads(out)["fault"], errors), (wanted, fault, ""))
        bench.check(f"ended commands: {name}: none is left", is_left(mark), False)
    bench.check("ended commands: none", races(bench, "--", "./nonesuch"),
                (NOT_RUN, "", "races: ./nonesuch: No such file or directory\n"))
    script = bench.source("other.sh", "echo events on; read a; echo \"writel 0xFEB02800 0x$$\"; read a\n")
    status, out, _ = races(bench, "--", "sh", script)
    sends = r"sends `writel 0xFEB02800 0x\d+`"
    wanted = rf"after 0\.0, COMMAND {sends} in the first run, and {sends} then\na second run isn't as the first one"
    bench.check("ended commands: another line each time", (status, bool(re.match(wanted, out))), (NOT_RUN, True))


def stopped_commands(bench):
    """A signal ends a search and its processes, and the result of the runs so far is printed."""
    test = [receive(bench), "right"]
    for number in (signal.SIGINT, signal.SIGTERM, signal.SIGHUP):
        for search in ("--runs 1000000", "--explore 4"):
            key, value = "RACES_MARK", f"{os.getpid()}.{number}.{search.replace(' ', '')}"
            ran = subprocess.Popen([RACES, *search.split(), "--", *test], stdout=subprocess.PIPE,
                                   stderr=subprocess.STDOUT, text=True,
                                   env={**os.environ, "RACES_LIBRARY": bench.library, key: value})
            time.sleep(2)
            ran.send_signal(number)
            out = ran.communicate(timeout=20)[0]
            wanted = f"ended by {signal.Signals(number).name}"
            bench.check(f"stopped commands: {search}, {wanted}", (ran.returncode, wanted in out, "fails" in out),
                        (128 + number, True, True))
            bench.check(f"stopped commands: {search}, {wanted}: none is left", is_left(f"{key}={value}"), False)
    key, value = "RACES_MARK", f"{os.getpid()}.killed"
    ran = subprocess.Popen([RACES, "--runs", "1000000", "--", *test], stdout=subprocess.DEVNULL,
                           env={**os.environ, "RACES_LIBRARY": bench.library, key: value})
    time.sleep(2)
    ran.kill()
    ran.wait()
    time.sleep(1)
    bench.check("stopped commands: killed: none is left", is_left(f"{key}={value}"), False)


def refused_words(bench):
    """Words that are gone say what to use. The options of the adapter are those of `serve`."""
    for word, part in (("--by-name", "serve --schedule"), ("--shard", "--seed"),
                       ("--options", "--rxa 2"), ("--server", "serve"), ("--fly", "there is no such option"),
                       ("--jobs", "a number from 1 to 64"), ("--rxa", "even number"), ("--memory", "number")):
        status, out, errors = races(bench, word, "3" if word == "--rxa" else "some", "--", "true")
        bench.check(f"refused words: {word}", (status, out, errors.startswith(f"races: {word}: "), part in errors),
                    (USAGE, "", True, True))
    bench.check("refused words: no COMMAND", races(bench, "--runs", "3"),
                (USAGE, "", "races: --: COMMAND is missing\nFor more information, try '--help'.\n"))
    test = [receive(bench), "right"]
    path = bench.source("options.txt", "# a comment\noptions --missed 5 --rxa 2\n")
    for words in (["--rxa", "2"], ["--replay", path]):
        bench.check(f"refused words: {words[0]} is taken", races(bench, *words, "--memory", "0x40000", "--", *test)[0],
                    PASSES)
