"""Tests of the lab as a course: the hand-out, points, and the files for autograders."""

import json
import os
import shutil
import signal
import subprocess
import time

from harness import TOP, text_of

LAB = os.path.join(TOP, "examples", "lab")
SOLUTION = os.path.join(LAB, "solution.c")
PARTS = {"send": 15, "receive": 15, "send-races": 30, "receive-races": 30, "both": 10}
# The parts that find a bug of solution.c: 1 needs no race, 2 and 7 do
BUGS = {1: ["send", "send-races", "both"], 2: ["receive-races", "both"], 7: ["send-races", "both"]}
DRIVER = """#include "e1000.h"
#include <stdio.h>
#include <stdlib.h>
#include <unistd.h>
int e1000_transmit(struct e1000 *e1000, uint8_t *buffer, unsigned length)
{
    (void)e1000, (void)buffer, (void)length;
    %s
    return -1;
}
void e1000_recv(struct e1000 *e1000) { (void)e1000; }
void e1000_interrupt(struct e1000 *e1000) { (void)e1000; }
"""
# Drivers that have no points for sending: what they do, and what the student sees
FAULTY = {
    "_exit": ('puts("pass"); fflush(stdout); _exit(0);', "fail: "),
    "exit": ('puts("pass"); exit(0);', "fail: "),
    "endless": ("for (;;) ;", "it doesn't end in 10 seconds"),
    "fork": ("fork();", "fail: "),
    "null": ("*(volatile char *)0 = 0;", "fail: "),
    "syntax": ("return", "error:"),
}


def course(bench):
    """In the hand-out, each part of a solution has its points. No process remains, also not of a driver that deceives.
    """
    hand_out = os.path.join(bench.folder, "hand out")
    ran = bench.execute(os.path.join(LAB, "hand_out"), bench.library, hand_out)
    bench.check("lab: hand_out", ran, (0, "", ""))
    bench.check("lab: the solution isn't handed out", [name for _, _, names in os.walk(hand_out) for name in names
                                                       if "solution" in name], [])
    status, _, errors = bench.execute(os.path.join(LAB, "hand_out"), bench.library, hand_out)
    bench.check("lab: hand_out changes no folder", (status != 0, "File exists" in errors), (True, True))
    skeleton, _ = points(bench, hand_out, "driver.c", CFLAGS="-Wall -Wextra -Werror")
    bench.check("lab: the skeleton", skeleton, (1, {name: 0 for name in PARTS}, "0 of 100 points"))
    solution, _ = points(bench, hand_out, SOLUTION)
    bench.check("lab: the solution", solution, (0, PARTS, "100 of 100 points"))
    for number, failing in BUGS.items():
        (status, found, _), _ = points(bench, hand_out, SOLUTION, CFLAGS=f"-DWRONG={number}")
        bench.check(f"lab: bug {number}", (status, [name for name in PARTS if found.get(name) == 0]), (1, failing))
    pages = sorted(os.listdir(os.path.join(hand_out, "pages")))
    bench.check("lab: pages", {f"{name}.html" for name in BUGS[2]} <= set(pages), True)
    faulty(bench, hand_out)
    autograders(bench, hand_out)


def points(bench, folder, driver, *words, **env):
    """Runs `points` in a hand-out. Returns its status, the points of each part and the last line, and the output."""
    results = os.path.join(bench.folder, "results.json")
    line = [os.path.join(folder, "points"), "--json", results, "--pages", "pages", *words, "library", driver]
    status, out, errors = bench.execute(*line, folder=folder, env=env, limit=600)
    if errors:
        return (status, errors, ""), out
    with open(results, encoding="utf-8") as file:
        found = json.load(file)
    names = dict(zip(words[1::2] or PARTS, found["tests"]))
    bench.check("lab: the sum", found["score"], sum(one["score"] for one in found["tests"]))
    return (status, {name: one["score"] for name, one in names.items()}, out.splitlines()[-1]), out


def faulty(bench, folder):
    """A driver that loops, ends the test, or isn't compiled has no points, and no process of it remains."""
    for name, (text, told) in FAULTY.items():
        path = bench.put(f"{name}.c", (DRIVER % text).encode())
        (status, found, _), out = points(bench, folder, path, "--part", "send-races", TMPDIR=bench.folder)
        bench.check(f"lab: {name}", (status, found, told in out), (1, {"send-races": 0}, True))
    bench.check("lab: no process is left", left(bench.folder), [])
    process = subprocess.Popen([os.path.join(folder, "points"), "library", os.path.join(bench.folder, "endless.c")],
                               cwd=folder, stdout=subprocess.DEVNULL, env={**os.environ, "TMPDIR": bench.folder})
    time.sleep(3)
    process.send_signal(signal.SIGTERM)
    bench.check("lab: points ends by SIGTERM", (process.wait(60), left(bench.folder)), (143, []))
    for words in (["library"], ["library", "missing.c"], ["missing", SOLUTION], ["--part", "x", "library", SOLUTION],
                  ["--limit", "0", "library", SOLUTION]):
        status, out, errors = bench.execute(os.path.join(folder, "points"), *words, folder=folder)
        bench.check(f"lab: points {words}", (status, out, "usage:" in errors), (2, "", True))


def left(folder):
    """The numbers of processes whose programs were made in a folder."""
    found = []
    for number in filter(str.isdigit, os.listdir("/proc")):
        try:
            if os.readlink(f"/proc/{number}/exe").startswith(folder):
                found.append(number)
        except OSError:
            pass
    return found


def autograders(bench, folder):
    """The script for Gradescope writes its results, and the tests for GitHub Classroom are the parts of `points`."""
    top = os.path.join(bench.folder, "autograder")
    shutil.copytree(folder, os.path.join(top, "source", "lab"))
    os.makedirs(os.path.join(top, "submission"))
    script, results = os.path.join(LAB, "autograders", "gradescope", "run_autograder"), "results/results.json"
    for given, wanted in ((None, 0), ("driver.c", 0), (SOLUTION, 100)):
        if given:
            shutil.copy(os.path.join(folder, given), os.path.join(top, "submission", "driver.c"))
        status, _, _ = bench.execute(script, env={"AUTOGRADER": top}, limit=600)
        with open(os.path.join(top, results), encoding="utf-8") as file:
            bench.check(f"lab: Gradescope, {given}", (status, json.load(file)["score"]), (0, wanted))
    tests = json.loads(text_of(LAB, "autograders", "github", "autograding.json"))["tests"]
    bench.check("lab: GitHub's points", {one["name"]: one["points"] for one in tests}, PARTS)
    shutil.copy(SOLUTION, os.path.join(folder, "driver.c"))
    for one in tests:
        status, out, _ = bench.execute("sh", "-c", one["run"], folder=folder, limit=60 * one["timeout"])
        wanted = f"{one['points']} of {one['points']} points"
        bench.check(f"lab: GitHub, {one['name']}", (status, out.splitlines()[-1]), (0, wanted))
