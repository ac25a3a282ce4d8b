"""Tests the script ./test with parts that are short scripts: what `./test --quick` prints, and that nothing is left."""

import os
import re
import shutil
import signal
import subprocess
import time

from harness import TOP, text_of

# The scripts of the parts of `./test --quick`, in the order of the parts
PARTS = ["build", "library.py", "run", "serve", "explore.py", "amalgamation", "release", "readme_code", "python_code",
         "pages", "twin_clauses"]
# A part: it stores its words, and prints a file, if there is one for it. With another file it never ends.
PART = """#!/bin/sh
echo "$(basename "$0") $*" >>calls
[ -e "slow-$(basename "$0")" ] && { echo $$ >"pid-$(basename "$0")"; sleep 1000; }
cat "out-$(basename "$0")" 2>/dev/null || echo "1 passed, 0 failed"
! [ -e "fails-$(basename "$0")" ]
"""


def put_gate(tree):
    """A repository with the script, in which all parts are our scripts. Returns its folder."""
    top = tree.path("gate")
    shutil.rmtree(top, ignore_errors=True)
    os.makedirs(os.path.join(top, "tests"))
    shutil.copy(os.path.join(TOP, "test"), top)
    for name in (*PARTS, "packages"):
        tree.put_script(f"gate/tests/{name}", PART)
    tree.put("gate/out-packages", b"packages\n")
    return top


def ran(tree, *words):
    """Runs the script. Returns its status, its lines, and the calls of parts."""
    tree.put("gate/calls", b"")
    done = subprocess.run([tree.path("gate/test"), *words], env={**os.environ, "RT": "true"}, capture_output=True,
                          text=True, timeout=120, check=False)
    tree.check(f"gate: errors of {words}", done.stderr, "")
    return done.returncode, done.stdout.splitlines(), text_of(tree.path("gate/calls")).splitlines()


def gate(tree):
    """The parts are printed in order, with their results and times, also those that began before.
    """
    put_gate(tree)
    status, lines, calls = ran(tree, "--quick")
    tree.check("gate: its beginning", lines[:2],
               [f"{len(PARTS)} parts, about five minutes on four idle processors", "packages"])
    ends = [re.fullmatch(rf"== part (\d+) of {len(PARTS)}: .*: (\d+) passed, (\d+) failed, 0 min \d+ s", line)
            for line in lines]
    numbers = [found.groups() for found in ends if found]
    tree.check("gate: its parts", numbers, 2 * [(str(part + 1), "1", "0") for part in range(len(PARTS))])
    tree.check("gate: its end", (status, re.sub(r"\d+ s", "N s", lines[-2]), lines[-1]),
               (0, f"{len(PARTS)} parts: 0 min N s", f"{len(PARTS)} passed, 0 failed"))
    names = [call.split()[0] for call in calls]
    tree.check("gate: what ran", sorted(names), sorted([*PARTS, "packages"]))
    tree.check("gate: those that need others run in order", [name for name in names if name in PARTS[:5]], PARTS[:5])
    tree.check("gate: its words", [call for call in calls if call.split()[0] in ("packages", "build")],
               ["packages --quick", "build --quick-program .build/quick-program/nicbench --take"])
    for name in ("pages", "run"):
        others = len(PARTS) - 1
        for file, text, wanted in [("out", b"2 passed, 3 failed\n", (others + 2, 3)),
                                   ("out", b"nothing\n", (others, 1)), ("fails", b"", (others, 1))]:
            tree.put(f"gate/{file}-{name}", text)
            status, lines, _ = ran(tree, "--quick")
            tree.check(f"gate: {name}: {text!r}", (status, lines[-1]), (1, "{} passed, {} failed".format(*wanted)))
            os.remove(tree.path(f"gate/{file}-{name}"))
    done = subprocess.run([tree.path("gate/test"), "--slow"], capture_output=True, text=True, check=False)
    tree.check("gate: other words", (done.returncode, done.stdout, done.stderr),
               (2, "", "usage: ./test [--quick | --dist | --help]\n"))
    for word in ("--help", "-h"):
        status, said, errors = tree.execute(tree.path("gate/test"), word)
        tree.check(f"./test {word}", (status, said.startswith("usage: ./test ["), "exit status is 1" in said, errors),
                   (0, True, True, ""))


def gate_ended(tree):
    """After a signal, no part is left: neither the one that runs, nor one that has begun before its turn."""
    top = put_gate(tree)
    tree.put("gate/slow-pages", b"")
    tree.put("gate/slow-serve", b"")
    with subprocess.Popen([os.path.join(top, "test"), "--quick"], start_new_session=True,
                          stdout=subprocess.DEVNULL, stderr=subprocess.DEVNULL,
                          env={**os.environ, "RT": "true"}) as script:
        for name in ("pages", "serve"):
            for _ in range(6000):
                if (tree.get(f"gate/pid-{name}") or b"").endswith(b"\n"):
                    break
                time.sleep(0.01)
        os.killpg(script.pid, signal.SIGTERM)
        status = script.wait(60)
    left = [name for name in ("pages", "serve") if is_running(int(tree.get(f"gate/pid-{name}") or 0))]
    tree.check("gate: after SIGTERM", (status in (143, -15), left), (True, []))


def packages(tree):
    """The table of Debian packages has all programs for which tests look."""
    done = subprocess.run([os.path.join(TOP, "tests", "packages"), "--check"], capture_output=True, text=True,
                          check=False)
    tree.check("gate: the packages", (done.returncode, re.sub(r"^\d+ passed", "N passed", done.stdout), done.stderr),
               (0, "N passed, 0 failed\n", ""))
    for words, last in ([], 0), (["--quick"], 0), (["--fly"], 1):
        done = subprocess.run([os.path.join(TOP, "tests", "packages"), *words], capture_output=True, text=True,
                              check=False)
        tree.check(f"gate: the packages, {words}", done.returncode, last)


def is_running(number):
    """Whether a process is there after a while, and isn't a zombie."""
    for _ in range(500):
        try:
            with open(f"/proc/{number}/stat", encoding="ascii") as file:
                if file.read().rpartition(")")[2].split()[0] == "Z":
                    return False
        except OSError:
            return False
        time.sleep(0.01)
    return True
