"""Runs the tests in Python, C and Rust that docs/RACES.md shows: the commands of the page, and the faults that the
tests must find. Also tests the session of README.md.

If there is no compiler for a language, the module prints so, and doesn't count the checks of this language.
"""

import os
import re
import shutil
import subprocess

from harness import TOP
from race_finder import FOUND, PASSES, without_rate
from server import LIMIT
from server_pages import follow, read_page

HEADING = "| Language | File | Build | COMMAND |"
# The language whose COMMAND the sessions on the page run
SHOWN = "C"
# The sizes of the frames that arrive in a run, in bytes
SIZES = [60, 160, 260, 360] * 3


def section():
    """The section of docs/RACES.md that shows the tests: it is the first one."""
    return re.search(r"^# .*\n\n(## Test your own driver in five minutes\n.*?)^## ", read_page("docs", "RACES.md"),
                     re.M | re.S)[1]


def languages():
    """Yields the rows of the page's table: the language, and the commands that build and run its test."""
    table = re.search(rf"^{re.escape(HEADING)}\n\|[-|]+\n((?:\|.*\n)+)", section(), re.M)[1]
    for line in table.splitlines():
        language, _, build, command = (cell.strip().strip("`") for cell in line.strip("|").split("|"))
        yield language, build, command


def sessions(text):
    """Yields the commands of tools/races in a text, each with the output that is shown."""
    for block in re.findall(r"^```\n(\$ tools/races .*?)^```$", text, re.M | re.S):
        yield from re.findall(r"^\$ (.*)\n((?:(?!\$ ).*\n)*)", block, re.M)


def top_folder(server):
    """A folder in which the commands of the pages can run."""
    folder = server.path("top")
    os.makedirs(os.path.join(folder, ".build"))
    for name in ("tools", "examples", "finder"):
        os.symlink(os.path.join(TOP, name), os.path.join(folder, name))
    return folder


def run(folder, command):
    """Runs a command of a page. Returns its exit status, its output and its errors."""
    ran = subprocess.run(command, shell=True, cwd=folder, capture_output=True, timeout=5 * LIMIT)
    return ran.returncode, ran.stdout.decode(), ran.stderr.decode()


def builds(server, folder, language, build):
    """Builds a test, if it must be built. Returns False if there is no compiler, or no `cc`, by which rustc links."""
    missing = [name for name in (*build.split()[:1], "cc") if build and not shutil.which(name)]
    if missing:
        print(f"languages: there is no {missing[0]}, so the test in {language} isn't built and run")
    elif build:
        server.check(f"languages: {language} is compiled without a warning", run(folder, build), (0, "", ""))
    return not missing


def shown(server, folder, name, command, wanted):
    """A command prints what a page shows. Its exit status is 1 if the run fails, and otherwise 0."""
    status, out, errors = run(folder, command)
    fails = command.endswith(" wrong") or "at this place" in wanted
    server.check(f"languages: {name}: {command}", (follow(without_rate(out), without_rate(wanted)), status, errors),
                 (True, FOUND if fails else PASSES, ""))


def page(server, folder, language, command):
    """The sessions on the page, with the test in this language: the right driver passes, and the race of the wrong one
    is found.
    """
    there = next(command for name, _, command in languages() if name == SHOWN)
    server.check(f"languages: {language}: the sessions",
                 [(there in line, line.split()[-1]) for line, _ in sessions(section())],
                 [(True, "right"), (True, "wrong"), (True, "wrong"), (True, "right")])
    for line, wanted in sessions(section()):
        shown(server, folder, language, line.replace(there, command), wanted.replace(there, command))
    found = os.path.join("top", ".build", "found")
    deviations = [line for line in (server.get(found) or b"").splitlines() if not line.startswith(b"#")]
    server.check(f"languages: {language}: deviations", 1 <= len(deviations) <= 3, True)
    server.remove(found)


def ask(adapter, request):
    """Sends a request, and returns the lines up to its answer."""
    adapter.stdin.write(request)
    adapter.stdin.flush()
    lines = ""
    for line in adapter.stdout:
        lines += line
        if line.startswith(("OK", "ERR", "FAIL")):
            break
    return lines


def answer(adapter, request, frames, instead):
    """Passes a request on, and returns the lines for the test. In place of an arrival, passes on those of the frames in
    `instead`, by the number of the test's frame. Adds each frame of the test to `frames`.
    """
    if not request.startswith("arrive "):
        return ask(adapter, request)
    lines = "OK stored\n"
    for frame in instead.get(len(frames), [request.split()[1]]):
        lines = ask(adapter, f"arrive {frame}\n")
    frames.append(request.split()[1])
    return lines


def played(server, folder, command, instead):
    """Runs a test without tools/races. `instead` has the frames that arrive instead of a frame, by the frame's number.

    Returns the exit status, the errors and the frames of the test.
    """
    pipes, frames = {"stdin": subprocess.PIPE, "stdout": subprocess.PIPE, "text": True}, []
    with subprocess.Popen([server.program, "serve"], **pipes) as adapter, \
            subprocess.Popen(command.split(), cwd=folder, stderr=subprocess.PIPE, **pipes) as test:
        for request in test.stdout:
            test.stdin.write(answer(adapter, request, frames, instead))
            test.stdin.flush()
        _, errors = test.communicate()
        adapter.communicate()
    return test.returncode, errors, frames


def faults(server, folder, language, command):
    """A test fails if a frame is lost, doubled, reordered or changed, or isn't stored."""
    status, errors, frames = played(server, folder, f"{command} right", {})
    server.check(f"languages: {language} passes alone", (status, errors), (0, ""))
    server.check(f"languages: {language}: its frames", [len(frame) // 2 for frame in frames], SIZES)
    server.check(f"languages: {language}: its frames differ", len(set(frames)), len(SIZES))
    last = len(SIZES) - 1
    for name, instead, wanted in [
        ("lost", {3: []}, "frame 3 was never received"),
        ("lost at the end", {last: []}, f"frame {last} was never received"),
        ("doubled", {3: [frames[3]] * 2}, "other bytes were received instead of frame 4"),
        ("doubled at the end", {last: [frames[last]] * 2}, f"other bytes were received instead of frame {last + 1}"),
        ("reordered", {2: [frames[3]], 3: [frames[2]]}, "other bytes were received instead of frame 2"),
        ("changed", {3: [frames[3][:-1] + "f"]}, "other bytes were received instead of frame 3"),
        ("shorter", {3: [frames[3][:-2]]}, "other bytes were received instead of frame 3"),
        ("longer", {3: [frames[3] + "03"]}, "other bytes were received instead of frame 3"),
        ("illegal", {3: ["00"]}, "frame 3 wasn't stored"),
    ]:
        server.check(f"languages: {language}, a frame is {name}",
                     played(server, folder, f"{command} right", instead)[:2], (1, f"{wanted}\n"))


def ends(server, folder, language, command):
    """A test fails with a message if a request is rejected, if the server ends, or if its words name no driver."""
    name = "receive_test.py" if language == "Python" else "receive_test"
    usage = f"usage: {name} right|wrong\n"
    for given, words, wanted in [("ERR value\n", "right", "the server answers ERR value\n"),
                                 ("FAIL unknown\n", "right", "the server answers FAIL unknown\n"),
                                 ("", "right", "the server has ended\n"), ("", "", usage), ("", "left", usage),
                                 ("", "right wrong", usage)]:
        ran = subprocess.run([*command.split(), *words.split()], cwd=folder, input=given.encode(), capture_output=True,
                             timeout=LIMIT)
        server.check(f"languages: {language}, {words!r} with {given!r}", (ran.returncode, ran.stderr.decode()),
                     (1, wanted))


def all_cases(server):
    folder, rows = top_folder(server), list(languages())
    server.check("languages: those on the page", [row[0] for row in rows], ["Python", "C", "Rust"])
    for language, build, command in rows:
        if builds(server, folder, language, build):
            for part in (page, faults, ends):
                part(server, folder, language, command)
    found = list(sessions(read_page("README.md")))
    server.check("languages: the README has a session", len(found), 1)
    for line, wanted in found:
        shown(server, folder, "README", line, wanted)
