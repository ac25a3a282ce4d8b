"""tools/races and `nicbench serve` play the same schedule alike: `serve --schedule`, and `serve --record`.

A test runs with nothing between it and the server, and under tools/races. The test stores all answers that it reads,
and its exit status.
"""

import os
import re
import subprocess
import sys

from harness import DRIVERS
from race_finder import replay
from server import LIMIT

# Sends `interleave 3`, and runs a script with arguments. Stores in the file argv[1] each line that is read, and the
# exit status, or the text with which the script exits. The script sends no `mark`, which only tools/races takes.
STORED = """
import os, runpy, sys
os.environ.pop("NIC_MARKS", None)
stored = open(sys.argv[1], "wb", buffering=0)

class Reader:
    def __init__(self, stream):
        self.stream = stream

    def readline(self, *size):
        line = self.stream.readline(*size)
        stored.write(line)
        return line

    def __iter__(self):
        return iter(self.readline, b"")

    def __getattr__(self, name):
        return getattr(self.stream, name)

class Input:
    buffer = Reader(sys.stdin.buffer)

# tools/races, and a server that plays a schedule, answer OK and play no random steps
sys.stdout.buffer.write(b"interleave 3\\n")
sys.stdout.buffer.flush()
Input.buffer.readline()
sys.stdin, sys.argv = Input, sys.argv[2:]
sys.path.insert(0, os.path.dirname(sys.argv[0]))
status = 0
try:
    runpy.run_path(sys.argv[0], run_name="__main__")
except SystemExit as error:
    status = error.code or 0
stored.write(f"exit status {status}\\n".encode())
stored.close()
sys.exit(status)
"""


def command_of(server, test):
    """The command that runs a test and stores what it reads in the file `stored`."""
    return [sys.executable, "-S", "-E", server.path("stored.py"), server.path("stored"), os.path.join(DRIVERS, test[0]),
            *test[1:]]


def taken(server):
    """Returns what a test has stored up to its request `reset`, and removes the file. A server refuses this request."""
    stored = server.get("stored") or b""
    server.remove("stored")
    return re.sub(rb"(FAIL unknown\n)?exit status .*\n\Z", b"", stored)


def direct(server, command, *words):
    """Runs a test at a server with nothing between. Returns what the test stored, and the exit status and the errors of
    the server.
    """
    requests, answers = os.pipe(), os.pipe()
    with subprocess.Popen([server.program, "serve", *words], cwd=server.folder, stdin=requests[0], stdout=answers[1],
                          stderr=subprocess.PIPE) as adapter:
        with subprocess.Popen(command, cwd=server.folder, stdin=answers[0], stdout=requests[1],
                              stderr=subprocess.DEVNULL) as test:
            for file in (*requests, *answers):
                os.close(file)
            test.wait(LIMIT)
        errors = adapter.stderr.read()
    return taken(server), adapter.returncode, errors


def by_races(server, path, command):
    """Replays a schedule by tools/races. Returns what the test stored, reports of other accesses, and the errors."""
    text = server.get(path).decode()
    _, out, errors = replay(server, text, command=command)
    return taken(server), re.findall("makes another", out), errors


def plays_alike(server, name, path, command):
    """tools/races and the server play a schedule alike. Returns what the test stored under tools/races."""
    told, lacks, errors = by_races(server, path, command)
    server.check(f"alike: {name}: it is played", (lacks, errors, told is not None), ([], "", True))
    got, status, errors = direct(server, command, "--schedule", path)
    server.check(f"alike: {name}: the server's status", (status, errors), (0, b""))
    server.check(f"alike: {name}: what the test was told", first_difference(told, got), None)
    return told


def first_difference(one, other):
    """The number of the first line that differs, from 0, and both lines; None if the bytes are the same."""
    pairs = [(one or b"").splitlines(), (other or b"").splitlines()]
    at = next((at for at, (left, right) in enumerate(zip(*pairs)) if left != right), min(map(len, pairs)))
    return None if one == other else (at, pairs[0][at:at + 1], pairs[1][at:at + 1])


def recorded(server):
    """What a server records with random steps is played alike by tools/races and by a server."""
    for test in (["exchange_test.py", "right"], ["exchange_test.py", "late"], ["staged_test.py", "stages", "late"],
                 ["staged_test.py", "offers", "right"]):
        command, name, lengths = command_of(server, test), " ".join(test), set()
        for seed in ("1", "24", "77"):
            told, status, errors = direct(server, command, "--record", "recorded", "--seed", seed)
            server.check(f"alike: {name}, seed {seed} is recorded", (status, errors), (0, b""))
            again = plays_alike(server, f"{name}, seed {seed}, recorded", "recorded", command)
            server.check(f"alike: {name}, seed {seed}, recorded: as in the run", first_difference(told, again), None)
            lengths.add(len(server.get("recorded") or b""))
        server.check(f"alike: {name}: seeds record different schedules", len(lengths), 3)


def all_cases(server):
    server.put("stored.py", STORED.encode())
    recorded(server)
