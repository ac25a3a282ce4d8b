#!/usr/bin/env python3
"""Runs the driver on QEMU's e1000: joins `nicbench drive` with QEMU, and checks every frame.

usage: qemu.py [--on qemu|serve] [--nicbench PROGRAM] [--qemu PROGRAM] [--frames N] [--seed N] [--log FILE]

The driver sends N frames of 60 to 1,518 bytes, drawn by the seed, while N other frames arrive. The exit status is 1 if
the driver's program or the emulator fails. It is also 1 if a frame is lost, changed or out of order on either way. It
is 2 if the emulator isn't installed, or a file can't be opened. With `--on serve` the adapter is that of `nicbench
serve`, which takes random steps before each access.
"""

import argparse
import os
import random
import shlex
import subprocess
import sys
import tempfile
import time
from collections import deque
from contextlib import ExitStack, closing

sys.dont_write_bytecode = True
HERE = os.path.dirname(os.path.abspath(__file__))
sys.path.insert(0, HERE)

from emulators import ICR, Ended, Missing, Qemu, Serve  # noqa: E402
from qemu_clock import StoodStill  # noqa: E402
from traces import read_trace, write_trace  # noqa: E402

PROGRAM = os.path.join(HERE, "..", "..", "nicbench")
# The most random steps of the adapter of `nicbench serve` before an access
STEPS = 3


class Wire:
    """The frames that arrive at the adapter, and those that it has sent."""

    def __init__(self, arriving):
        self.left = deque(arriving)
        self.sent = []

    def note(self, lines):
        self.sent += [bytes.fromhex(line[6:]) for line in lines if line.startswith("frame ")]


def drawn(seed, count):
    """Yields drawn frames of 60 to 1,518 bytes."""
    draw = random.Random(seed)
    for number in range(count):
        size = draw.choice([60, 61, 256, 257, 1517, 1518, draw.randint(60, 1518)])
        yield bytes.fromhex("0200000000010200000000090800") + number.to_bytes(4, "big") + draw.randbytes(size - 18)


def drive(program, words, emulator, wire, log=None):
    """Runs `nicbench drive` with these words. Its requests go to the emulator, and the answers back. Before each read
    of ICR, frames arrive. Returns its exit status, its standard error and the number of its requests.
    """
    words = shlex.split(program) + ["drive", "--registers", hex(emulator.registers), "--memory", str(emulator.memory),
                                    *words]
    driver = subprocess.Popen(words, stdin=subprocess.PIPE, stdout=subprocess.PIPE, stderr=subprocess.PIPE, bufsize=0)
    asks = f"readl {emulator.registers + ICR:#018x}\n"
    count = 0
    with os.fdopen(os.dup(driver.stdout.fileno()), encoding="ascii") as requests:
        for count, request in enumerate(requests, 1):
            told = emulator.deliver(wire.left) if request == asks else []
            answer, more = emulator.ask(request.rstrip("\n"))
            lines = [*told, *more, answer]
            wire.note(lines)
            if log:
                log.write(request + "".join(f"    {line:.200}\n" for line in lines))
            try:
                driver.stdin.write("".join(f"{line}\n" for line in lines).encode())
            except BrokenPipeError:
                break
    wire.note(emulator.work())
    _, errors = driver.communicate()
    return driver.returncode, errors.decode(), count


def check(name, wanted, got):
    """Prints and returns whether `got` are the wanted frames, in order."""
    if got == wanted:
        print(f"{name}: {len(got)} frames, none lost, changed or out of order")
        return True
    first = next((at for at, pair in enumerate(zip(wanted, got)) if pair[0] != pair[1]), min(len(wanted), len(got)))
    print(f"{name}: {len(got)} frames of {len(wanted)}; the first that differs is frame {first}")
    return False


def arguments():
    parser = argparse.ArgumentParser(description="Runs `nicbench drive` on QEMU's e1000, and checks every frame.")
    parser.add_argument("--on", choices=["qemu", "serve"], default="qemu", help="the adapter")
    parser.add_argument("--nicbench", default=PROGRAM, metavar="PROGRAM")
    parser.add_argument("--qemu", default="qemu-system-x86_64", metavar="PROGRAM")
    parser.add_argument("--frames", type=int, default=10_000, metavar="N", help="the number of frames each way")
    parser.add_argument("--seed", type=int, default=1, metavar="N")
    parser.add_argument("--log", metavar="FILE", help="writes each request and the lines up to its answer to this file")
    return parser.parse_args()


def run(words, folder):
    """Runs the driver, and checks what it did. Returns whether all was right."""
    to_send, arriving = (list(drawn(seed, words.frames)) for seed in (2 * words.seed, 2 * words.seed + 1))
    sent, received = (os.path.join(folder, name) for name in ("send.pcap", "receive.pcap"))
    write_trace(sent, to_send)
    wire = Wire(arriving)
    begun = time.monotonic()
    with ExitStack() as stack:
        log = stack.enter_context(open(words.log, "w", encoding="ascii")) if words.log else None
        emulator = stack.enter_context(closing(Qemu(words.qemu) if words.on == "qemu" else
                                               Serve(words.nicbench, words.seed, STEPS)))
        status, errors, count = drive(words.nicbench,
                                      ["--send", sent, "--receive", received, "--expect", str(words.frames)], emulator,
                                      wire, log)
    print(f"{words.on}: {count} requests in {time.monotonic() - begun:.1f} s; the driver's program: "
          f"{errors.strip() or 'nothing'}")
    if status:
        print(f"the driver's program ended with status {status}")
        return False
    return all([check("sent", to_send, wire.sent), check("received", arriving, read_trace(received))])


def main():
    words = arguments()
    try:
        with tempfile.TemporaryDirectory() as folder:
            return 0 if run(words, folder) else 1
    except (Ended, StoodStill) as error:
        print(f"qemu.py: {error}", file=sys.stderr)
        return 1
    except Missing as error:
        print(f"qemu.py: {error}", file=sys.stderr)
    except OSError as error:
        print(f"qemu.py: {error.filename}: {error.strerror}", file=sys.stderr)
    return 2


if __name__ == "__main__":
    sys.exit(main())
