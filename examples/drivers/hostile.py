#!/usr/bin/env python3
"""Drives the adapter as badly as it can, and compares memory after each request with what it must contain.

usage: hostile.py PROGRAM [--seed N] [--steps N] [--memory BYTES] [--limit SECONDS] [--counts]

PROGRAM is `nicbench`. Each seed is a run with a new server. In a run, registers, descriptors and other bytes in memory
are written at random, frames arrive, and the adapter takes steps. A seed always makes the same requests. Without
--seed, the seeds are 1, 2, 3 and so on, until Ctrl-C.

After each request, the script reads all of memory. A run fails if the server rejects a request, or if an answer takes
too long. It also fails if memory, a head, an outcome, a frame or the reason of a fault isn't as docs/ADAPTER.md and
docs/REQUESTS.md define it. Then the script prints the seed, the error and the log. "Finding a race" in docs/SERVE.md
describes how to replay a log; start the server with the same --memory.

The exit status is 0 if no run failed, 1 if a run failed, and 2 if an argument is invalid or PROGRAM can't run.
"""

import argparse
import signal
import subprocess
import sys
from collections import Counter

sys.dont_write_bytecode = True
from adapter import Adapter, Refused  # noqa: E402
from expected import Expected, Found, Told, shown  # noqa: E402
from random_requests import RandomRequests, Words  # noqa: E402


class Late(Exception):
    """An answer takes too long."""


class CheckedAdapter(Adapter):
    """An adapter whose answers are checked one by one, and must come in time."""

    def __init__(self, program, size, limit):
        super().__init__(program, "--memory", str(size))
        self.has_events = True  # the requests themselves begin with `events on`
        self.limit = limit
        self.awaited = None  # the request whose answer is read next
        self.checks = iter([])

    def start(self, *words):
        """Starts the server. Ctrl-C is blocked meanwhile. The server inherits the blocked signal, so Ctrl-C doesn't end
        the server.
        """
        signal.pthread_sigmask(signal.SIG_BLOCK, {signal.SIGINT})
        try:
            return super().start(*words)
        finally:
            signal.pthread_sigmask(signal.SIG_UNBLOCK, {signal.SIGINT})

    def ask_checked(self, pairs):
        """Sends requests, and calls the check of each with its answer and the events that came before the answer."""
        self.checks = iter([check for _, check in pairs])
        try:
            self.ask(*(request for request, _ in pairs))
        except Late:
            raise Late(f"{self.awaited:.60}: no answer in {self.limit} s") from None
        finally:
            signal.setitimer(signal.ITIMER_REAL, 0)

    def wait_for(self, request):
        """Begins the time in which the answer to a request must come."""
        self.awaited = request
        signal.setitimer(signal.ITIMER_REAL, self.limit)

    def ask_at_once(self, requests):
        self.wait_for(requests[0])
        return super().ask_at_once(requests)

    def answer(self, request):
        self.wait_for(request)
        try:
            answer = super().answer(request)
            told, self.wire, self.faults = Told(self.wire, self.faults), [], []
            if told.frames and not request.startswith("step "):
                raise Found(f"{request:.60}: there is {shown(told.frames)} on the wire")
            if told.faults and not request.startswith("step "):
                raise Found(f"{request:.60}: there are the faults {told.faults}")
            next(self.checks)(answer, told)
        except ValueError as error:
            raise Found(f"{request:.60}: the answer has an invalid form: {error}") from None
        return answer

    def end(self):
        """Ends the input. This must end the server, with exit status 0."""
        try:
            rest, _ = self.process.communicate(timeout=self.limit)
        except subprocess.TimeoutExpired:
            raise Found(f"the server is still running {self.limit} s after the end of its input") from None
        if rest or self.process.returncode != 0:
            raise Found(f"the server ends with status {self.process.returncode} and the output {rest!r}")

    def kill(self):
        self.process.kill()
        self.process.communicate()


def run(options, seed, counts):
    """Runs a seed until its last step or Ctrl-C, and counts what happened. Returns None, or the error and the log."""
    expected = Expected(options.memory)
    requests = RandomRequests(Words(seed), expected)
    adapter = CheckedAdapter(options.program, options.memory, options.limit)
    try:
        left = options.steps
        while left and not options.is_stopped:
            left -= requests.phase(left)
            adapter.ask_checked(requests.take())
        adapter.end()
    except Found as error:
        return str(error), adapter.told
    except (Late, Refused) as error:
        return str(error), [*adapter.told, f"# {adapter.awaited} -> not answered"]
    finally:
        adapter.kill()
        counts.update(expected.counts)
    return None


def run_all(options, total):
    """Runs seeds, and prints a line for each. Returns whether a run failed."""
    seed = 1 if options.seed is None else options.seed
    while True:
        counts = Counter(seeds=1)
        found = run(options, seed, counts)
        total.update(counts)
        if found:
            print(f"seed {seed}: {found[0]}\n\nSeed {seed}, its log:")
            print("\n".join(found[1]))
            return True
        if options.is_stopped:
            print(f"{total['seeds']} seed{'s' * (total['seeds'] != 1)}: {numbers_of(total)}")
            return False
        print(f"seed {seed}: {numbers_of(counts)}", flush=True)
        if options.seed is not None:
            return False
        seed += 1


def numbers_of(counts):
    return f"{counts['writes']} writes, {counts['steps']} steps, nothing found"


def number(low, high):
    """Returns a function that reads a number from low to high, decimal or hexadecimal."""
    def read(text):
        value = int(text, 0)
        if not low <= value <= high:
            raise argparse.ArgumentTypeError(f"{text} isn't from {low} to {high}")
        return value
    return read


def options_of(words):
    parser = argparse.ArgumentParser(prog="hostile.py", description=__doc__, usage=argparse.SUPPRESS,
                                     formatter_class=argparse.RawDescriptionHelpFormatter)
    parser.add_argument("program", metavar="PROGRAM")
    parser.add_argument("--seed", type=number(0, 2**64 - 1), metavar="N", help="run only this seed")
    parser.add_argument("--steps", type=number(1, 10**9), default=10_000, metavar="N",
                        help="the number of steps of each seed (default 10000)")
    parser.add_argument("--memory", type=number(0, 65_536), default=8192, metavar="BYTES",
                        help="the size of memory, at most 65536 (default 8192)")
    parser.add_argument("--limit", type=number(1, 10**6), default=10, metavar="SECONDS",
                        help="the time in which each answer must come (default 10)")
    parser.add_argument("--counts", action="store_true", help="also print how often each outcome and each case came")
    return parser.parse_args(words)


def late(*_):
    raise Late


def main():
    options, total = options_of(sys.argv[1:]), Counter()
    options.is_stopped = False
    # At Ctrl-C, the requests that were sent are still answered and checked.
    signal.signal(signal.SIGINT, lambda *_: setattr(options, "is_stopped", True))
    signal.signal(signal.SIGALRM, late)
    found = run_all(options, total)
    if options.counts:
        print("\n".join(f"{name}: {total[name]}" for name in sorted(total)))
    return 1 if found else 0


try:
    sys.exit(main())
except OSError as error:
    print(f"hostile.py: {error}", file=sys.stderr)
    sys.exit(2)
