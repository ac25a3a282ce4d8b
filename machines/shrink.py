"""Looks for a small part of a failed round's drawn steps with which the round still fails.

Each try boots the guest again, plays the rounds before, and then, in the failed round, only some of its drawn steps. So
rings and queues are as they were when the failed round began.
"""

from __future__ import annotations

import os
import subprocess
import sys
import tempfile
from concurrent.futures import ThreadPoolExecutor
from typing import TYPE_CHECKING, Callable, Optional

if TYPE_CHECKING:
    from argparse import Namespace

BOOT = os.path.join(os.path.dirname(os.path.abspath(__file__)), "boot")
NUMBERS = "numbers.txt"
OWN_FILES = ("console", "image")  # files that a guest writes into the cache
FAILED = 1
# Takes parts of the steps' numbers. Returns the first part with which the round fails, or None
FirstFailing = Callable[["list[list[int]]"], "Optional[list[int]]"]
# The options of `boot` that a try repeats
REPEATED = ("seed", "first", "most", "module", "host", "rom", "adapter", "library", "nicbench")


def failed_round(path: str) -> tuple[int, list[int]]:
    """The number of the round in a trace, and the numbers of its drawn steps that did something."""
    with open(path) as file:
        lines = [line.split() for line in file]
    return int(lines[0][1]), [int(line[-1][1:]) for line in lines if line[-1].startswith("*")]


def pieces_of(numbers: list[int], count: int) -> list[list[int]]:
    """The list in `count` pieces of nearly the same length, without empty ones."""
    ends = [len(numbers) * piece // count for piece in range(count + 1)]
    return [numbers[begin:end] for begin, end in zip(ends, ends[1:]) if begin < end]


def beginning(numbers: list[int], first_failing: FirstFailing, probes: int) -> list[int]:
    """Returns a beginning of the numbers with which the round fails: the shortest one, if the round also fails with all
    longer ones. `probes` lengths are tried at a time.
    """
    passing, failing = 0, len(numbers)
    while failing - passing > 1:
        step = max(1, (failing - passing) // (probes + 1))
        lengths = list(range(passing + step, failing, step))[:probes]
        found = first_failing([numbers[:length] for length in lengths])
        if found:
            failing = len(found)
            passing = max([passing, *(length for length in lengths if length < failing)])
        else:
            passing = lengths[-1]
    return numbers[:failing]


def shrunk(numbers: list[int], first_failing: FirstFailing) -> list[int]:
    """Returns a part of the numbers with which the round fails. If the part has several numbers, the round doesn't fail
    without any single one of them.

    `first_failing` takes parts, and returns the first one with which the round fails, or None.
    """
    count = 2
    while len(numbers) > 1:
        pieces = pieces_of(numbers, min(count, len(numbers)))
        rests = [[number for number in numbers if number not in set(piece)] for piece in pieces]
        piece = first_failing(pieces) if count == 2 else None
        rest = None if piece else first_failing(rests)
        if piece:
            numbers = piece
        elif rest:
            numbers, count = rest, max(count - 1, 2)
        elif count >= len(numbers):
            break
        else:
            count *= 2
    return numbers


class Tries:
    """Runs of `boot` up to a round that failed. `words` are those of its command line."""

    def __init__(self, words: Namespace, number: int, folder: str, jobs: int) -> None:
        self.words, self.number, self.folder, self.jobs, self.made = words, number, folder, jobs, 0
        self.pool = ThreadPoolExecutor(jobs)

    def cache(self, name: str) -> str:
        """Makes a folder for a guest of its own, with links to what the cache has. Returns its path."""
        path = os.path.join(self.folder, name)
        os.makedirs(path)
        for entry in os.listdir(self.words.cache):
            if entry not in OWN_FILES:
                os.symlink(os.path.join(os.path.abspath(self.words.cache), entry), os.path.join(path, entry))
        return path

    def command(self, path: str) -> list[str]:
        given = vars(self.words)
        repeated = [word for name in REPEATED if given[name] for word in (f"--{name}", str(given[name]))]
        sweep = ["--sweep", str(self.number - self.words.first + 1), "--only", os.path.join(path, NUMBERS)]
        apart = ["--apart"] if self.words.apart else []
        return [sys.executable, BOOT, self.words.guest, *sweep, *repeated, *apart, "--cache", path, "--out", path]

    def fails(self, numbers: list[int]) -> bool:
        """Whether the round fails if only these of its drawn steps are played."""
        self.made += 1
        path = self.cache(str(self.made))
        with open(os.path.join(path, NUMBERS), "w") as file:
            file.writelines(f"{number}\n" for number in numbers)
        ran = subprocess.run(self.command(path), stdout=subprocess.DEVNULL, stderr=subprocess.DEVNULL)
        trace = os.path.join(path, "failed.trace")
        return ran.returncode == FAILED and os.path.exists(trace) and failed_round(trace)[0] == self.number

    def first_failing(self, parts: list[list[int]]) -> Optional[list[int]]:
        """Tries parts, `jobs` at a time. Returns the first one with which the round fails, or None."""
        for begin in range(0, len(parts), self.jobs):
            tried = parts[begin:begin + self.jobs]
            failing = [part for part, fails in zip(tried, self.pool.map(self.fails, tried)) if fails]
            if failing:
                return failing[0]
        return None


def smallest(words: Namespace, tell: Callable[[str], None]) -> Optional[tuple[int, str]]:
    """Stores the numbers of a small part of the drawn steps in the folder of the round that failed.

    Returns the number of the round and the path of the file. Returns None if the round doesn't fail again.
    """
    number, numbers = failed_round(os.path.join(words.out, "failed.trace"))
    with tempfile.TemporaryDirectory() as folder:
        tries = Tries(words, number, folder, words.jobs)
        if tries.fails([]):
            numbers = []
        elif not tries.fails(numbers):
            tell(f"round {number} doesn't fail again with the {len(numbers)} drawn steps that did something")
            return None
        else:
            def first_failing(parts: list[list[int]]) -> Optional[list[int]]:
                part = tries.first_failing(parts)
                if part:
                    tell(f"round {number} fails with {len(part)} of its drawn steps")
                return part

            numbers = shrunk(beginning(numbers, first_failing, words.jobs), first_failing)
        tell(f"{tries.made} tries: {len(numbers)} drawn steps are enough")
    path = os.path.join(words.out, NUMBERS)
    with open(path, "w") as file:
        file.writelines(f"{one}\n" for one in numbers)
    return number, path
