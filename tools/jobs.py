"""How many crates `rt` is to prove at the same time.

usage: python3 tools/jobs.py, which prints the number

The number is RT_JOBS, if the environment has it as a positive number. Otherwise it is the number of processors, but at
most the number of whole parts of 3 GB of free memory, and at least 1. By itself, `rt` uses several processors for one
crate if no other crate waits for a processor. In `./test`, `rt` does so for must-fail edits.
"""

from __future__ import annotations

import os
import re

CRATE_BYTES = 3 * 10**9


def free_bytes() -> int:
    """The bytes of free memory, or 0 if the system doesn't report them."""
    try:
        with open("/proc/meminfo") as file:
            found = re.search(r"^MemAvailable:\s+(\d+)", file.read(), re.M)
    except OSError:
        return 0
    return 1024 * int(found[1]) if found else 0


def count() -> int:
    given = os.environ.get("RT_JOBS", "")
    if given.isdigit() and int(given) > 0:
        return int(given)
    return max(1, min(len(os.sched_getaffinity(0)), free_bytes() // CRATE_BYTES))


if __name__ == "__main__":
    print(count())
