#!/usr/bin/env python3
"""Runs a test of stages.py, arrivals.py or resets.py, as a test for `tools/races`.

usage: staged_test.py TEST [NAME]

TEST is stages, cuts, offers, arrives, groups, misses or resets. `arrives` is the test `offers` without the request
`offer`, and `misses` needs a server with --missed 4294967295. Requests go to standard output, and answers come from
standard input. The exit status is 0 if the driver passes. Otherwise it is 1, and the fault is on standard error. NAME
is a driver or a bug of driver.py (default: right).
"""

import sys
from functools import partial

sys.dont_write_bytecode = True
from arrivals import groups, misses, offers  # noqa: E402
from driver import ARRIVAL_BUGS, QUEUE, RESET_BUGS  # noqa: E402
from resets import resets  # noqa: E402
from stages import cuts, stages  # noqa: E402
from streams import fault_of_run, play  # noqa: E402
from sweep import DRIVERS  # noqa: E402

TESTS = {"stages": partial(stages, is_scheduled=True), "cuts": cuts, "offers": offers,
         "arrives": partial(offers, is_offered=False), "groups": groups, "misses": misses, "resets": resets}
NAMES = *DRIVERS, *ARRIVAL_BUGS, *QUEUE, *RESET_BUGS


def main():
    words = sys.argv[1:]
    test, name = [*words, "right"] if len(words) == 1 else words if len(words) == 2 else (None, None)
    if test not in TESTS or name not in NAMES:
        sys.exit(f"usage: staged_test.py {'|'.join(TESTS)} [{'|'.join(NAMES)}]")
    play(partial(fault_of_run, TESTS[test], name, takes_over=test == "misses"))


main()
