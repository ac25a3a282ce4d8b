#!/usr/bin/env python3
"""Runs the exchange of sweep.py, as a test for `tools/races`.

usage: exchange_test.py [NAME]

Requests go to standard output, and answers come from standard input. The exit status is 0 if the driver passes.
Otherwise it is 1, and the fault is on standard error. NAME is a driver or a bug of driver.py (default: right).
"""

import sys
from functools import partial

sys.dont_write_bytecode = True
from streams import fault_of_run, play  # noqa: E402
from sweep import DRIVERS, exchange  # noqa: E402


def main():
    names = sys.argv[1:] or ["right"]
    if len(names) > 1 or names[0] not in DRIVERS:
        sys.exit(f"usage: exchange_test.py [{'|'.join(DRIVERS)}]")
    play(partial(fault_of_run, exchange, names[0]))


main()
