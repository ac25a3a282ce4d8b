"""Runs a test, as a command of `tools/races`.

Requests go to standard output, and answers come from standard input.
"""

import sys

from adapter import Adapter, Refused
from driver import DeviceError, driver_of


class Streams(Adapter):
    """The adapter whose server reads this program's standard output, and writes its standard input."""

    def start(self, *_):
        return sys.stdout.buffer, sys.stdin.buffer


def play(test):
    """Plays a run of a test, and others while `tools/races` has some for this process. Ends with status 1 after a run
    with a fault. `test()` returns the fault of a run, or None.
    """
    while True:
        fault = test()
        if fault:
            print(fault, file=sys.stderr, flush=True)
        print(f"reset {int(bool(fault))}", flush=True)
        if sys.stdin.buffer.readline() != b"OK\n":
            sys.exit(bool(fault))


def fault_of_run(test, name, takes_over=False):
    """Initializes the driver with this name, and runs the test. Returns the fault, or None.

    With `takes_over`, the driver first counts what the adapter has missed before.
    """
    adapter = Streams(None)
    driver = driver_of(name, adapter)
    try:
        if takes_over:
            driver.take_over()
        driver.bring_up()
        return test(adapter, driver)
    except (DeviceError, Refused) as error:
        return str(error)
