#!/usr/bin/env python3
"""Runs the driver over a sweep of seeds, as it should be and with each of its bugs.

usage: sweep.py PROGRAM [SEEDS]          seeds 1 to SEEDS (default 100)
       sweep.py PROGRAM --bug BUG SEED   one run, with its whole log
       sweep.py PROGRAM SEEDS --tables   the first seed of each bug that fails in each test, as in README.md

PROGRAM is `nicbench`. Each run initializes an adapter, then lets frames arrive and sends some. A seed decides which
steps the adapter takes between the accesses of the driver, so a seed that fails fails each time. BUG may also be a
driver without a bug.

A sweep runs the test `exchange` with the driver `right` and five bugs. With --test, it runs another test, or
`exchange`, with all drivers. --without removes a window of the test `stages`.

The exit status is 0 if the drivers without a bug pass and, except with --test, each bug is found. The exit status of a
single run is 0 if the run passes.
"""

import argparse
import sys
from functools import partial

sys.dont_write_bytecode = True
from adapter import Adapter, Refused  # noqa: E402
from driver import BUGS, MORE_BUGS, RIGHT, DeviceError, driver_of  # noqa: E402
from stages import WINDOWS, cuts, stages  # noqa: E402
from traffic import OTHER, SELF, STEPS, fault_of, frame_of, freed_fault  # noqa: E402

ROUNDS = 6
# The lengths of frames, in turn. The two that arrive in a round take at most seven receive buffers.
LENGTHS = 60, 257, 1518, 60, 256, 1518
# The number of frames that are sent without a pause, after the rounds.
BURST = 8


def handle(adapter, driver):
    """Calls the handler while the interrupt line is asserted."""
    while adapter.line:
        driver.interrupt()


def arrive(adapter, number, came):
    """Lets a frame arrive, and notes it if the adapter stores it."""
    frame = frame_of(number, SELF, OTHER, LENGTHS[number % len(LENGTHS)])
    if adapter.arrive(frame) == "stored":
        came.append(frame)


def send(driver, number, sent):
    """Sends a frame, and notes it unless the ring is full."""
    frame = frame_of(number, OTHER, SELF, LENGTHS[number % len(LENGTHS)])
    if driver.send(frame):
        sent.append(frame)


def exchange(adapter, driver):
    """Runs rounds of frames that arrive and are sent, and then a burst. Returns the first fault, or None."""
    came, sent = [], []
    for number in range(ROUNDS):
        arrive(adapter, 2 * number, came)
        send(driver, number, sent)
        # The first frame is finished before the second arrives. So the handler runs while the adapter moves the second.
        adapter.settle()
        arrive(adapter, 2 * number + 1, came)
        handle(adapter, driver)
        # Now the adapter does all that is left. If it doesn't interrupt the driver for this work, nothing else does.
        adapter.settle()
        handle(adapter, driver)
        fault = fault_of("received", came, driver.received) or fault_of("sent", sent, adapter.wire)
        if fault:
            return fault
    return burst(adapter, driver, sent)


def burst(adapter, driver, sent):
    """Sends frames one after the other, after those already sent. Returns the first fault, or None."""
    for number in range(ROUNDS, ROUNDS + BURST):
        send(driver, number, sent)
        fault = freed_fault(driver, adapter)
        if fault:
            return fault
    adapter.settle()
    handle(adapter, driver)
    return fault_of("sent", sent, adapter.wire)



TESTS = {"exchange": exchange, "stages": stages, "cuts": cuts}
DRIVERS = {**RIGHT, **BUGS, **MORE_BUGS}
# Bugs that every test finds or that only `cuts` can find aren't in the table of windows.
WINDOW_BUGS = [bug for bug in (*BUGS, *MORE_BUGS) if bug not in ("eerd", "cuts")]


def test_of(name, without=None):
    """Returns a test, without one of the windows of `stages` if one is given."""
    return partial(stages, without=without) if without else TESTS[name]


def run(program, seed, name="right", test=exchange, has_log=True):
    """Runs a driver once. Returns the fault, or None, and the log. An error that the driver raises is the fault."""
    with Adapter(program, "--seed", str(seed)) as adapter:
        try:
            adapter.log(has_log)
            adapter.interleave(STEPS)
            driver = driver_of(name, adapter)
            driver.bring_up()
            fault = test(adapter, driver)
        except (DeviceError, Refused) as error:
            fault = str(error)
        return fault, adapter.told


def first_to_fail(program, seeds, name, test, has_log=True):
    """Returns the first seed that fails, with the fault and the log of its run, or None if all pass."""
    for seed in range(1, seeds + 1):
        fault, log = run(program, seed, name, test, has_log)
        if fault:
            return seed, fault, log
    return None


def sweep(program, seeds, name, test):
    """Prints the first seed that fails, and returns it with its fault and its log, or None if all pass."""
    failed = first_to_fail(program, seeds, name, test)
    print(f"{name}: seed {failed[0]}: {failed[1]}" if failed else f"{name}: seeds 1 to {seeds} pass")
    return failed


def sweep_all(program, seeds, names, test):
    """Prints the sweep of each driver, and then the logs. Returns the names of the drivers that fail."""
    found = {name: sweep(program, seeds, name, test) for name in names}
    for name, failed in found.items():
        if failed:
            print(f"\n{name}: {DRIVERS[name]}. Seed {failed[0]}, its log:")
            print("\n".join(failed[2]))
    return {name for name, failed in found.items() if failed}


def row(program, seeds, head, runs):
    """Prints a row of a table: for each pair of a driver and a test, the first seed that fails. Returns these cells."""
    failed = [first_to_fail(program, seeds, name, test, False) for name, test in runs]
    cells = [str(found[0]) if found else "none" for found in failed]
    print(f"| {head} | {' | '.join(cells)} |", flush=True)
    return cells


def tables(program, seeds):
    """Prints both tables. Returns whether the drivers without a bug pass all tests, and each bug is found by a test."""
    cells = {}
    for name, text in DRIVERS.items():
        cells[name] = row(program, seeds, f"`{name}` | {text}", [(name, test) for test in TESTS.values()])
    print()
    for window in WINDOWS:
        row(program, seeds, f"`{window}`", [(bug, test_of("stages", window)) for bug in WINDOW_BUGS])
    return {name for name, found in cells.items() if set(found) == {"none"}} == set(RIGHT)


def count(text):
    """Reads a decimal number above 0."""
    if not text.isdecimal() or int(text) == 0:
        raise argparse.ArgumentTypeError(f"{text} isn't a decimal number above 0")
    return int(text)


def options_of(words):
    parser = argparse.ArgumentParser(prog="sweep.py", description=__doc__, usage=argparse.SUPPRESS,
                                     formatter_class=argparse.RawDescriptionHelpFormatter)
    parser.add_argument("program", metavar="PROGRAM")
    parser.add_argument("seeds", type=count, nargs="?", default=100, metavar="SEEDS")
    parser.add_argument("--bug", nargs=2, metavar=("BUG", "SEED"), help="run this driver once, and print the log")
    parser.add_argument("--test", choices=TESTS, help="run this test (default exchange)")
    parser.add_argument("--without", choices=WINDOWS, help="leave this window out of the test stages")
    parser.add_argument("--tables", action="store_true", help="print the tables of README.md")
    options = parser.parse_args(words)
    if options.without and options.test != "stages":
        parser.error("--without needs --test stages")
    if options.bug and not (options.bug[0] in DRIVERS and options.bug[1].isdecimal()):
        parser.error("--bug needs the name of a driver and a seed")
    return options


def main():
    options = options_of(sys.argv[1:])
    program, test = options.program, test_of(options.test or "exchange", options.without)
    if options.bug:
        fault, log = run(program, int(options.bug[1]), options.bug[0], test)
        print("\n".join([*log, fault or "passes"]))
        return 0 if fault is None else 1
    if options.tables:
        return 0 if tables(program, options.seeds) else 1
    if options.test:
        return 1 if sweep_all(program, options.seeds, DRIVERS, test) & set(RIGHT) else 0
    return 0 if sweep_all(program, options.seeds, ("right", *BUGS), test) == set(BUGS) else 1


if __name__ == "__main__":
    try:
        sys.exit(main())
    except OSError as error:
        sys.exit(f"sweep.py: {error}")
