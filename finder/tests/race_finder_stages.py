"""Runs tools/races on the tests of examples/drivers: the table of examples/drivers/README.md, and the drivers
without a bug in `stages` and `cuts`. Also tests words that name no test or driver.
"""

import os
import re
import subprocess
import sys

from harness import TOP
from race_finder import EXCHANGE, FOUND, PASSES, find, found_in, replay
from server import LIMIT
from server_pages import read_page

from driver import ARRIVAL_BUGS, BUGS, MORE_BUGS, QUEUE, RESET_BUGS, RIGHT

STAGED = [sys.executable, "-S", "-E", os.path.join(TOP, "examples", "drivers", "staged_test.py")]
HEADING = "| Bug | Test | Options | Schedule |"
# Bugs whose schedules are found again here. The search for other bugs takes longer.
AGAIN = "late", "length", "masks-late", "cuts", "clears", "mpc"
# For a bug of another driver than `right`: the driver without this bug, which passes the schedule that shows it.
RIGHT_OF = {"offers-queued": "queue"}
RIGHT_SEEDS = 20


def rows():
    """Yields the rows of the table: a bug, its test, options, and the deviations."""
    found = re.search(rf"^{re.escape(HEADING)}\n\|[-|]+\n((?:\|.*\n)+)", read_page("examples", "drivers", "README.md"),
                      re.M)
    for line in found[1].splitlines() if found else ():
        bug, test, options, schedule = (cell.strip() for cell in line.strip("|").split("|"))
        yield bug.strip("`"), test.strip("`"), options.strip("`").split(), re.findall("`(.*?)`", schedule)


def table(server):
    """The schedule of each row shows its bug, and no smaller one does. The driver without the bug passes, unless it
    makes another access there.
    """
    seen = []
    for bug, test, options, deviations in rows():
        seen.append(bug)
        command, right = [*STAGED, test, bug], [*STAGED, test, RIGHT_OF.get(bug, "right")]
        text = "".join(f"{line}\n" for line in deviations)
        server.check(f"table: {bug} needs at most one deviation", len(deviations) <= 1, True)
        options = [one for one in options if one != "--holds"]
        status, out, errors = replay(server, text, *options, command=command)
        is_fault = out.endswith("\n") and out.splitlines()[-1].startswith("   exit status 1: ")
        server.check(f"table: {bug} is shown by its schedule", (status, is_fault, errors), (FOUND, True, ""))
        if deviations:
            server.check(f"table: {bug} isn't shown without a deviation", replay(server, "", command=command)[::2],
                         (PASSES, ""))
        _, out, errors = replay(server, text, *options, command=right)
        others = "The test passes", "at this place, the test makes another access", "the run doesn't reach this place"
        passes = any(text in out + errors for text in others)
        server.check(f"table: right passes the schedule of {bug}", passes, True)
        if bug in AGAIN:
            status, _, errors = find(server, "--explore", "1", "--out", "found", command=command)
            server.check(f"table: the schedule of {bug} is found", (status, len(found_in(server)), errors),
                         (FOUND, 1, ""))
            server.remove("found")
    server.check("table: its bugs", seen, [*BUGS, *MORE_BUGS, *ARRIVAL_BUGS, *RESET_BUGS])


def right_drivers(server):
    """The drivers without a bug pass with each of some seeds, also if steps of the EEPROM and the PHY are left out."""
    for name in RIGHT:
        for test in ("stages", "cuts"):
            words = ["--runs", str(RIGHT_SEEDS), "--all"]
            status, out, errors = find(server, *words, command=[*STAGED, test, name])
            server.check(f"right: {name} passes {test}", (status, "\nno run fails\n" in out, errors),
                         (PASSES, True, ""))
    schedule = "".join(f"58.0 {action} before settle\n" for action in ("tx", "tx", "rxdone"))
    for name in ("right", "pool"):
        got = replay(server, schedule, command=[*STAGED, "cuts", name])
        server.check(f"right: {name}: an answer is sent after the last settle",
                     (got[0], got[1].splitlines()[-1:], got[2]), (PASSES, ["   The test passes."], ""))
    status, out, errors = find(server, "--runs", "2", "--all", "--holds", command=[*STAGED, "stages", "right"])
    server.check("right: right passes stages with holds", (status, "\nno run fails\n" in out, errors),
                 (PASSES, True, ""))


def usage(server):
    """With words that name no test or no driver, the tests print their usage."""
    names = "|".join([*RIGHT, *BUGS, *MORE_BUGS])
    more = "|".join([*ARRIVAL_BUGS, *QUEUE, *RESET_BUGS])
    staged = f"staged_test.py stages|cuts|offers|arrives|groups|misses|resets [{names}|{more}]"
    for script, words, begin in [(STAGED, [], staged), (STAGED, ["exchange"], staged),
                                 (STAGED, ["cuts", "lat"], staged), (STAGED, ["cuts", "late", "x"], staged),
                                 (EXCHANGE, ["lat"], f"exchange_test.py [{names}]"),
                                 (EXCHANGE, ["late", "x"], f"exchange_test.py [{names}]")]:
        ran = subprocess.run([*script, *words], stdin=subprocess.DEVNULL, capture_output=True, timeout=LIMIT)
        server.check(f"usage: {begin}: {words}", (ran.returncode, ran.stdout, ran.stderr.decode()),
                     (1, b"", f"usage: {begin}\n"))


def all_cases(server):
    for part in [table, right_drivers, usage]:
        part(server)
