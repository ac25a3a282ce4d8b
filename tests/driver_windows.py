"""Checks which seed of the tests of examples/drivers finds which bug, and whether the tests have the windows that the
README there describes.

The tables of examples/drivers/README.md state the first seed that fails: for each bug and test, and for each bug and
window that is left out. The runs are deterministic, so the seeds must be exactly these. `Seen` computes from the log of
a run which windows the run had.
"""

import os
import re
import subprocess
import sys
from functools import partial

from harness import DRIVERS
from server import LIMIT
from server_pages import read_page

import arrivals
import stages
import sweep
from driver import CAUSES, ICR, IMS, RDT, RECEIVE_BUFFER, RIGHT, SLOTS, TDT, TRANSMIT_BUFFERS, TRANSMIT_RING
from adapter import REGISTERS

# How many seeds are tried for a cell with `none`
SEEDS = 200
# With how many seeds a driver without a bug must pass each test
RIGHT_SEEDS = 20
# How many frames arrive in the stage `work`. After more frames, the window `work` isn't noted, because the stage `dry`
# also has work left when the handler is called.
FRAMES_OF_WORK = 12
# The headings of the two tables
TESTS_HEADING = f"| Name | Bug | {' | '.join(f'`{test}`' for test in sweep.TESTS)} |"
WINDOWS_HEADING = f"| Without | {' | '.join(f'`{bug}`' for bug in sweep.WINDOW_BUGS)} |"


def cells_of(heading):
    """The rows of the table in the README with this heading, each as a list of cells, without the heading and the line
    below it.
    """
    table = re.search(rf"^{re.escape(heading)}\n\|[-|]+\n((?:\|.*\n)+)", read_page("examples", "drivers", "README.md"),
                      re.M)
    return [[cell.strip() for cell in line.strip("|").split("|")] for line in table[1].splitlines()] if table else []


def first_seed(server, name, test, wanted):
    """The first seed with which the test fails, as text, or `none`. Seeds are tried up to the one in the cell, or up to
    SEEDS if the cell has no seed.
    """
    seeds = int(wanted) if wanted.isdecimal() else SEEDS
    failed = sweep.first_to_fail(server.program, seeds, name, test, False)
    return str(failed[0]) if failed else "none"


def table_of_tests(server):
    """For each bug and each test, the first seed that fails is in the table. Each bug is found by a test."""
    rows = cells_of(TESTS_HEADING)
    server.check("windows: the drivers in the table", [row[:2] for row in rows],
                 [[f"`{name}`", text] for name, text in sweep.DRIVERS.items()])
    server.check("windows: drivers without a bug", [row[2:] for row in rows[:len(RIGHT)]],
                 [["none"] * len(sweep.TESTS)] * len(RIGHT))
    for name, _, *cells in rows[len(RIGHT):]:
        got = [first_seed(server, name.strip("`"), test, cell) for test, cell in zip(sweep.TESTS.values(), cells)]
        server.check(f"windows: {name}, first seeds", got, cells)
        server.check(f"windows: {name} is found by a test", any(cell.isdecimal() for cell in cells), True)


def table_of_windows(server):
    """For each bug and each window, the first seed that fails without this window is in the table."""
    bugs = sweep.WINDOW_BUGS
    rows = cells_of(WINDOWS_HEADING)
    server.check("windows: the windows in the table", [row[0] for row in rows],
                 [f"`{window}`" for window in stages.WINDOWS])
    for window, *cells in rows:
        test = sweep.test_of("stages", window.strip("`"))
        got = [first_seed(server, bug, test, cell) for bug, cell in zip(bugs, cells)]
        server.check(f"windows: first seeds without {window}", got, cells)


def right_drivers(server):
    """The drivers without a bug pass all tests, and the test `stages` without each of its windows. To save time, few
    seeds are played: RIGHT_SEEDS for a test, and 2 without a window.
    """
    for name in RIGHT:
        for test, play in sweep.TESTS.items():
            failed = sweep.first_to_fail(server.program, RIGHT_SEEDS, name, play, False)
            server.check(f"windows: {name} passes {test}", failed, None)
        for window in stages.WINDOWS:
            failed = sweep.first_to_fail(server.program, 2, name, sweep.test_of("stages", window), False)
            server.check(f"windows: {name} passes stages without {window}", failed, None)


class Seen:
    """What happened in a run, computed from its log after initialization."""

    def __init__(self, log):
        # frames in the packet buffer; frames that arrived and aren't finished with DD and EOP; the piece in progress
        self.waiting, self.unfinished, self.piece = 0, 0, None
        # how many descriptors the adapter has used, and how many the driver has offered
        self.rx_used, self.rx_tail = 0, 0
        # how many frames the adapter has taken, the driver has offered, and the adapter has put on the wire
        self.taken, self.tx_tail, self.put = 0, 0, 0
        self.arrived = 0
        self.sending = None  # what the newest store for a frame to be sent wrote, until TDT is written
        self.line = False  # whether the interrupt line is asserted
        self.had = set()
        self.slots = set()
        for line in log:
            self.read(line.split())

    def read(self, words):
        mark, request, *rest = words
        if mark == "IRQ":
            self.line = request == "raise"
        if mark == "#" and request in ("step", "arrive", "write", "readl", "writel"):
            getattr(self, request)(*rest)

    def step(self, kind, _, outcome):
        if outcome in ("part", "moved"):
            self.rx_used += 1
            self.piece = outcome
            self.waiting -= outcome == "moved"
        elif outcome == "done":
            self.unfinished -= self.piece == "moved"
            self.piece = None
        self.taken += outcome == "took"
        self.put += outcome == "put"
        self.note()

    def arrive(self, frame):
        self.arrived += 1
        self.waiting += 1
        self.unfinished += 1
        self.slots.add(-(-len(frame) // 2 // RECEIVE_BUFFER))
        self.note()

    def write(self, address, *_):
        if int(address, 0) >= TRANSMIT_RING:
            self.sending = "data" if int(address, 0) >= TRANSMIT_BUFFERS else "descriptor"

    def readl(self, address):
        if int(address, 0) - REGISTERS == ICR:
            self.had |= {"work"} if self.unfinished and self.arrived <= FRAMES_OF_WORK else set()
            self.had |= {f"cut after {self.sending}"} if self.sending else set()
            self.had |= set() if self.line else {"a call without an interrupt"}

    def writel(self, address, value):
        register, value = int(address, 0) - REGISTERS, int(value, 0)
        if register == RDT:
            self.rx_tail += (value - self.rx_tail) % SLOTS
        elif register == TDT:
            self.tx_tail += (value - self.tx_tail) % SLOTS
            self.sending = None
        self.note()

    def note(self):
        """Notes the windows that are open now."""
        now = {"dry": self.waiting and not self.piece and self.rx_used == self.rx_tail,
               "full": self.tx_tail - self.put == SLOTS - 1,
               "both": self.unfinished and self.tx_tail > self.put, "receive ring wraps": self.rx_used > SLOTS,
               "transmit ring wraps": self.taken > SLOTS}
        self.had |= {window for window, is_open in now.items() if is_open}


def seen_in(server, test, name="right", seed=1):
    """The fault of a run or None, the names of its windows, and the numbers of slots that received frames take."""
    fault, log = sweep.run(server.program, seed, name, test)
    begin = next(place for place, line in enumerate(log) if line == f"# writel {REGISTERS + IMS:#x} {CAUSES:#x}")
    seen = Seen([f"# writel {REGISTERS + RDT:#x} {SLOTS - 1:#x}", *log[begin + 1:]])
    return fault, seen.had, seen.slots


RINGS_WRAP = {"receive ring wraps", "transmit ring wraps"}
# The windows of a run of the driver without a bug, and the numbers of slots that its received frames take.
EXPECTED = {
    "exchange": (RINGS_WRAP | {"work", "both"}, {1, 2, 6}),
    "stages": (RINGS_WRAP | {"work", "dry", "full"}, {1, 2, 3, 4, 5, 6}),
    "stages without work": (RINGS_WRAP | {"dry", "full"}, {1, 2, 3, 4, 5, 6}),
    "stages without one-way": (RINGS_WRAP | {"work", "dry", "full", "both"}, {1, 2, 3, 4, 5, 6}),
    "stages without dry": (RINGS_WRAP | {"work", "full"}, {1, 2, 3, 4, 5, 6}),
    "stages without full": (RINGS_WRAP | {"work", "dry"}, {1, 2, 3, 4, 5, 6}),
    "stages without lengths": (RINGS_WRAP | {"work", "dry", "full"}, {1}),
}


def windows_seen(server):
    """Each test has the windows that the page describes, and no other. The handler runs inside a send only for the
    driver `cuts` in the test `cuts`.
    """
    for name, (windows, slots) in EXPECTED.items():
        test, _, window = name.partition(" without ")
        for seed in (1, 2, 3):
            got = seen_in(server, sweep.test_of(test, window), "right", seed)
            server.check(f"windows: of {name}, seed {seed}", got, (None, windows, slots))
    for seed in (1, 2, 3):
        # The adapter may put an answer on the wire before or after the next frame arrives, so `both` isn't compared.
        fault, had, slots = seen_in(server, stages.cuts, "right", seed)
        server.check(f"windows: of cuts, seed {seed}", (fault, had - {"both"}, slots),
                     (None, RINGS_WRAP | {"work"}, {1, 2, 3, 4, 5, 6}))
    for name in ("right", "cuts"):
        for test in ("exchange", "stages", "cuts"):
            had = set().union(*(seen_in(server, sweep.TESTS[test], name, seed)[1] for seed in range(1, 11)))
            cuts = {"cut after data", "cut after descriptor"} if (name, test) == ("cuts", "cuts") else set()
            server.check(f"windows: where the handler of {name} cuts in, test {test}",
                         {window for window in had if window.startswith("cut")}, cuts)


def offered(server):
    """The random steps of the server let offered frames arrive, too. The race of `rxo` needs this: if frames arrive by
    request, none of 100 seeds finds it.
    """
    by_request = partial(arrivals.offers, is_offered=False)
    for name, test, seeds, wanted in [("rxo", arrivals.offers, 2, 2),
                                      ("rxo", by_request, 100, None)] + [(name, arrivals.offers, RIGHT_SEEDS, None)
                                                                         for name in RIGHT]:
        failed = sweep.first_to_fail(server.program, seeds, name, test, False)
        server.check(f"windows: offered frames, {name}", failed and failed[0], wanted)


def same_again(server):
    """The same seed makes the same requests and the same log."""
    for test, play in sweep.TESTS.items():
        runs = [sweep.run(server.program, 7, "masks", play) for _ in range(2)]
        server.check(f"windows: {test} again", runs[0], runs[1])
        server.check(f"windows: {test} passes and has a log", (runs[0][0], len(runs[0][1]) > 1000), (None, True))


def swept(server, *words):
    """Runs sweep.py with these words. Returns the exit status, the output, and the beginning of the errors."""
    ran = subprocess.run([sys.executable, os.path.join(DRIVERS, "sweep.py"), server.program, *words],
                         capture_output=True, timeout=LIMIT)
    return ran.returncode, ran.stdout.decode(), ran.stderr.decode()[:10]


def sweeps(server):
    """With its options, sweep.py plays a test for all drivers, a single run, or a run without a window. Invalid words
    are refused.
    """
    for test, missed in [("exchange", {"late", "length", "rdt", "masks-late", "cuts"}), ("stages", {"cuts"})]:
        status, out, errors = swept(server, "1", "--test", test)
        passed = set(re.findall(r"^(\S+): seeds 1 to 1 pass$", out, re.M))
        failed = re.findall(r"^(\S+): seed 1: ", out, re.M)
        server.check(f"sweep: {test}", (status, passed, errors), (0, set(RIGHT) | missed, ""))
        server.check(f"sweep: {test}, the bugs", set(failed), set(sweep.DRIVERS) - set(RIGHT) - missed)
        server.check(f"sweep: {test}, the logs", re.findall(r"^(\S+): .*\. Seed 1, its log:$", out, re.M), failed)
    for words, last in [(["--test", "cuts", "--bug", "right", "1"], "passes"),
                        (["--test", "stages", "--bug", "masks", "1"], "passes"),
                        (["--bug", "rdt", "1"], "passes"),
                        (["--test", "stages", "--bug", "rdt", "1"], "frame 17 was received with wrong bytes"),
                        (["--test", "stages", "--without", "dry", "--bug", "rdt", "1"], "passes")]:
        status, out, errors = swept(server, *words)
        server.check(f"sweep: {' '.join(words)}", (status, out.splitlines()[-1], errors),
                     (int(last != "passes"), last, ""))
    for words in [["--test", "stage"], ["--bug", "lat", "1"], ["--bug", "late", "x"], ["--without", "dry"],
                  ["--test", "cuts", "--without", "dry"],
                  ["--test", "stages", "--without", "wet"], ["x"], ["-1"], ["0"]]:
        server.check(f"sweep: {' '.join(words)} is invalid", swept(server, *words)[::2], (2, "sweep.py: "))


def printed_tables(server):
    """With one seed, sweep.py prints the tables of the page, with `none` where the page states another seed."""
    status, out, errors = swept(server, "1", "--tables")
    wanted = [[*row[:2], *(cell if cell == "1" else "none" for cell in row[2:])] for row in cells_of(TESTS_HEADING)]
    wanted += [[row[0], *(cell if cell == "1" else "none" for cell in row[1:])] for row in cells_of(WINDOWS_HEADING)]
    server.check("sweep: the tables", (status, errors), (0, ""))
    server.check("sweep: rows of the tables",
                 [[cell.strip() for cell in line.strip("|").split("|")] for line in out.splitlines() if line], wanted)


def all_cases(server):
    for part in [table_of_tests, table_of_windows, right_drivers, windows_seen, offered, same_again, sweeps,
                 printed_tables]:
        part(server)
