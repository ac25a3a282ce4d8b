"""What a sweep prints: its progress, the first round that failed, and what the rounds reached."""

from __future__ import annotations

import os
import sys
import time
from collections import Counter
from typing import Optional, TYPE_CHECKING

from needs import TOP
from round_trace import Symbols, Trace, chart_rows

sys.path.insert(0, TOP)
from finder.chart import COLUMNS, ChartRow, cut, layout, line_of  # noqa: E402
from finder.names import REGISTERS  # noqa: E402

if TYPE_CHECKING:
    from argparse import Namespace
    from round_trace import Row

FILES = ("failed.trace", "schedule.txt", "chart.txt", "reached", "reached.txt")
LAST = 8  # the most drawn steps, from the end, that are marked if no frame is wrong and no reply is lost
WRITE = 1 << 32  # in a site: a register is written (board/reached.h)
MODULES = 1 << 63


def tell(text: str) -> None:
    print(text, flush=True)


def first_line(text: str) -> str:
    """The first line of a message of the kernel, in which the text \\x0a stands for the end of a line."""
    return text.split("\\x0a")[0]


def around(places: list[int], at: int) -> list[int]:
    """The last of some places before `at`, and the first one after `at`, if there are such places."""
    return [*[place for place in places if place < at][-1:], *[place for place in places if place > at][:1]]


def steps_of_lost(rows: list[Row], lost: list[str]) -> list[int]:
    """The rows that moved the first lost reply that was stored. They are its arrival, the steps that wrote it to
    memory, and the stores of its buffer's address before and after."""
    steps = [row.step for row in rows]
    stored = [at for at, step in enumerate(steps) if (step.action, step.outcome) == ("arrive", "stored")]
    arrival = next((at for at in stored if steps[at].name in lost), None)
    all_moved = [at for at, step in enumerate(steps) if (step.action, step.outcome) == ("rxdata", "moved")]
    if arrival is None or stored.index(arrival) >= len(all_moved):
        return []
    moved = all_moved[stored.index(arrival)]
    done = [at for at, step in enumerate(steps) if step.action == "rxdone" and at > moved][:1]
    stores = [at for at, step in enumerate(steps) if step.action == "write" and step.name == steps[moved].name]
    return [arrival, moved, *done, *around(stores, moved)]


def steps_of_wrong(rows: list[Row]) -> list[int]:
    """The rows that moved the first wrong frame to the wire."""
    sent = [at for at, row in enumerate(rows) if row.step.action == "frame"]
    wrong = next((number for number, at in enumerate(sent) if rows[at].step.name == "wrong frame"), None)
    if wrong is None:
        return []
    steps = [[at for at, row in enumerate(rows) if (row.step.action, row.step.outcome) == step]
             for step in (("txtake", "took"), ("txput", "put"))]
    return [sent[wrong], *(found[wrong] for found in steps)]


def stars_of(trace: Trace) -> set[int]:
    """The rows that a chart is about: those of a wrong frame or of the lost reply, or the last steps that were
    drawn.
    """
    drawn = [at for at, row in enumerate(trace.rows) if row.step.is_deviation]
    return set(steps_of_wrong(trace.rows) or steps_of_lost(trace.rows, trace.lost) or drawn[-LAST:])


def chart_of(trace: Trace) -> str:
    """The chart of a round."""
    rows = cut(chart_rows(trace, stars_of(trace)))
    heading = ChartRow(dict(zip(COLUMNS, COLUMNS)))
    starts, _ = layout([heading, *rows])
    return "".join(f"{line_of(row, starts)}\n" for row in [heading, *rows])


class Report:
    """Takes the guest's lines of a sweep. `words` are those of the command line."""

    def __init__(self, words: Namespace) -> None:
        self.words, self.symbols = words, Symbols()
        self.fault: Optional[str] = None  # the fault of the first round that failed
        for name in FILES:
            if os.path.exists(self.path(name)):
                os.remove(self.path(name))
        self.begun = time.monotonic()
        self.played: Optional[int] = None

    def line(self, line: str) -> None:
        """Takes a line of the guest."""
        word, _, rest = line.partition(" ")
        if word == "symbol":
            self.symbols.add(*rest.split())
        elif word == "begins":
            self.begun = time.monotonic()
        elif word == "fails:" and self.fault is None:
            self.fault = rest
            tell(rest)
        elif word == "alone:":
            tell(f"by itself, {rest}")
        elif word == "rounds":
            self.played = int(rest.split()[0])
            tell(f"{line}; {self.played / (time.monotonic() - self.begun):.1f} rounds a second")
        else:
            tell(first_line(line))

    def path(self, name: str) -> str:
        return os.path.join(self.words.out, name)

    def show_failed(self) -> None:
        """Stores the schedule and the chart of the round that failed, and prints the chart."""
        with open(self.path("failed.trace")) as file:
            trace = Trace(file, self.symbols)
        chart = chart_of(trace)
        for name, text in (("schedule.txt", trace.schedule([self.fault or ""])), ("chart.txt", chart)):
            with open(self.path(name), "w") as file:
                file.write(text)
        stored = "their schedule is schedule.txt" if self.words.keeps else "--out FOLDER stores their schedule"
        tell(f"{len(trace.deviations)} steps and arrivals were drawn; {stored}")
        tell(f"\n{chart}")

    def site_name(self, site: int) -> str:
        """The place of an access in the driver, by the name of the function or of the register."""
        if site >= MODULES:
            return self.symbols.name_of(site)
        return f"{'write' if site & WRITE else 'read'} {REGISTERS.get(site % WRITE, hex(site % WRITE))}"

    def function_of(self, site: int) -> str:
        return self.site_name(site).partition("+")[0]

    def show_reached(self) -> None:
        """Stores as reached.txt between which accesses steps were played. Prints this by functions of the driver."""
        with open(self.path("reached")) as file:
            pairs = [[int(word, base) for word, base in zip(line.split(), (16, 16, 10, 10))] for line in file]
        seen: Counter[str] = Counter()
        cut_in: Counter[str] = Counter()
        for one, _, _, with_step in pairs:
            seen[self.function_of(one)] += 1
            cut_in[self.function_of(one)] += with_step > 0
        with open(self.path("reached.txt"), "w") as file:
            file.writelines(f"{made:8} {with_step:8}  {self.site_name(one)} -> {self.site_name(other)}\n"
                            for one, other, made, with_step in sorted(pairs))
        reached = sum(pair[3] > 0 for pair in pairs)
        tell(f"steps fell between {reached} of {len(pairs)} pairs of accesses that follow each other in the driver:")
        shown = [f"{name} {cut_in[name]}/{seen[name]}" for name in sorted(seen, key=lambda name: (-seen[name], name))]
        tell(f"  after {', '.join(shown[:12])}{', ..' if len(shown) > 12 else ''}")

    def end(self, error: Optional[str] = None, with_reached: bool = True) -> bool:
        """Prints the round that failed, and with `with_reached` what the rounds reached. Returns whether all rounds
        passed. `error` is why the guest has ended too early, or None.
        """
        if self.played is None:
            self.fault = error or "the rounds have not ended"
            tell(self.fault)
        if self.fault and os.path.exists(self.path("failed.trace")):
            self.show_failed()
        if with_reached and os.path.exists(self.path("reached")):
            self.show_reached()
        return self.fault is None


