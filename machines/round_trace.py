"""The trace of a round, as rows for a chart and as a schedule, both in the form of tools/races."""

from __future__ import annotations

import sys
from typing import Iterable, NamedTuple, Tuple

from needs import TOP

sys.path.insert(0, TOP)
from finder.chart import BAR, STAR, ChartRow, chart_row_of, of_access, of_adapter  # noqa: E402
from finder.log import ADAPTER, DRIVER, WIRE, Step  # noqa: E402
from finder.names import REGISTERS  # noqa: E402

PAGE = 0x1000
PREFIX = "e1000_"  # the names of most functions of the driver begin with this, and charts don't show it
ALL_BITS = 0xFFFFFFFF
DESCRIPTOR = 16  # bytes


class Ring(NamedTuple):
    """The registers of a ring: its base, its length in bytes, its head and its tail."""
    base: int = 0
    length: int = 0
    head: int = 0
    tail: int = 0


# The receive ring and the transmit ring
Both = Tuple[Ring, Ring]


def name_in(rings: Both, address: int) -> str:
    """The name of a byte of memory, by the rings: a byte of a descriptor, or an address."""
    for name, ring in zip(("rx", "tx"), rings):
        if 0 <= address - ring.base < ring.length:
            slot, byte = divmod(address - ring.base, DESCRIPTOR)
            return f"{name}[{slot}]" + (f"+{byte}" if byte else "")
    return f"{address:#x}"


class Symbols:
    """The functions of the driver, by their addresses in the guest."""

    def __init__(self) -> None:
        self.names: list[tuple[int, str]] = []

    def add(self, address: str, name: str) -> None:
        self.names = sorted([*self.names, (int(address, 16), name)])

    def name_of(self, address: int) -> str:
        """The function that contains the instruction at this address, and the place in it; the address if no function
        does.
        """
        below = [one for one in self.names if one[0] <= address]
        if not below or address - below[-1][0] >= 16 * PAGE:
            return f"{address:#x}"
        return f"{below[-1][1]}+{address - below[-1][0]:#x}"


class Row(NamedTuple):
    """A step, the place in the driver (`function`), and the rings after the step. A step of the adapter has the name of
    its slot, and a frame that of its request or its reply.
    """
    step: Step
    function: str = ""
    rings: Both = (Ring(), Ring())


class Trace:
    """A round: its rows, its settings and the schedule of what was drawn."""

    def __init__(self, lines: Iterable[str], symbols: Symbols) -> None:
        self.symbols = symbols
        self.rows: list[Row] = []
        self.deviations: list[str] = []
        self.rings = self.begun = Ring(), Ring()  # the rings now, and the rings when the round began
        self.waiting: list[str] = []  # deviations whose access isn't known yet
        self.number = self.access = 0  # of the round, and of the last access in it
        self.settings = ""
        self.lost: list[str] = []  # the replies that didn't come
        for line in lines:
            word, *rest = line.split()
            getattr(self, f"line_{word}")(*rest)

    def line_ring(self, name: str, base: str, *numbers: str) -> None:
        """Takes over a ring: its registers after the last row, or when the round began."""
        ring = Ring(int(base, 16), *map(int, numbers))
        self.rings = (ring, self.rings[1]) if name == "rx" else (self.rings[0], ring)
        if self.rows:
            self.rows[-1] = self.rows[-1]._replace(rings=self.rings)
        else:
            self.begun = self.rings

    def add(self, step: Step, function: str = "") -> None:
        self.rows.append(Row(step, function, self.rings))

    def line_round(self, number: str, *settings: str) -> None:
        self.number, self.access, self.settings = int(number), 0, " ".join(settings)

    def line_lost(self, number: str) -> None:
        self.lost.append(f"reply {number}")

    def line_verdict(self, verdict: str) -> None:
        pass

    def line_poke(self) -> None:
        pass

    def line_line(self, level: str) -> None:
        self.add(Step(ADAPTER, "raise" if int(level) else "lower"))

    def add_access(self, step: Step, function: str = "") -> None:
        """Adds an access of the driver. The drawn actions that wait were before it, and become its deviations."""
        self.access += 1
        place = f"{self.number}.{self.access}"
        self.add(step._replace(place=place), function)
        self.deviations += [f"{place} {action} before {step.action} {step.name}" for action in self.waiting]
        self.waiting = []

    def register(self, kind: str, offset: str, value: str) -> None:
        name = REGISTERS.get(int(offset, 16), f"register[0x{offset}]")
        self.add_access(Step(DRIVER, kind, name=name, size=4, value=int(value, 16)))

    def line_read(self, offset: str, value: str) -> None:
        self.register("read", offset, value)

    def line_write(self, offset: str, value: str) -> None:
        self.register("write", offset, value)

    def memory(self, kind: str, instruction: str, address: str, size: str, value: str) -> None:
        data = int(value, 16).to_bytes(8, "little")[:int(size)]
        name = name_in(self.rings, int(address, 16))
        self.add_access(Step(DRIVER, kind, name=name, size=int(size), data=data),
                        self.symbols.name_of(int(instruction, 16)))

    def line_load(self, *words: str) -> None:
        self.memory("read", *words)

    def line_store(self, *words: str) -> None:
        self.memory("write", *words)

    def line_step(self, kind: str, outcome: str, slot: str, mark: str = "") -> None:
        name = f"{kind[:2]}[{slot}]" if kind[:2] in ("rx", "tx") else ""
        self.add(Step(ADAPTER, kind, name=name, outcome=outcome, is_deviation=bool(mark)))
        self.waiting += [kind] if mark else []

    def line_arrive(self, fate: str, number: str, size: str, _: str, mark: str = "") -> None:
        self.add(Step(WIRE, "arrive", name=f"reply {number}", size=int(size), outcome=fate, is_deviation=bool(mark)))
        self.waiting += ["arrive"] if mark else []

    def line_sent(self, number: str, size: str, _: str, wrong: str = "") -> None:
        name = f"{wrong or 'a'} frame" if wrong or number == "0" else f"request {number}"
        self.add(Step(WIRE, "frame", name=name, size=int(size)))

    def schedule(self, comments: list[str]) -> str:
        """The drawn steps in the form of a schedule. Steps after the last access of the driver aren't in it."""
        told = [" ".join(["#", *comment.split()]) for comment in (*comments, self.settings)]
        return "".join(f"{line}\n" for line in [*told, *self.deviations])


def access_row(row: Row) -> ChartRow:
    """The row of a chart for an access of the driver, with the function that makes an access of a ring."""
    shown = of_access(row.step)
    function = row.function.partition("+")[0].removeprefix(PREFIX)
    cells = {**shown.cells, "driver": f"{function} {shown.cells['driver']}".strip()}
    if row.step.value == ALL_BITS:
        cells["registers"] = " ".join(cells["registers"].split()[:2])  # without the names of all bits
    return shown._replace(cells=cells)


def chart_row(row: Row, before: Both) -> ChartRow:
    """The row of a chart for a row of a trace. `before` has the rings before the row."""
    step = row.step
    if step.is_access():
        return access_row(row)
    if step.action in ("raise", "lower"):
        return chart_row_of(step, None, None)
    if step.actor == WIRE:
        wire = {"wire": f"{step.name}, {step.size} bytes"}
        return ChartRow({**wire, "adapter": step.outcome}, ("wire", "adapter")) if step.outcome else \
            ChartRow(wire, ("adapter", "wire"))
    both = zip(("RDH", "TDH"), row.rings, before)
    moved = next((f"{name} {now.head:#x}" for name, now, was in both if now.head != was.head), None)
    return of_adapter(step, step.name or None, moved)


def chart_rows(trace: Trace, stars: set[int]) -> list[ChartRow]:
    """The rows of a trace as rows of a chart, with stars at the rows with these numbers."""
    rows, is_up, before = [], False, trace.begun
    for at, row in enumerate(trace.rows):
        shown, before = chart_row(row, before), row.rings
        if row.step.action in ("raise", "lower"):
            is_up = row.step.action == "raise"
        marks = {"": STAR if at in stars else "", "line": BAR if is_up else ""}
        rows.append(shown._replace(cells={**shown.cells, **marks}))
    return rows
