"""A run as a chart: driver, registers, memory, adapter, wire and interrupt line as columns, time downwards.

`chart_of` returns the rows of the chart of a log, from which `chart` here makes a text, and svg.py a picture.
"""

from __future__ import annotations

from typing import TYPE_CHECKING, Dict, List, NamedTuple, Optional, Sequence, Tuple

from finder.names import SLOT, fields_of, is_register, value_in
from finder.slots import Slots

if TYPE_CHECKING:
    from finder.log import RunLog, Step

# The most rows that are shown: before a deviation, from the deviation on, and at the end of a run. The last two
# numbers are those of later uses of a slot, and of a run without deviations.
BEFORE, AFTER, LAST, LATER, ALONE = 4, 6, 6, 3, 20
COLUMNS = ("", "place", "driver", "registers", "memory", "adapter", "wire", "line")
STAR, BAR = "*", "|"
SHORT = 24  # the most digits of a value in memory that is shown completely
ROOM = 5  # characters between columns that an arrow may connect: the arrow has at least three of them
NARROW = 2
ROUNDS = ("arrive", "offer", "step", "settle")  # requests that begin a round


class ChartRow(NamedTuple):
    """A row of a chart: its texts by column, and the columns where its arrow begins and ends (None without an arrow).

    The text of a mark goes over the columns after its own one, which is no wider because of it.
    """
    cells: Dict[str, str]
    arrow: Optional[Tuple[str, str]] = None
    is_mark: bool = False


def bytes_in(data: bytes, size: int) -> str:
    """The bytes of an access in hexadecimal; of more than 12 bytes, the first 8 and `..`."""
    return data.hex() if 2 * max(size, len(data)) <= SHORT else data[:SHORT // 2 - 4].hex() + ".."


def memory_text(step: Step) -> str:
    """The text of an access of memory: the memory's name, and the fields if it is a descriptor. For other memory, the
    number of bytes, and the bytes if they are known.
    """
    if step.data is None or not step.size:
        told = f", from there on {step.data.hex()}" if step.data else ""
        return f"{step.name}, {step.size} bytes" if step.size or step.data == b"" else f"{step.name} by a pointer{told}"
    is_whole = len(step.data) == step.size
    fields = fields_of(step.name, step.size, int.from_bytes(step.data, "little")) if is_whole else None
    return f"{step.name} {fields}" if fields else f"{step.name}, {step.size} bytes: {bytes_in(step.data, step.size)}"


def of_access(step: Step) -> ChartRow:
    """The row of an access: its place, whether the driver reads or writes, and the register or memory with its value.
    """
    if is_register(step.name):
        column = "registers"
        text = step.name if step.value is None else f"{step.name} {value_in(step.name, step.value)}"
    else:
        column, text = "memory", memory_text(step)
    cells = {"place": step.place, "driver": step.action, column: text}
    return ChartRow(cells, ("driver", column) if step.action == "write" else (column, "driver"))


def of_adapter(step: Step, slot: Optional[str], head: Optional[str]) -> ChartRow:
    """The row of a step of the adapter: its outcome, what it does to memory or EERD, and the head that it has moved."""
    cells = {"adapter": f"{step.action} {step.outcome}", **({"registers": head} if head else {})}
    if step.action == "eeprom":
        return ChartRow({**cells, "registers": "EERD DONE"}, ("adapter", "registers"))
    if slot is None:
        return ChartRow(cells)
    if step.action == "txtake":
        return ChartRow({**cells, "memory": f"{slot} is fetched"}, ("memory", "adapter"))
    text = {"rxdata": f"buffer of {slot} is written", "rxdone": f"{slot} is written back",
            "txput": f"{slot} is written back if RS is set"}[step.action]
    return ChartRow({**cells, "memory": text}, ("adapter", "memory"))


def frame_text(step: Step) -> str:
    """The text of a frame: its number of bytes, and its last two bytes."""
    return f"{step.size} bytes" + (f", ..{step.data[-2:].hex()}" if step.data else "")


def chart_row_of(step: Step, slot: Optional[str], head: Optional[str]) -> ChartRow:
    """The row of a step in a chart. Of a request, its place is in the row."""
    if step.is_access():
        return of_access(step)
    if step.action == "choose":
        limit = step.outcome.removeprefix("below ")
        return ChartRow({"place": step.place, "driver": f"choose {limit}: {step.value or 0}"})
    if step.action in ("raise", "lower"):
        return ChartRow({"adapter": f"{step.action}s the line"})
    if step.action == "fault":
        return ChartRow({"adapter": f"fault {step.name} {step.outcome}"})
    if step.action == "frame":
        return ChartRow({"wire": frame_text(step)}, ("adapter", "wire"))
    if step.action == "mark":
        return ChartRow({"driver": step.outcome}, is_mark=True)
    if step.action == "arrive":
        named = {"place": step.place, "driver": step.action} if step.place else {}
        return ChartRow({**named, "adapter": step.outcome, "wire": frame_text(step)}, ("wire", "adapter"))
    if step.action == "request":
        return ChartRow({"place": step.place, "driver": step.outcome})
    return of_adapter(step, slot, head)


def begins_round(step: Step) -> bool:
    """Whether a step is a request that begins a round."""
    return bool(step.place) and (step.action == "arrive" or step.outcome in ROUNDS and step.action == "request")


def unnamed(row: ChartRow) -> Optional[ChartRow]:
    """The row of a request that begins a round, without the name of the request; None if nothing remains."""
    cells = {column: text for column, text in row.cells.items() if column not in ("place", "driver")}
    return row._replace(cells=cells) if cells else None


def rows_of(run: RunLog) -> List[ChartRow]:
    """All rows of a chart, with stars and with the bar of the interrupt line. A request that begins a round is named
    only after a deviation, whose place it is.
    """
    rows, slots, is_up, has_star = [], Slots(), False, False
    for step in run.steps:
        shown: Optional[ChartRow] = chart_row_of(step, *slots.play(step))
        if step.action in ("raise", "lower"):
            is_up = step.action == "raise"
        if shown and begins_round(step) and not has_star:
            shown = unnamed(shown)
        has_star = step.is_deviation or has_star and not step.place
        if shown:
            marks = {"": STAR if step.is_deviation else "", "line": BAR if is_up else ""}
            rows.append(shown._replace(cells={**shown.cells, **marks}))
    return rows


def slot_of(row: ChartRow) -> str | None:
    """The slot of a ring that the memory column of a row names, or None."""
    found = SLOT.search(row.cells.get("memory", ""))
    return found[0].partition("+")[0] if found else None


def later_rows(rows: list[ChartRow], star: int) -> list[int]:
    """The indices of at most LATER later rows in which a slot is used in another way than near a deviation. The slot is
    that of the first access from the row `star` on.
    """
    access = next((row for row in rows[star:] if "place" in row.cells), None)
    slot = access and slot_of(access)
    uses: dict[str, int] = {}  # the first row of each use
    for at, row in enumerate(rows[star:], star):
        if slot and slot_of(row) == slot:
            uses.setdefault(row.cells["memory"], at)
    return [at for at in uses.values() if at >= star + AFTER][:LATER]


def last_rows(rows: list[ChartRow]) -> list[int]:
    """The indices of the last LAST rows. Of consecutive rows that differ only in their places, only the last one is
    among them.
    """
    texts = [{**row.cells, "place": ""} for row in rows]
    return [at for at in range(max(0, len(rows) - LAST), len(rows)) if texts[at:at + 1] != texts[at + 1:at + 2]]


def cut(rows: list[ChartRow]) -> list[ChartRow]:
    """The rows from BEFORE rows before the first deviation to the end. Of a long part without a deviation, only a few
    rows remain, and a row `..` states the number of the others. Without any deviation, only the last rows remain.
    """
    stars = [at for at, row in enumerate(rows) if row.cells[""]]
    first = stars[0] - BEFORE if stars else len(rows) - ALONE
    near = {at for star in stars for at in (*range(star - BEFORE, star + AFTER), *later_rows(rows, star))}
    near.update(last_rows(rows) if stars else range(first, len(rows)))
    shown, last, hint = [], None, {"memory": "--rows all shows them"}
    for at in sorted(at for at in near if max(0, first) <= at < len(rows)):
        if last is not None and at > last + 2:
            shown.append(ChartRow({"place": "..", "driver": f"{at - last - 1} rows", **hint}))
            hint = {}
        shown += rows[at - 1:at + 1] if last is not None and at == last + 2 else [rows[at]]
        last = at
    return shown


def chart_of(run: RunLog, is_whole: bool = False) -> list[ChartRow]:
    """The rows that a run's chart shows, without the heading: all of them, or those near deviations and at the end."""
    rows = rows_of(run)
    return rows if is_whole else cut(rows)


def end_of(run: RunLog) -> str:
    """The line after the rows of a chart: the run's fault, or that the test passes."""
    return run.fault or "The test passes."


def gap_after(column: str) -> int:
    return NARROW if column in ("", "place", "wire", "line") else ROOM


def layout(rows: list[ChartRow], columns: Sequence[str] = COLUMNS) -> tuple[dict[str, int], int]:
    """Where each column of some rows begins, and where the gap after the last one ends, in characters."""
    starts, at = {}, 0
    for column in columns:
        starts[column] = at
        texts = (row.cells.get(column, "") for row in rows if not row.is_mark)
        at += max(len(column), *map(len, texts)) + gap_after(column)
    return starts, at


def arrow_ends(row: ChartRow, starts: dict[str, int]) -> tuple[int, int, bool]:
    """The position where the arrow of a row begins, the position after its end, and whether it points to the right."""
    assert row.arrow
    left, right = sorted(row.arrow, key=lambda column: starts[column])
    text = row.cells.get(left, "")
    return starts[left] + (len(text) + 1 if text else 0), starts[right] - 1, row.arrow[1] == right


def line_of(row: ChartRow, starts: dict[str, int]) -> str:
    """The line of a row in a text chart whose columns begin at `starts`."""
    line = ""
    for column in starts:
        line = line.ljust(starts[column]) + row.cells.get(column, "")
    if row.arrow:
        begin, end, is_right = arrow_ends(row, starts)
        dashes = "-" * (end - begin - 1)
        line = line[:begin] + (f"{dashes}>" if is_right else f"<{dashes}") + line[end:]
    return line.rstrip()


def lines_of(rows: list[ChartRow], columns: Sequence[str] = COLUMNS) -> list[str]:
    """The lines of a text chart of these rows: the heading, and a line for each row."""
    heading = ChartRow(dict(zip(columns, columns)))
    starts, _ = layout([heading, *rows], columns)
    return [line_of(row, starts) for row in [heading, *rows]]


def text_chart(rows: list[ChartRow], end: str, columns: Sequence[str] = COLUMNS) -> str:
    """The text of a chart of these rows, with this last line."""
    return "".join(f"{line}\n" for line in [*lines_of(rows, columns), f"   {end}"])


def chart(run: RunLog, is_whole: bool = False) -> str:
    """The text of a run's chart."""
    return text_chart(chart_of(run, is_whole), end_of(run))
