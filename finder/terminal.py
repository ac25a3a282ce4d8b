"""Text charts on a terminal: their width, and colors."""

from __future__ import annotations

import os
import re
import sys
import textwrap
from typing import TYPE_CHECKING, Iterator, NamedTuple, Optional, Sequence

from finder.chart import BAR, COLUMNS, STAR, chart_of, end_of, lines_of

if TYPE_CHECKING:
    from finder.chart import ChartRow
    from finder.log import RunLog

WHEN = ("auto", "always", "never")
LEAST_WIDTH = 40  # a narrower terminal gets lines of this width
INDENT = 4  # of rows in which the first column is empty
# The sequences of ECMA-48, section 8.3.117, for the parts of a chart
BOLD, RED, GREEN, YELLOW, PLAIN = "\x1b[1m", "\x1b[31m", "\x1b[32m", "\x1b[33m", "\x1b[0m"
# Columns whose names a row of a narrow chart must state: those of hosts and wires
NAMED = re.compile(r"(?:host|wire) .*")
# What is printed in place of a chart without rows
NOTHING_PLAYED = "nothing was played: the test made no access to a register or to memory, no step and no arrival\n"


class Look(NamedTuple):
    """The width of the terminal in characters, or None without a limit; and whether it shows colors."""
    width: Optional[int] = None
    has_color: bool = False


def look_of(when: str) -> Look:
    """The look of standard output. `when` is a word of WHEN. With `auto`, only a terminal has colors. It has none if
    NO_COLOR is set or TERM is `dumb`.
    """
    is_terminal = sys.stdout is not None and sys.stdout.isatty()
    width = None
    if is_terminal:
        try:
            width = os.get_terminal_size(sys.stdout.fileno()).columns
        except OSError:
            pass
    is_plain = os.environ.get("NO_COLOR") or os.environ.get("TERM") == "dumb"
    has_color = when == "always" or when == "auto" and is_terminal and not is_plain
    return Look(max(LEAST_WIDTH, width) if width else None, has_color)


def narrow_text(row: ChartRow, columns: Sequence[str]) -> str:
    """The texts of a row in one line. An arrow is between the texts that it connects; an end without a text is the name
    of its column.
    """
    ends = sorted(row.arrow, key=columns.index) if row.arrow else []
    line = ""
    for column in columns:
        text = row.cells.get(column, "")
        if column in ("", "place", "line") or not (text or column in ends):
            continue
        if NAMED.fullmatch(column):
            text = f"{column}: {text}" if text else column
        if ends and column == ends[1]:
            line += " --> " if row.arrow and row.arrow[1] == column else " <-- "
        elif line:
            line += "  "
        line += text or column
    return line


def narrow_lines(row: ChartRow, columns: Sequence[str], width: int) -> Iterator[str]:
    """Yields the lines of a row in a narrow chart: the star, the place, the texts, and at the right the bar."""
    first = next(column for column in columns if column not in ("", "place"))
    head = f"{row.cells.get('', '') or ' '} {row.cells.get('place', ''):<7}"
    indent = " " * (0 if row.cells.get(first) else INDENT)
    lines = textwrap.wrap(narrow_text(row, columns), width - 2, initial_indent=head + indent,
                          subsequent_indent=" " * (len(head) + INDENT + 2), break_on_hyphens=False) or [head.rstrip()]
    for line in lines:
        yield line.ljust(width - 1) + BAR if row.cells.get("line") else line.rstrip()


def colored(line: str, row: ChartRow) -> str:
    """The line of a row with colors: deviations are yellow, and the bar is red."""
    is_up = bool(row.cells.get("line")) and line.endswith(BAR)
    text, bar = (line[:-1], f"{RED}{BAR}{PLAIN}") if is_up else (line, "")
    return f"{YELLOW}{text}{PLAIN}{bar}" if row.cells.get("") == STAR else text + bar


def chart_on(look: Look, rows: list[ChartRow], end: str, is_right: bool, columns: Sequence[str] = COLUMNS) -> str:
    """The text of a chart as a terminal shows it. `is_right` is whether the last line is good news."""
    heading, *lines = lines_of(rows, columns)
    shown = [[line] for line in lines]
    if look.width and max(map(len, [heading, *lines])) > look.width:
        heading = f"  place  {'what happens'}"
        shown = [list(narrow_lines(row, columns, look.width)) for row in rows]
    told = [f"   {end}"]
    if look.width and len(told[0]) > look.width:
        told = textwrap.wrap(end, look.width, initial_indent="   ", subsequent_indent="   ")
    if look.has_color:
        heading = f"{BOLD}{heading}{PLAIN}"
        shown = [[colored(line, row) for line in its] for its, row in zip(shown, rows)]
        told = [f"{GREEN if is_right else RED}{line}{PLAIN}" for line in told]
    return "".join(f"{line}\n" for line in [heading, *(line for its in shown for line in its), *told])


def text_of_run(run: RunLog, has_all_rows: bool, when: str) -> str:
    """The text of a run's chart on standard output. For a run without rows, a line reports this, and another one how
    the run ended.
    """
    if not run.steps:
        return NOTHING_PLAYED + f"   {end_of(run)}\n"
    return chart_on(look_of(when), chart_of(run, has_all_rows), end_of(run), not run.fault)
