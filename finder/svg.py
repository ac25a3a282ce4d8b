"""The chart of a run as an SVG picture, from the same rows as the text."""

from __future__ import annotations

import re
from xml.sax.saxutils import escape
from typing import TYPE_CHECKING, Iterator, Sequence

from finder.chart import BAR, COLUMNS, ChartRow, arrow_ends, chart_of, end_of, layout

if TYPE_CHECKING:
    from finder.log import RunLog

# Sizes in pixels. A character of a monospace font of size FONT is at most CHAR wide.
FONT, CHAR, HEIGHT, MARGIN, TIP, BAR_WIDTH = 13, 8, 20, 12, 5, 4
UP = 4  # the middle of a line of text is this far above its base
LONGEST = 160  # the most characters of the last line that are shown
NOT_XML = re.compile("[^\t\n\r\x20-\ud7ff\ue000-\ufffd\U00010000-\U0010ffff]")
STYLE = """
.page { fill: #ffffff } .mark { fill: #fff0b3 } .bar { fill: #b35900 }
text { fill: #1f1f1f } .heading text { font-weight: bold } path { stroke: #1f1f1f; fill: none }
@media (prefers-color-scheme: dark) {
.page { fill: #161616 } .mark { fill: #4d3d00 } .bar { fill: #ffb366 }
text { fill: #f0f0f0 } path { stroke: #f0f0f0 }
}
"""


def xml_text(text: str) -> str:
    """The text as it may be written inside an element, with U+FFFD for characters that XML doesn't allow."""
    return escape(NOT_XML.sub("\ufffd", text))


def x_of(characters: int) -> int:
    return MARGIN + CHAR * characters


def y_of(row: int) -> int:
    """The base of the text in a row, by its number; the heading is row 0."""
    return MARGIN + HEIGHT * row + FONT


def texts_of(row: ChartRow, number: int, starts: dict[str, int]) -> Iterator[str]:
    """Yields the texts of a row as elements of SVG, without its bar."""
    for column in starts:
        text = row.cells.get(column, "")
        if text and text != BAR:
            name = column or "star"
            yield f'<text class="{name}" x="{x_of(starts[column])}" y="{y_of(number)}">{xml_text(text)}</text>'


def arrow_of(row: ChartRow, number: int, starts: dict[str, int]) -> str:
    """The arrow of a row, as a path."""
    begin, end, is_right = arrow_ends(row, starts)
    y, ends = y_of(number) - UP, (x_of(begin), x_of(end))
    tail, tip = ends if is_right else ends[::-1]
    back = tip - TIP if is_right else tip + TIP
    return f'<path class="arrow" d="M{tail} {y} H{tip} M{back} {y - TIP + 1} L{tip} {y} L{back} {y + TIP - 1}"/>'


def row_of(row: ChartRow, number: int, starts: dict[str, int], width: int) -> str:
    """The elements of a row of the chart."""
    parts = list(texts_of(row, number, starts))
    if row.arrow:
        parts.append(arrow_of(row, number, starts))
    if not row.cells.get(""):
        return f'<g class="row">{"".join(parts)}</g>'
    mark = f'<rect class="mark" x="0" y="{y_of(number) - UP - HEIGHT // 2}" width="{width}" height="{HEIGHT}"/>'
    return f'<g class="row deviation">{mark}{"".join(parts)}</g>'


def bars_of(rows: list[ChartRow], starts: dict[str, int]) -> Iterator[str]:
    """Yields the bar of the interrupt line: a rectangle for each group of consecutive rows with the asserted line."""
    is_up = [bool(row.cells.get("line")) for row in rows] + [False]
    for at, up in enumerate(is_up):
        if not up or at and is_up[at - 1]:
            continue
        size = is_up.index(False, at) - at
        yield (f'<rect class="bar" x="{x_of(starts["line"])}" y="{y_of(at + 1) - UP - HEIGHT // 2}" '
               f'width="{BAR_WIDTH}" height="{HEIGHT * size}"/>')


def picture(rows: list[ChartRow], end: str, columns: Sequence[str] = COLUMNS) -> str:
    """A chart of these rows with this last line, as an SVG document. The colors of a dark background are used if the
    reader prefers them."""
    heading = ChartRow({column: column for column in columns})
    starts, characters = layout([heading, *rows], columns)
    width = x_of(max(characters, starts["place"] + len(end))) + MARGIN
    height = y_of(len(rows) + 1) + MARGIN
    parts = [
        f'<svg xmlns="http://www.w3.org/2000/svg" width="{width}" height="{height}" viewBox="0 0 {width} {height}" '
        f'font-family="monospace" font-size="{FONT}">',
        f"<title>{xml_text(end)}</title>", f"<style>{STYLE}</style>",
        f'<rect class="page" x="0" y="0" width="{width}" height="{height}"/>',
        f'<g class="heading">{"".join(texts_of(heading, 0, starts))}</g>',
        *(row_of(row, number, starts, width) for number, row in enumerate(rows, 1)),
        *bars_of(rows, starts),
        f'<text class="end" x="{x_of(starts["place"])}" y="{y_of(len(rows) + 1)}">{xml_text(end)}</text>', "</svg>"]
    return "".join(f"{part}\n" for part in parts)


def svg(run: RunLog, is_whole: bool = False) -> str:
    """The chart of a run as an SVG document: all rows, or those near deviations and at the end."""
    return picture(chart_of(run, is_whole), end_of(run)[:LONGEST])
