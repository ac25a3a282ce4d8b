"""The chart of a scenario's run: a column for each host and each wire.

It is drawn from the log that `nicbench run --events` writes. The hosts of a wire are next to it. An arrow from a host
to its wire is a frame that was put on the wire. An arrow to a host is a frame that was delivered.
"""

from __future__ import annotations

import re
from typing import Dict, List

from finder.chart import ChartRow
from finder.ends import UsageError
from finder.page.from_scenario import steps_of
from finder.page.write import scenario_page

MOST_ROWS = 500


def wires_in(text: str, path: str) -> dict[str, str]:
    """The wire of each host, by the `host` lines of a scenario. Raises UsageError if there is no such line."""
    words = (line.split() for line in text.splitlines())
    wires = {line[1]: line[3] for line in words if line and line[0] == "host" and len(line) > 3}
    if not wires:
        raise UsageError(f"{path}: it has no host, so it isn't a scenario")
    return wires


def events_in(text: str, path: str, scenario: str, wires: dict[str, str]) -> list[str]:
    """The lines of a log. Raises UsageError if a line isn't an event of these hosts."""
    host = "(?:{})".format("|".join(map(re.escape, wires)))
    call = f"(?:send|recv|interrupt|reset|join|leave|drain) {host}"
    tick = rf"@\d+ (?:go|[a-z]+:{host}) [a-z]+(?: \d+)?"
    event = re.compile(rf"\d+ line \d+ (?:tick|{call})(?: \w+)*(?: {tick})*", re.ASCII)
    lines = text.splitlines()
    for number, line in enumerate(lines, 1):
        if not event.fullmatch(line):
            raise UsageError(f"{path}: line {number} isn't an event of the hosts in {scenario}")
    return lines


def columns_of(wires: dict[str, str]) -> list[str]:
    """The columns: one without a name, the place, and for each wire its first host, the wire, and its other hosts."""
    columns = ["", "place"]
    for wire in dict.fromkeys(wires.values()):
        hosts = [f"host {host}" for host, its in wires.items() if its == wire]
        columns += [*hosts[:1], f"wire {wire}", *hosts[1:]]
    return columns


def tick_row(place: str, text: str, wires: dict[str, str]) -> ChartRow:
    """The row of a tick with its outcome, such as `txput:a put 60`."""
    tick, outcome, *size = text.split()
    kind, _, host = tick.partition(":")
    if not host:
        return ChartRow({"place": f"{place} {kind}"})
    at, wire = f"host {host}", f"wire {wires[host]}"
    if not size:
        return ChartRow({"place": place, at: f"{kind} {outcome}"})
    cells = {"place": place, wire: f"{size[0]} bytes"}
    if outcome == "put":
        return ChartRow({**cells, at: kind}, (at, wire))
    return ChartRow({**cells, at: outcome}, (wire, at))


def rows_of(line: str, wires: dict[str, str]) -> list[ChartRow]:
    """The rows of a line of the log: one for the call, if it is one, and one for each tick."""
    head, *ticks = line.split(" @")
    number, _, _, call, *words = head.split()
    is_call = call != "tick"
    rows = [ChartRow({"place": number, f"host {words[0]}": " ".join([call, *words[1:]])})] if is_call else []
    for tick in ticks:
        accesses, _, text = tick.partition(" ")
        rows.append(tick_row(f"{number}.{accesses}" if is_call else number, text, wires))
    return rows


def end_of(drawn: list[int], count: int) -> str:
    """The last line of a chart of the events with these numbers. `count` is the number of all events."""
    events = f"{count} event" + ("" if count == 1 else "s")
    if len(drawn) == count:
        return f"{events}."
    if not drawn:
        return f"None of {events}."
    return (f"Event {drawn[0]}" if len(drawn) == 1 else f"Events {drawn[0]} to {drawn[-1]}") + f" of {count}."


def chart_rows(log: list[str], wires: dict[str, str], first: int, last: int) -> tuple[list[ChartRow], str]:
    """The rows of the events from `first` to `last`, and the last line of the chart. There are at most MOST_ROWS rows,
    unless the first event has more.
    """
    rows: list[ChartRow] = []
    drawn: list[int] = []
    for line in log:
        number = int(line.partition(" ")[0])
        if not first <= number <= last:
            continue
        more = rows_of(line, wires)
        if rows and len(rows) + len(more) > MOST_ROWS:
            return rows, f"{end_of(drawn, len(log))} A chart has at most {MOST_ROWS} rows: see --from and --to."
        rows += more
        drawn.append(number)
    return rows, end_of(drawn, len(log))


def html_of(name: str, log: List[str], wires: Dict[str, str], first: int, last: int) -> str:
    """The page of the events from `first` to `last`."""
    drawn = [number for number in (int(line.partition(" ")[0]) for line in log) if first <= number <= last]
    steps = [one for one in steps_of(log, wires) if int(one.step.place.partition(".")[0]) in drawn]
    return scenario_page(f"{name}: {end_of(drawn, len(log))}", steps, wires)
