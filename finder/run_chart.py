"""Draws a run, from its log.

LOG is what a test with the explorer, or tools/races, prints for --replay SCHEDULE --log --json.
With --html, the page compares the run with that of OTHER, the log of the run without deviations.

Or LOG is what nicbench run --events writes. Then SCENARIO is the scenario that was run. The place
14 is event 14: a call with its answer, or a tick. 14.1 is a tick inside this call, after 1 of the
call's accesses to memory and registers.
"""

from __future__ import annotations

import argparse
import signal
import sys
from typing import List, NoReturn, Optional, Sequence

from finder import event_chart
from finder.ends import BY_SIGNAL, Ended, Unprinted, UsageError, listen, prepare_output, say, tell
from finder.log import MOST_BYTES, LogError, RunLog, runs_in
from finder.page.write import page
from finder.svg import picture, svg
from finder.terminal import WHEN, chart_on, look_of, text_of_run
from finder.vcd import vcd

DRAWN, USAGE, UNWRITTEN = 0, 2, 3
NOTE = """\
Exit status: 0 if the run was drawn, 2 if an argument, SCENARIO or LOG is invalid, 3 if the output
couldn't be written, 141 if nobody reads it any more.
"""


class Parser(argparse.ArgumentParser):
    """Raises UsageError for invalid arguments, in place of printing its usage."""

    def error(self, message: str) -> NoReturn:
        raise UsageError(message)


def text_of(path: str) -> str:
    """The text of the file at this path, or of standard input for `-`. Raises UsageError if it can't be read."""
    try:
        with open(0 if path == "-" else path, encoding="utf-8", errors="replace") as file:
            text = file.read(MOST_BYTES + 1)
    except OSError as error:
        raise UsageError(f"{path}: {error.strerror}") from None
    if len(text) > MOST_BYTES:
        raise UsageError(f"{path}: it has more than {MOST_BYTES} characters")
    return text


def number_of(text: str) -> int:
    """The number of an event that a text spells. Raises ArgumentTypeError if it spells none."""
    if not (text.isascii() and text.isdigit() and len(text) < 20):
        raise argparse.ArgumentTypeError(f"{text!r} isn't the number of an event")
    return int(text)


def arguments_of(words: Optional[Sequence[str]], version: str) -> argparse.Namespace:
    parser = Parser(prog="tools/run_chart", description=__doc__, epilog=NOTE,
                    usage="tools/run_chart [OPTION..] LOG [OTHER]\n       tools/run_chart [OPTION..] SCENARIO [LOG]",
                    formatter_class=argparse.RawDescriptionHelpFormatter)
    parser.add_argument("--version", action="version", version=f"%(prog)s {version}")
    form = parser.add_mutually_exclusive_group()
    form.add_argument("--svg", action="store_true", help="write an SVG picture in place of a text")
    form.add_argument("--vcd", action="store_true", help="write a value change dump (IEEE 1364), except of a scenario")
    form.add_argument("--html", action="store_true", help="write a page in place of a text: step by step")
    parser.add_argument("--color", choices=WHEN, default="auto",
                        help="colors in the text: auto, by default: on a terminal")
    parser.add_argument("--rows", choices=("near", "all"),
                        help="the rows near deviations and at the end, by default, or all; except of a scenario")
    parser.add_argument("--from", dest="first", type=number_of, metavar="N",
                        help="the first event of a scenario, 0 by default")
    parser.add_argument("--to", dest="last", type=number_of, metavar="N", help="the last event of a scenario")
    parser.add_argument("paths", metavar="LOG", nargs="+",
                        help="- is standard input, which is the default after SCENARIO")
    args = parser.parse_args(words)
    if len(args.paths) > 2:
        raise UsageError("give one file or two")
    return args


def draw_scenario(args: argparse.Namespace, text: str) -> str:
    """The chart of a scenario's run."""
    scenario, path, first, last = args.paths[0], [*args.paths, "-"][1], args.first or 0, args.last
    last = sys.maxsize if last is None else last
    if args.vcd or args.rows:
        raise UsageError("--vcd and --rows are for the logs of tests only")
    if last < first:
        raise UsageError(f"--from: {first} is after {last}")
    wires = event_chart.wires_in(text, scenario)
    log = event_chart.events_in(text_of(path), path, scenario, wires)
    if args.html:
        return event_chart.html_of(scenario, log, wires, first, last)
    rows, end = event_chart.chart_rows(log, wires, first, last)
    columns = event_chart.columns_of(wires)
    return picture(rows, end, columns) if args.svg else chart_on(look_of(args.color), rows, end, True, columns)


def runs_of(text: str, path: str) -> List[RunLog]:
    try:
        return runs_in(text)
    except LogError as error:
        raise UsageError(f"{path}: {error}") from None


def draw_run(args: argparse.Namespace, text: str) -> str:
    """The chart of a run of a test."""
    runs = runs_of(text, args.paths[0])
    for path in args.paths[1:]:
        runs = [runs[0], *runs_of(text_of(path), path)]
    if args.first is not None or args.last is not None:
        raise UsageError("--from and --to are for scenarios only")
    if len(args.paths) > 1 and not args.html:
        raise UsageError("OTHER: it is for --html only")
    if args.html:
        return page(runs[:2])
    if args.vcd:
        return vcd(runs[0])
    is_whole = args.rows == "all"
    return svg(runs[0], is_whole) if args.svg else text_of_run(runs[0], is_whole, args.color)


def draw(args: argparse.Namespace) -> str:
    """What the arguments ask for. The log of a test begins with a brace, and a scenario doesn't."""
    text = text_of(args.paths[0])
    is_run = args.paths[0] == "-" or text.startswith("{")
    return draw_run(args, text) if is_run else draw_scenario(args, text)


def main(words: Optional[Sequence[str]] = None, version: str = "") -> int:
    try:
        listen()
        prepare_output()
        say(draw(arguments_of(words, version)), end="")
        return DRAWN
    except UsageError as error:
        tell(f"run_chart: {error}\nFor more information, try '--help'.")
        return USAGE
    except Unprinted as error:
        if error.is_unread:
            return BY_SIGNAL + signal.SIGPIPE
        tell(f"run_chart: {error}")
        return UNWRITTEN
    except Ended as error:
        return error.status
