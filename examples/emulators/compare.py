#!/usr/bin/env python3
"""Sends the same requests to `nicbench serve` and to another emulator of the 82540EM, and reports where they differ.

usage: compare.py [--nicbench PROGRAM] [--other COMMAND] [--registers ADDRESS] [--seconds N] [--count N] [--file FILE]
    [--all] [--known] [--json] SEED..

The other emulator is QEMU, or the program of `--other`, which answers requests on its standard streams as `nicbench
serve` does; its registers begin at `--registers`. Each seed draws a list of N requests, and the lines of FILE are
another list. After each request, the adapter does all work that it can do. Compared are the answer, the changes of the
interrupt line, and the frames that are sent. After arrivals and writes of tails, the rings and receive buffers in
memory are compared, too.

The first difference of a list is shown with few requests; later differences of the list may be due to it. At the end, a
line states which registers agree, and each kind of difference has a line. Known departures (docs/EMULATORS.md) are
counted and left out, unless there is `--all`. The requests of a seed avoid others of them; `--known` asks for these.

The exit status is 0 if there is no other difference, and 1 if there is one, or the emulator can't be compared. It is 2
if an argument is invalid, or an emulator isn't installed.
"""

import argparse
import json
import os
import signal
import sys
from contextlib import closing

sys.dont_write_bytecode = True
HERE = os.path.dirname(os.path.abspath(__file__))
sys.path.insert(0, HERE)

from avoided import AVOIDED  # noqa: E402
from comparison import Comparison, Notes  # noqa: E402
from drawing import drawn  # noqa: E402
from emulators import Ended, Missing, Other, Qemu, Serve, Unready  # noqa: E402
from qemu_clock import StoodStill  # noqa: E402
from registers import SINGLE, TABLES, offset_of  # noqa: E402
from session import Session  # noqa: E402

PROGRAM = os.path.join(HERE, "..", "..", "nicbench")
SAME, DIFFERS, INVALID, INTERRUPTED = 0, 1, 2, 130


class Kind:
    """A kind of difference: its first difference, the list that showed it, and how many there were. `shown` is the list
    for which a short list was searched.
    """

    def __init__(self, first, where):
        self.first, self.where, self.count, self.shown = first, where, 0, None

    def __str__(self):
        times = "once" if self.count == 1 else f"{self.count} times"
        return f"difference, {times}, first in {self.where} at request {self.first.at + 1}: {self.first}"


class Report:
    """Compares lists of requests, prints the results, and keeps them for JSON."""

    def __init__(self, comparison, is_json):
        self.comparison, self.is_json = comparison, is_json
        self.notes, self.kinds = Notes(), {}
        self.lists, self.known, self.unready = [], [], []

    def say(self, *lines):
        if not self.is_json:
            print(*lines, sep="\n", flush=True)

    def compare(self, name, requests):
        """Compares one list of requests, and prints the result: the first difference, with a short list that shows it.
        """
        first = None
        for difference in self.comparison.differences(requests, self.notes):
            first = first or difference
            self.kinds.setdefault(difference.rule(), Kind(difference, name)).count += 1
        shown = {"name": name, "requests": len(requests), "difference": None, "shortest": None, "repeats": None}
        self.lists.append(shown)
        if first is None:
            self.say(f"{name}: {len(requests)} requests, no difference")
            return
        shown["difference"] = data_of(first)
        kind = self.kinds[first.rule()]
        if kind.shown:
            self.say(f"{name}: first {first.place()}, as in {kind.shown}")
            return
        kind.shown = name
        again = self.comparison.first_difference(requests[:first.at + 1])
        shown["repeats"] = again is not None and again.rule() == first.rule()
        if not shown["repeats"]:
            self.say(f"{name}: {first}; a second run didn't show it")
            return
        few, first = self.comparison.shortest(requests, first)
        shown.update(difference=data_of(first), shortest=few)
        self.say(f"{name}: {first}", *(f"    {request:.150}" for request in few))

    def ask_for_known(self):
        """Asks for each departure that the requests of a seed avoid, and prints whether the emulator shows it. Known
        departures of the other table are left out.
        """
        for one in AVOIDED:
            found = self.comparison.differences(one.shown, Notes(), one.first, one.has_order)
            with closing(found):
                difference = next(found, None)
            self.known.append({"departure": one.name, "difference": difference and data_of(difference)})
            self.say(f"asked for {one.name}: {difference or 'no difference'}")
            if difference and (self.comparison.with_known or difference.what == "end"):
                self.kinds.setdefault(difference.rule(), Kind(difference, f"the departure {one.name}")).count += 1

    def registers(self):
        """The names of the registers that agree, that differ, and that weren't read."""
        names = [*SINGLE, *TABLES]
        read, differing = self.notes.read, self.notes.differing
        return {"agree": [name for name in names if name in read - differing],
                "differ": [name for name in names if name in differing],
                "unread": [name for name in names if name not in read]}

    def finish(self):
        """Prints which registers agree, the kinds of differences, and the known departures. Returns the exit status."""
        found = self.registers()
        if self.lists:
            texts = {"differ": "these differ", "unread": "these weren't read"}
            more = "".join(f"; {text}: {', '.join(found[key])}" for key, text in texts.items() if found[key])
            self.say(f"registers: {len(found['agree'])} of {sum(map(len, found.values()))} agree{more}")
        self.say(*map(str, self.kinds.values())) if self.kinds else None
        departures = sorted(self.notes.departures.items())
        for name, count in departures:
            self.say(f"known departure, {count} times: {name}")
        is_same = not (self.kinds or self.unready)
        if self.is_json:
            kinds = [{**data_of(kind.first), "count": kind.count, "list": kind.where} for kind in self.kinds.values()]
            print(json.dumps({
                "result": "same" if is_same else "differs", "unready": self.unready, "lists": self.lists,
                "registers": found, "differences": kinds, "departures": dict(departures), "known": self.known}))
        return SAME if is_same else DIFFERS


def data_of(difference):
    """A difference for JSON. `at` is the number of the request in its list, from 1 on."""
    word, register, what = difference.rule()
    ours, theirs = difference.sides()
    return {"at": difference.at + 1, "word": word, "register": register or None, "what": what,
            "serve": None if what == "end" else ours, "other": theirs}


def probe(emulator):
    """What an emulator that isn't complete yet may lack. Returns its EEPROM, or None if that doesn't answer. Then
    whether the link is ever up, and sentences about what is missing.
    """
    image, has_link, told = None, True, []
    try:
        image = emulator.image()
    except Unready as error:
        told.append(str(error))
    try:
        Session(emulator)
    except Unready as error:
        has_link = False
        told.append(str(error))
    return image, has_link, told


def requests_in(path):
    """The requests in a file, without empty lines and comments. Raises ValueError if a register is unknown."""
    with open(path, encoding="ascii") as file:
        lines = [line.split("#")[0].strip() for line in file]
    for number, line in enumerate(lines, 1):
        words = line.split()
        if words[:1] in (["readl"], ["writel"]):
            try:
                offset_of(words[1])
            except (IndexError, ValueError):
                raise ValueError(f"line {number}: {line!r:.80} names no register, such as ICR or MTA(3)") from None
    return [line for line in lines if line]


def address(text):
    return int(text, 0)


def seconds(text):
    number = float(text)
    if not 0 < number <= 1_000_000:
        raise ValueError
    return number


def arguments():
    parser = argparse.ArgumentParser(description="Compares `nicbench serve` with another emulator of the 82540EM.")
    parser.add_argument("--nicbench", default=PROGRAM, metavar="PROGRAM",
                        help="the program whose command `serve` is one side")
    parser.add_argument("--other", metavar="COMMAND", help="the other side, instead of QEMU")
    parser.add_argument("--registers", type=address, default=0xFEB00000, metavar="ADDRESS",
                        help="the first register of the other side (default: 0xFEB00000)")
    parser.add_argument("--seconds", type=seconds, default=10, metavar="N",
                        help="the most seconds up to an answer of COMMAND (default: 10)")
    parser.add_argument("--count", type=int, default=400, metavar="N", help="how many requests a seed draws")
    parser.add_argument("--all", action="store_true", help="report known departures, too")
    parser.add_argument("--known", action="store_true",
                        help="ask for each known departure that the requests of a seed avoid")
    parser.add_argument("--json", action="store_true", help="print one JSON object instead of the text")
    parser.add_argument("--file", metavar="FILE", help="requests, one a line")
    parser.add_argument("seeds", nargs="*", type=int, metavar="SEED")
    return parser.parse_args()


def run(words):
    """Compares the emulators. Returns the exit status."""
    lists = {f"seed {seed}": drawn(seed, words.count) for seed in words.seeds}
    if words.file:
        lists[words.file] = requests_in(words.file)

    def other():
        return Other(words.other, words.registers, words.seconds) if words.other is not None else Qemu()

    with closing(other()) as first:
        image, has_link, told = probe(first)

    def serve():
        return Serve(words.nicbench, image=image)  # both adapters get the same EEPROM

    report = Report(Comparison([serve, other], has_link, words.all), words.json)
    report.unready = told
    report.say(*told) if told else None
    for name, requests in lists.items():
        report.compare(name, requests)
    if words.known:
        report.ask_for_known()
    return report.finish()


def main():
    words = arguments()
    # the emulators are closed at SIGTERM, too
    signal.signal(signal.SIGTERM, lambda number, _: sys.exit(128 + number))
    try:
        return run(words)
    except (Ended, StoodStill) as error:
        print(f"compare.py: {error}", file=sys.stderr)
        return DIFFERS
    except Missing as error:
        print(f"compare.py: {error}", file=sys.stderr)
    except OSError as error:
        print(f"compare.py: {error.filename}: {error.strerror}", file=sys.stderr)
    except ValueError as error:
        print(f"compare.py: {words.file}: {error}", file=sys.stderr)
    except KeyboardInterrupt:
        return INTERRUPTED
    return INVALID


if __name__ == "__main__":
    sys.exit(main())
