"""Tests charts on a terminal: colors, and charts that fit its width. The terminal is a pseudoterminal."""

import fcntl
import os
import pty
import re
import struct
import subprocess
import sys
import termios

from finder.chart import COLUMNS, ChartRow, chart_of, end_of, text_chart
from finder.terminal import Look, chart_on
from harness import TOP
from race_finder import FOUND, RACES, SMALL, SMALLEST, find, replay
from race_pages import QUEUE, STAGED, TXSTOP, logs_of
from server import LIMIT

ESCAPE = re.compile(r"\x1b\[[0-9]*m")
WORD = re.compile(r"[\w\[\]+:.]+")
WIDTHS = 40, 60, 80, 100, 132, 200


def on_terminal(server, words, width, **env):
    """The exit status and the output of a program on a terminal of this width."""
    ours, theirs = pty.openpty()
    fcntl.ioctl(theirs, termios.TIOCSWINSZ, struct.pack("HHHH", 40, width, 0, 0))
    known = {name: value for name, value in os.environ.items() if name not in ("NO_COLOR", "TERM", "COLUMNS")}
    process = subprocess.Popen(words, cwd=server.folder, stdin=subprocess.DEVNULL, stdout=theirs,
                               stderr=subprocess.PIPE, env={**known, "TERM": "xterm", **env})
    os.close(theirs)
    told = b""
    while True:
        try:
            data = os.read(ours, 1 << 16)
        except OSError:  # all other ends are closed
            data = b""
        if not data:
            break
        told += data
    os.close(ours)
    errors = process.communicate(timeout=LIMIT)[1]
    return process.returncode, told.decode().replace("\r\n", "\n"), errors.decode()


def words_of(text):
    """The words of a chart's rows, without arrows, bars, stars and the heading."""
    return WORD.findall("\n".join(text.splitlines()[1:]))


def fits(server):
    """A chart that is too wide has narrow lines. It loses no word, star or bar. Another chart doesn't change."""
    wide = [ChartRow({"": "*", "place": "1.1", "driver": "read", "memory": "x" * 300}, ("memory", "driver"))]
    for name, command, schedule in [("late", [*STAGED, "stages", "late"], "4.6 rxdone before read ICR"),
                                    ("rxo", [*STAGED, "offers", "rxo"], "39.3 arrive before write ICR"),
                                    ("txstop", [*QUEUE, "txstop"], TXSTOP)]:
        run, _ = logs_of(server, command, schedule)
        rows, end = chart_of(run), end_of(run)
        plain = text_chart(rows, end)
        for width in WIDTHS:
            shown = chart_on(Look(width), rows, end, False)
            lines = shown.splitlines()
            what = f"fits: {name}, {width} columns"
            server.check(f"{what}: no line is too wide", [line for line in lines if len(line) > width], [])
            if max(map(len, plain.splitlines()[:-1])) <= width:
                server.check(f"{what}: the same chart", shown, plain)
                continue
            missing = [word for word in words_of(plain) if word not in words_of(shown)]
            server.check(f"{what}: no word is lost", missing, [])
            server.check(f"{what}: stars", sum(line.startswith("*") for line in lines),
                         sum(row.cells.get("") == "*" for row in rows))
            arrows = [sum(text.count(arrow) for arrow in ("--> ", " <--")) for text in (shown,)]
            server.check(f"{what}: arrows", arrows, [sum(row.arrow is not None for row in rows)])
        server.check(f"fits: {name}, without a terminal", chart_on(Look(), rows, end, False), plain)
    lines = chart_on(Look(40), wide, "end " * 30, True).splitlines()
    server.check("fits: a long word", ([len(line) for line in lines if len(line) > 40], "".join(lines).count("x")),
                 ([], 300))


def colors(server):
    """Colors are on a terminal only, unless --color, NO_COLOR or TERM say otherwise. Files have none."""
    server.put("small", SMALL.encode())
    server.put("played", SMALLEST.encode())
    words = [RACES, "--replay", "played"]
    command = ["--", "sh", "small", "fails"]
    plain = replay(server, SMALLEST, command=command[1:])[1]
    for name, options, env, has_color in [("auto", [], {}, True), ("never", ["--color", "never"], {}, False),
                                          ("always", ["--color", "always"], {}, True),
                                          ("NO_COLOR", [], {"NO_COLOR": "1"}, False),
                                          ("an empty NO_COLOR", [], {"NO_COLOR": ""}, True),
                                          ("TERM", [], {"TERM": "dumb"}, False),
                                          ("always, NO_COLOR", ["--color", "always"], {"NO_COLOR": "1"}, True)]:
        status, told, errors = on_terminal(server, [*words, *options, *command], 160, **env)
        server.check(f"colors: {name}", (status, ESCAPE.search(told) is not None, errors), (FOUND, has_color, ""))
        server.check(f"colors: {name}: the same text", ESCAPE.sub("", told), plain)
    told = on_terminal(server, [*words, *command], 160)[1].splitlines()
    stars = [line for line in told if "*" in line]
    server.check("colors: deviations", [line.startswith("\x1b[33m*") for line in stars], [True, True])
    server.check("colors: the end", told[-1], "\x1b[31m   exit status 1: finished too late\x1b[0m")
    ran = find(server, "--replay", "played", "--color", "always", command=command[1:])
    server.check("colors: always, not on a terminal", (ESCAPE.sub("", ran[1]), "\x1b" in ran[1]), (plain, True))
    narrow = on_terminal(server, [*words, *command], 60)[1].splitlines()
    server.check("colors: a narrow terminal", [line for line in narrow if len(ESCAPE.sub("", line)) > 60], [])


def scenarios(server):
    """tools/run_chart fits the terminal, too: a row states its host."""
    chart = [sys.executable, "-S", "-E", os.path.join(TOP, "tools", "run_chart")]
    scenario = os.path.join(TOP, "examples", "race.scenario")
    status, _, errors = server.execute(server.program, "run", "--events", "race.events", scenario, server.folder)
    server.check("run_chart: the run", status, 0)
    status, told, errors = on_terminal(server, [*chart, scenario, "race.events"], 40)
    lines = ESCAPE.sub("", told).splitlines()
    server.check("run_chart: narrow", (status, errors, [line for line in lines if len(line) > 40]), (0, "", []))
    server.check("run_chart: hosts", [text in told for text in ("host a: txput", "host b: rxdata moved")], [True, True])
    told = on_terminal(server, [*chart, "--color", "never", scenario, "race.events"], 40)[1]
    server.check("run_chart: no color", ("\x1b" in told, "host a: txput" in told), (False, True))
    server.check("columns", COLUMNS[1], "place")


def all_cases(server):
    for part in [fits, colors, scenarios]:
        part(server)
