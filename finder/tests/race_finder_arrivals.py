"""Tests tools/races with frames that a test offers: when they arrive, and how arrivals are drawn, explored, shrunk and
shown. Also plays the tests of examples/drivers with arrivals, groups, misses and resets.
"""

import json
import re
import shlex

from race_finder import ASK, FOUND, FRAME, PASSES, find, found_in, replay, without_rate
from race_finder_charts import check_dump, log_of, stored_picture
from race_finder_stages import STAGED
from server import lines
from server_pages import follow, read_page

from arrivals import MISSED
from driver import QUEUE, RIGHT

OTHER = f"{FRAME[:-2]}ff"
# Enables reception, and offers two frames. Reads the status of the first slot, ICR, and the status again. Then the
# adapter settles. With the argument `fails`, the test fails if the first frame is finished between the reads of the
# status.
OFFERED = ASK + f"""
ask "writel 0xFEB02808 128"
ask "writeq 0 0x800"
ask "writel 0xFEB02818 1"
ask "writel 0xFEB00100 0x8002"
ask "offer {FRAME}"
ask "offer {OTHER}"
ask "readb 12"; early=$answer
ask "readl 0xFEB000C0"
ask "readb 12"; late=$answer
ask "settle"
case $1-$early-$late in
    fails-*0-*3) echo "finished between" >&2; exit 1 ;;
esac
"""
FAILS = ["sh", "offered", "fails"]
SMALLEST = ["2.0 arrive before offer", "2.2 rx before read ICR"]
CHART = """\
*                                                                          stored <-------- 60 bytes, ..0000
   2.0    offer
   2.1    read <--------------------------- rx[0]+12 status 0x0
*                    RDH 0x1                buffer of rx[0] is written <-- rxdata moved
*                                           rx[0] is written back <------- rxdone done
   2.2    read <---- ICR 0x80 RXT0
   2.3    read <--------------------------- rx[0]+12 status 0x3 DD EOP
                                                                           stored <-------- 60 bytes, ..00ff
   exit status 1: finished between
"""
ZERO = "OK 0x0000000000000000"


def told(server, schedule):
    """What a test that offers frames is told with this schedule. Lines for steps are left out."""
    requests = ["events on", "log on", f"offer {OTHER}", "offer", "offer 0", "readb 0", f"offer {FRAME.upper()}",
                "readb 0", "readb 1", "settle 1", "settle", "settle"]
    server.put("requests", lines(requests))
    status, _, errors = replay(server, schedule,
                               command=["sh", "-c", "exec 3<&0; cat requests & exec cat <&3 >answers"])
    server.check(f"arrivals: {schedule!r}", (status, errors), (PASSES, ""))
    got = (server.get("answers") or b"").decode().replace(FRAME, "FRAME").replace(OTHER, "OTHER").splitlines()
    return [line for line in got if not line.startswith("# step")]


def talks(server):
    """Offered frames arrive in order: at the next `settle`, or before the accesses and requests that the schedule
    names. The test is told their fates.
    """
    invalid = server.serve(b"offer\noffer 0\n")[1].decode().splitlines()
    one, two = ["# arrive OTHER", "arrived off OTHER"], ["# arrive FRAME", "arrived off FRAME"]
    for schedule, places in [("", (4, 4)), ("1.1 arrive before read 0x0", (0, 4)),
                             ("2.1 arrive before read 0x0\n2.2 arrive before read 0x1", (1, 2)),
                             ("2.2 arrive before read 0x1\n2.2 arrive before read 0x1", (2, 2)),
                             ("2.0 arrive before offer\n3.0 arrive before settle", (3, 4))]:
        arrivals = [[line for frame, at in zip((one, two), places) if at == place for line in frame]
                    for place in range(5)]
        wanted = ["OK", "OK", "OK", *invalid, *arrivals[0], "# readb 0", ZERO, *arrivals[3], "OK", *arrivals[1],
                  "# readb 0", ZERO, *arrivals[2], "# readb 1", ZERO,
                  "ERR count", *arrivals[4], ZERO, ZERO]
        server.check(f"arrivals: what the test is told by {schedule!r}", told(server, schedule), wanted)


def searches(server):
    """A race that needs an arrival is explored, drawn and made small. The chart and the dump show the arrival."""
    server.put("offered", OFFERED.encode())
    # The first deviation is an arrival, at one of five places: the second offer, an access in round 2, or the settling.
    # The second deviation is `rxdata`, `rx` or another arrival, at this place or a later one.
    result = json.loads(find(server, "--explore", "2", "--json", command=["sh", "offered"])[1])
    server.check("arrivals: explored", (result["result"], result["search"]["tried"]), ("passes", [1, 5, 44]))
    for name, words in [("explored", ["--explore", "2"]), ("drawn", ["--runs", "100"]),
                        ("drawn by PCT", ["--pct", "3", "--runs", "200"])]:
        status, out, errors = find(server, *words, "--out", "found", command=FAILS)
        server.check(f"arrivals: {name}", (status, found_in(server), errors), (FOUND, SMALLEST, ""))
        server.check(f"arrivals: {name}, the chart", out.endswith(CHART), True)
    run = log_of(server, "".join(f"{line}\n" for line in SMALLEST), FAILS)
    stored_picture(server, "an offered frame")
    _, got = check_dump(server, "an offered frame", run)
    server.check("arrivals: in the dump", (len(got["arrive_stored"]), len(got["deviation"])), (2, 3))


def actors(server):
    """For PCT, the wire is one more actor if the test offers frames. `--json` prints the bound, too."""
    server.put("offered", OFFERED.encode())
    result = json.loads(find(server, "--pct", "2", "--runs", "3", "--json", command=["sh", "offered"])[1])
    server.check("arrivals: the bound", result.get("pct"), {"depth": 2, "actors": 5, "events": 10, "bound": 1 / 50})
    result = json.loads(find(server, "--runs", "3", "--json", command=["sh", "offered"])[1])
    server.check("arrivals: no bound without --pct", "pct" in result, False)


def passes(server, test, name, *words):
    """A driver without a bug passes a test with drawn schedules."""
    status, out, errors = find(server, *words, "--all", command=[*STAGED, test, name])
    server.check(f"arrivals: {name} passes {test}", (status, "\nno run fails\n" in out, errors), (PASSES, True, ""))


def drivers(server):
    """If the same frames arrive by request, the race of `rxo` isn't found. The right drivers pass all tests with
    arrivals.
    """
    status, out, errors = find(server, "--runs", "30", "--all", command=[*STAGED, "arrives", "rxo"])
    server.check("arrivals: by request, no drawn schedule shows it", (status, "\nno run fails\n" in out, errors),
                 (PASSES, True, ""))
    for name in RIGHT:
        for test, words in [("offers", ["--runs", "30"]), ("arrives", ["--runs", "10"]), ("groups", ["--runs", "20"]),
                            ("misses", ["--runs", "10", "--missed", str(MISSED)]),
                            ("resets", ["--runs", "10"])]:
            passes(server, test, name, *words)
    for name in QUEUE:
        passes(server, "resets", name, "--runs", "30")
    status, out, errors = find(server, "--pct", "3", "--runs", "30", command=[*STAGED, "offers", "right"])
    server.check("arrivals: right passes offers by PCT", (status, "\nno run fails\n" in out, errors),
                 (PASSES, True, ""))


def page(server):
    """The sessions on the page of examples/drivers show bugs that are no races."""
    block = re.search(r"^```\n(\$ tools/races -- python3 \S+ groups group\n.*?)^```$",
                      read_page("examples", "drivers", "README.md"), re.M | re.S)[1]
    for words, test, wanted in re.findall(r"^\$ tools/races (.*)-- python3 examples/drivers/staged_test.py (.*)\n"
                                          r"((?:(?!\$ ).*\n)*)", block, re.M):
        status, out, errors = find(server, *shlex.split(words), command=[*STAGED, *test.split()])
        server.check(f"arrivals: {test}", (status, follow(without_rate(out), without_rate(wanted)), errors),
                     (FOUND, True, ""))
    server.check("arrivals: both are shown", block.count("\nno race: "), 2)
    status, out, _ = find(server, command=[*STAGED, "misses"])
    server.check("arrivals: misses without its option", (status, f"start the server with --missed {MISSED}\n" in out),
                 (FOUND, True))


def all_cases(server):
    for part in [talks, searches, actors, drivers, page]:
        part(server)
