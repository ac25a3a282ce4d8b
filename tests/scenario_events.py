"""Tests the lines of events that `nicbench run --events` writes, the warning about refused calls, and the charts and
pages of tools/run_chart.
"""

import json
import os
import re
import subprocess
import sys
import xml.etree.ElementTree as ElementTree

from finder.event_chart import events_in, wires_in
from finder.page.from_scenario import STAGES, TAKEN, Network, steps_of
from harness import TOP
from pcap_files import packet, trace
from scenarios import EXAMPLE, EXAMPLE_FRAME, EXAMPLE_LINES, TO_SOCKET, TWO_HOSTS, folder, held, refusal, warning

CHART = os.path.join(TOP, "tools", "run_chart")

EXAMPLE_EVENTS = b"""0 line 4 send a 14 ok accesses 7
1 line 5 tick accesses 0 @0 txtake:a took
2 line 6 tick accesses 0 @0 txput:a put 60
3 line 7 tick accesses 0 @0 deliver:b stored 60
4 line 8 tick accesses 0 @0 rxdata:b moved
5 line 9 tick accesses 0 @0 rxdone:b done
6 line 10 interrupt b handled 1 accesses 8
7 line 11 recv b 0 ok 60 accesses 8
"""
# The number of accesses in a line depends on the driver; all else is known.
ACCESSES = re.compile(rb" accesses \d+(?= @|$)", re.M)
EXAMPLE_CHART = """  place  host a          wire w       host b
  0      send 14 ok
  1      txtake took
  2      txput --------> 60 bytes
  3                      60 bytes --> stored
  4                                   rxdata moved
  5                                   rxdone done
  6                                   interrupt handled 1
  7                                   recv 0 ok 60
   8 events.
"""

# Ticks inside of calls, and one that does nothing
PLACES = TO_SOCKET + b"""tick go
send a {0}
send a {0} / txtake:a txput:a go txput:a
tick txtake:a
tick txput:a
reset b / deliver:b go deliver:b rxdata:b
""".replace(b"{0}", EXAMPLE_FRAME.hex().encode())
PLACES_CHART = """  place  host a            wire w       host b
  0 go
  1      send 14 ok
  2      send 14 ok
  2.0    txtake took
  2.0    txput ----------> 60 bytes
  2.1    txput nothing
  3      txtake took
  4      txput ----------> 60 bytes
  5                                     reset givenup 0 1 on 9
  5.0                      60 bytes --> stored
  5.1                      60 bytes --> off
  5.1                                   rxdata nothing
   6 events.
"""
ENDED = "\nFor more information, try '--help'.\n"


def events_of(bench, name, text, options=(), warned=b""):
    """Runs a scenario. Returns its lines of events, without the numbers of accesses of calls, and its lines of hosts.
    """
    bench.put("s.scenario", text)
    folder(bench)
    bench.remove("events.txt")
    ran = bench.run("run", "--events", "events.txt", *options, "s.scenario", "outdir")
    bench.check(f"{name}: status", (ran.returncode, ran.stderr), (0, warned))
    return ACCESSES.sub(b"", bench.get("events.txt") or b""), ran.stdout


def lines(bench):
    """Known events have the expected lines."""
    wanted = ACCESSES.sub(b"", EXAMPLE_EVENTS)
    bench.check("events: the example", events_of(bench, "events: the example", EXAMPLE), (wanted, EXAMPLE_LINES))
    files = held(bench.path("outdir"))
    bench.put("s.scenario", EXAMPLE)
    ran = bench.run("run", "--events", "-", "s.scenario", "outdir")
    bench.check("events: to standard output", (ran.returncode, ACCESSES.sub(b"", ran.stdout), ran.stderr),
                (0, wanted, EXAMPLE_LINES))
    bench.check("events: OUTDIR is the same", held(bench.path("outdir")), files)
    told, _ = events_of(bench, "events: ticks inside a call", EXAMPLE.replace(
        b"tick rxdata:b\ntick rxdone:b\ninterrupt b\n",
        b"# three ticks in one call\n\ninterrupt b / rxdata:b rxdone:b go phy:a deliver:b\n"))
    bench.check("events: ticks inside a call", told.splitlines()[4:],
                [b"4 line 10 interrupt b handled 1 @0 rxdata:b moved @0 rxdone:b done @1 phy:a nothing "
                 b"@1 deliver:b nothing", b"5 line 11 recv b 0 ok 60"])
    told, _ = events_of(bench, "events: groups, drains and go",
                        TO_SOCKET + b"tick go\njoin b 01:00:5e:00:00:01\njoin b 01:00:5e:00:00:01\n"
                        b"leave b 01:00:5e:00:00:02\njoin b 02:00:5e:00:00:01\n"
                        b"send b %s\ndrain b\n" % EXAMPLE_FRAME.hex().encode(),
                        warned=warning(0, groups=3))
    bench.check("events: groups, drains and go", told.splitlines(),
                [b"0 line 4 tick @0 go nothing", b"1 line 5 join b ok", b"2 line 6 join b E26 Joined",
                 b"3 line 7 leave b E25 NotJoined",
                 b"4 line 8 join b E23 NotGroup", b"5 line 9 send b 14 ok", b"6 line 10 drain b ok 0"])
    told, hosts = events_of(bench, "events: a reset",
                            EXAMPLE.replace(b"tick deliver:b\n", b"reset b / deliver:b go rxdata:b\n"))
    bench.check("events: a reset", told.splitlines()[3:5],
                [b"3 line 7 reset b givenup 0 1 on 310 @0 deliver:b stored 60 @1 rxdata:b nothing",
                 b"4 line 8 tick @0 rxdata:b nothing"])
    bench.check("events: a host that was reset", [line.partition(b" givenup ")[2] for line in hosts.splitlines()],
                [b"", b"0 1 off 0"])
    bench.put("two.pcap", trace(packet(EXAMPLE_FRAME), packet(EXAMPLE_FRAME)))
    told, _ = events_of(bench, "events: a feed", TO_SOCKET + b"socket a all\nfeed a two.pcap\nauto 5 1\n")
    bench.check("events: numbers and lines of a feed", [line.split()[:3] for line in told.splitlines()],
                [[b"%d" % number, b"line", b"5" if number < 16 else b"6"] for number in range(21)])


def mistakes(bench):
    """The log of events shows calls and ticks that do nothing, and a warning counts the calls that are refused."""
    text = (TO_SOCKET
            + b"send a ff\nsend a %s\n" % (b"ff" * 1519)
            + b"recv b 0\nrecv b 1\nrecv a 0\ninterrupt b\ntick rxdata:b\ntick deliver:b\n")
    told, _ = events_of(bench, "mistakes", text, warned=warning(2, 2))
    bench.check("mistakes: each is seen", told.splitlines(),
                [b"0 line 4 send a 1 E20 TooShort", b"1 line 5 send a 1519 E21 TooLong", b"2 line 6 recv b 0 E30 Empty",
                 b"3 line 7 recv b 1 E31 NoSocket", b"4 line 8 recv a 0 E31 NoSocket", b"5 line 9 interrupt b notmine",
                 b"6 line 10 tick @0 rxdata:b nothing", b"7 line 11 tick @0 deliver:b nothing"])
    for name, call, warned in [("a refused send", b"send a ff\n", warning(1, 0)),
                               ("a socket that isn't there", b"recv a 0\n", warning(0, 1)),
                               ("a join and a leave", b"join b 02:00:5e:00:00:01\nleave b 01:00:5e:00:00:01\n",
                                warning(0, groups=2)),
                               ("an empty socket", b"recv b 0\n", b""),
                               ("events of auto", b"auto 10000 1\n", b""),
                               ("events of auto, and a send", b"auto 10000 1\nsend a ff\nauto 10000 1\n", warning(1))]:
        bench.put("s.scenario", TO_SOCKET + call)
        ran = bench.run("run", "s.scenario", "outdir")
        bench.check(f"mistakes: {name}, without --events", (ran.returncode, ran.stderr), (0, warned))


def counts(bench):
    """Over random events, the lines of events add up to the counts in the lines of hosts."""
    hosts = b"".join(b"host %s 02:00:00:00:00:0%d w\nsocket %s all\n" % (name, at, name)
                     for at, name in enumerate([b"a", b"b", b"c"], 1))
    bench.put("s.scenario", hosts + b"auto 20000 7\ndrain a\ndrain b\ndrain c\n")
    ran = bench.run("run", "--events", "-", "s.scenario", "outdir")
    events = ran.stdout.decode().splitlines()
    bench.check("counts: events", [int(line.split()[0]) for line in events], list(range(20003)))
    bench.check("counts: lines", {int(line.split()[2]) for line in events}, {7, 8, 9, 10})
    told = [line for line in ran.stderr.decode().splitlines() if not line.startswith("nicbench: ")]
    for line in told:
        name, numbers = line.split()[0], dict(re.findall(r"(\w+) (\d+)", line))
        ticks = [tick.split() for event in events for tick in event.split(" @")[1:]]
        fates = [outcome for _, tick, outcome, *_ in ticks if tick == f"deliver:{name}" and outcome != "nothing"]
        found = {
            "accepted": sum(re.search(rf" send {name} \d+ ok ", event) is not None for event in events),
            "put": sum(tick[1:3] == [f"txput:{name}", "put"] for tick in ticks),
            "reached": len(fates), "stored": fates.count("stored"), "missed": fates.count("missed"),
            "given": sum(f" recv {name} 0 ok " in event for event in events)
                     + sum(int(event.split()[-1]) for event in events if f" drain {name} " in event),
        }
        bench.check(f"counts: {name}", found, {key: int(numbers[key]) for key in found})
    bench.check("counts: hosts", len(told), 3)
    status, out, errors = chart(bench, "s.scenario", "--from", "20002", given=ran.stdout)
    bench.check("counts: each line can be drawn", (status, out.splitlines()[-1:], errors),
                (0, ["   Event 20002 of 20003."], ""))


def faults(bench):
    """A file of events that can't be made or written is reported. If the plan is refused, the file is empty."""
    bench.put("s.scenario", EXAMPLE)
    folder(bench)
    ran = bench.run("run", "--events", "none/events.txt", "s.scenario", "outdir")
    bench.check("events: no folder", (ran.returncode, ran.stdout, ran.stderr, held(bench.path("outdir"))),
                (3, b"", refusal("E68 Open: none/events.txt"), {}))
    ran = bench.run("run", "--events", "/dev/full", "s.scenario", "outdir")
    bench.check("events: a full device", (ran.returncode, ran.stdout, ran.stderr), (3, b"", b"nicbench: E67 Write\n"))
    bench.check("events: the traces are whole", len(held(bench.path("outdir"))["b.0.pcap"]), 100)
    bench.remove("events.txt")
    bench.put("s.scenario", TWO_HOSTS.replace(b"w\n", b"v\n", 1) + b"send a ff\n")
    ran = bench.run("run", "--events", "events.txt", "s.scenario", "outdir")
    bench.check("events: a refused plan", (ran.returncode, ran.stdout, bench.get("events.txt")), (1, b"", b""))


def same_files(bench):
    """FILE may be neither a file that the run reads nor one that it writes in OUTDIR. Such a run fails, and writes no
    byte.
    """
    scenario, fed = TO_SOCKET + b"feed a fed.pcap\n", trace(packet(EXAMPLE_FRAME))
    bench.put("s.scenario", scenario)
    bench.put("fed.pcap", fed)
    for name in ("fed.pcap", "s.scenario"):
        os.link(bench.path(name), bench.path(f"second.{name}"))
        os.symlink(name, bench.path(f"link.{name}"))
    for path in ["s.scenario", "fed.pcap", "second.s.scenario", "second.fed.pcap", "link.s.scenario", "link.fed.pcap",
                 "outdir/../s.scenario",
                 bench.path("fed.pcap")]:
        folder(bench)
        bench.ends(f"events: {path} is read", ["run", "--events", path, "s.scenario", "outdir"], 3, b"",
                   refusal(f"E73 SameFile: {path}"))
        bench.check(f"events: {path} is read: it stays",
                    (bench.get("s.scenario"), bench.get("fed.pcap"), held(bench.path("outdir"))), (scenario, fed, {}))
    ran = subprocess.run([bench.program, "run", "--events", "s.scenario", "-", "outdir"], cwd=bench.folder,
                         capture_output=True, check=False,
                         stdin=open(bench.path("s.scenario"), "rb"))
    bench.check("events: standard input is read", (ran.returncode, ran.stdout, ran.stderr, bench.get("s.scenario")),
                (3, b"", refusal("E73 SameFile: s.scenario"), scenario))
    for options, path in [([], "outdir/b.0.pcap"), ([], "./outdir/b.0.pcap"), (["--wires"], "outdir/b.0.pcap"),
                          (["--wires"], "outdir/w.pcap")]:
        for old in (None, b"old"):
            folder(bench)
            if old:
                bench.put(path, old)
            bench.ends(f"events: {path} is written, {old}", ["run", *options, "--events", path, "s.scenario", "outdir"],
                       3, b"",
                       refusal(f"E73 SameFile: {path}"))
            bench.check(f"events: {path} is written, {old}: it stays", held(bench.path("outdir")),
                        {os.path.basename(path): old or b""})
    folder(bench)
    events, _ = events_of(bench, "events: to another file", scenario)
    for path in ("outdir/w.pcap", "outdir/b.1.pcap"):
        ran = bench.run("run", "--events", path, "s.scenario", "outdir")
        bench.check(f"events: {path} isn't written otherwise", (ran.returncode, ACCESSES.sub(b"", bench.get(path))),
                    (0, events))


def charts(bench):
    """The chart of the example is right, as a text and as a picture."""
    bench.put("s.scenario", EXAMPLE)
    bench.put("events.txt", ACCESSES.sub(b"", EXAMPLE_EVENTS))
    words = [sys.executable, "-S", "-E", CHART, bench.path("s.scenario"), bench.path("events.txt")]
    ran = subprocess.run(words, capture_output=True, check=False)
    bench.check("chart: the example", (ran.returncode, ran.stdout.decode(), ran.stderr), (0, EXAMPLE_CHART, b""))
    ran = subprocess.run([*words, "--svg"], capture_output=True, check=False)
    rows = (ElementTree.fromstring(ran.stdout).findall("{http://www.w3.org/2000/svg}g[@class='row']")
            if not ran.returncode else [])
    bench.check("chart: a picture", (ran.returncode, len(rows), ran.stderr), (0, 8, b""))
    ran = subprocess.run([*words, "--from", "2", "--to", "3"], capture_output=True, check=False)
    bench.check("chart: a part", [line.split()[0] for line in ran.stdout.decode().splitlines()],
                ["place", "2", "3", "Events"])


def where_frames_are(bench):
    """A page shows where frames are. In a random run with a reset and drains, no frame is missing where one moves. The
    driver has taken the frames that the summary counts as given.
    """
    hosts = b"".join(b"host %b 02:00:00:00:00:0%d w\nsocket %b all\n" % (name, at, name)
                     for at, name in enumerate([b"a", b"b", b"c"], 1))
    folder(bench)
    bench.put("s.scenario", hosts + b"auto 3000 8\nreset b\nauto 500 3\ndrain a\ndrain b\ndrain c\n")
    ran = bench.run("run", "--events", "events.txt", "s.scenario", "outdir")
    wires = wires_in(bench.get("s.scenario").decode(), "s.scenario")
    network = Network(wires)
    events = events_in(bench.get("events.txt").decode(), "events.txt", "s.scenario", wires)
    steps = list(steps_of(events, wires, network))
    bench.check("page: no frame is missing", (network.wrong, len(steps) > 3000), (0, True))
    for line in ran.stdout.decode().splitlines():
        host, given = line.split()[0], int(re.search(r" given (\d+)", line)[1])
        bench.check(f"page: taken by {host}", len(network.frames[host, TAKEN]), given)
    left = [stage for (_, stage), frames in network.frames.items() if frames]
    bench.check("page: nothing is left to be received", [stage for stage in left if stage in STAGES[3:6]], [])
    status, out, errors = chart(bench, "s.scenario", "events.txt", "--html", "--from", "10", "--to", "30")
    data = re.search('<script type="application/json" id=data>(.*?)</script>', out, re.S)
    numbers = [int(step["place"].split(".")[0]) for step in map(json.loads, data[1].splitlines()) if step.get("place")]
    bench.check("page: a part", (status, errors, min(numbers, default=0), max(numbers, default=0)), (0, "", 10, 30))
    bench.check("page: not with a picture", chart(bench, "--html", "--svg", "s.scenario", "events.txt")[0], 2)


def chart(bench, *words, given=b""):
    """Runs tools/run_chart in the folder of the bench. Returns its status, its output and its errors."""
    ran = subprocess.run([sys.executable, "-S", "-E", CHART, *words], cwd=bench.folder, input=given,
                         capture_output=True, check=False)
    return ran.returncode, ran.stdout.decode(), ran.stderr.decode()


def places(bench):
    """The place of a tick inside a call is the event's number, and the number of accesses before the tick. The last
    line states which events were drawn.
    """
    told, _ = events_of(bench, "places", PLACES)
    told = re.sub(rb"givenup 0 1 on \d+", b"givenup 0 1 on 9", told)
    bench.check("chart: places", chart(bench, "s.scenario", given=told), (0, PLACES_CHART, ""))
    for words, end in [("--from 1 --to 3", "Events 1 to 3 of 6."), ("--to 0", "Event 0 of 6."),
                       ("--from 5 --to 9", "Event 5 of 6."),
                       ("--from 6", "None of 6 events."), ("--from 0 --to 5", "6 events.")]:
        status, out, errors = chart(bench, "s.scenario", "-", *words.split(), given=told)
        bench.check(f"chart: the end of {words}", (status, out.splitlines()[-1:], errors), (0, [f"   {end}"], ""))
    bench.check("chart: the end of one event",
                chart(bench, "s.scenario", given=b"0 line 4 tick @0 go nothing\n")[1].splitlines()[-1], "   1 event.")
    many = b"".join(b"%d line %d tick @0 rxdata:b nothing\n" % (number, number + 4) for number in range(601))
    bench.check("chart: no more than 500 rows",
                chart(bench, "s.scenario", "--from", "9", given=many)[1].splitlines()[-2:],
                ["  508                          rxdata nothing",
                 "   Events 9 to 508 of 601. A chart has at most 500 rows: see --from and --to."])


def refused_charts(bench):
    """Wrong words, files that aren't there, and texts that are no scenario or no log are refused."""
    bench.put("s.scenario", EXAMPLE)
    bench.put("events.txt", EXAMPLE_EVENTS)
    bench.put("others.txt", EXAMPLE_EVENTS.replace(b":b stored", b":c stored"))
    bench.put("bytes", bytes(range(256)))
    for words, error in [
        ("s.scenario none", "none: No such file or directory"),
        ("none events.txt", "none: No such file or directory"),
        ("s.scenario .", ".: Is a directory"),
        ("events.txt s.scenario", "events.txt: it has no host, so it isn't a scenario"),
        ("s.scenario s.scenario", "s.scenario: line 1 isn't an event of the hosts in s.scenario"),
        ("s.scenario bytes", "bytes: line 1 isn't an event of the hosts in s.scenario"),
        ("s.scenario others.txt", "others.txt: line 4 isn't an event of the hosts in s.scenario"),
        ("s.scenario events.txt --from 11 --to 9", "--from: 11 is after 9"),
        ("s.scenario events.txt --from -1", "argument --from: '-1' isn't the number of an event"),
        ("s.scenario events.txt --to x", "argument --to: 'x' isn't the number of an event"),
        ("", "the following arguments are required: LOG"),
    ]:
        bench.check(f"chart: refused: {words}", chart(bench, *words.split()), (2, "", f"run_chart: {error}{ENDED}"))
    with open("/dev/full", "wb") as full:
        ran = subprocess.run([sys.executable, "-S", "-E", CHART, "s.scenario", "events.txt"], cwd=bench.folder,
                             stdout=full,
                             stderr=subprocess.PIPE, check=False)
    bench.check("chart: a full device", (ran.returncode, ran.stderr),
                (3, b"run_chart: standard output: No space left on device\n"))
    status, told, errors = chart(bench, "--help")
    bench.check("chart: its help", (status, "14.1 is a tick inside" in told, "Exit status: 0 if" in told, errors),
                (0, True, True, ""))


def all_cases(bench):
    lines(bench)
    mistakes(bench)
    counts(bench)
    faults(bench)
    same_files(bench)
    charts(bench)
    places(bench)
    where_frames_are(bench)
    refused_charts(bench)
