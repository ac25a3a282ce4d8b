"""Tests random events of scenarios: the words of `auto`, and runs that are the same as runs of the lines of these
events.
"""

import re

from pcap_files import FILE_HEADER, written
from random_requests import Words
from scenarios import EXAMPLE, EXAMPLE_FRAME, EXAMPLE_LINES, TO_SOCKET, folder, held, plays, told, warning


def words_from(start, count):
    """The first words for a seed."""
    words = Words(start)
    return [words.next() for _ in range(count)]


def event_of(word, hosts):
    """The line of the event for a word."""
    name, address = hosts[word // 8 % len(hosts)]
    kinds = [b"tick txtake:%s", b"tick txput:%s", b"tick rxdata:%s", b"tick rxdone:%s", b"tick deliver:%s",
             b"interrupt %s / go rxdata:%s rxdone:%s", b"recv %s 0",
             b"send %s ffffffffffff" + address.replace(b":", b"") + b"88b5"]
    kind = kinds[word % 8]
    return kind.replace(b"%s", name) + b"\n"


def all_fit(bench, hosts, summary):
    """All random frames are broadcasts of a legal length, and pass the filter: each frame that reached a host was
    stored or missed.
    """
    line = r"(\w+) accepted \d+ put \d+ reached (\d+) stored (\d+) missed (\d+) (exact|atleast) given \d+ unclaimed \d+"
    told_of = [found.groups() for found in map(re.compile(line).fullmatch, summary.splitlines()) if found]
    bench.check("auto: the lines of the hosts", [name.encode() for name, *_ in told_of], [name for name, _ in hosts])
    for name, reached, stored, missed, exact in told_of:
        bench.check(f"auto: {name}: each frame is stored or missed", (int(stored) + int(missed), exact),
                    (int(reached), "exact"))
    bench.check("auto: some frames are missed", any(int(missed) > 0 for _, _, _, missed, _ in told_of), True)


def all_cases(bench):
    """Two runs of the same random events have the same results, and so has a run of the lines of these events. If
    `auto` plays no event, the numbers of later events begin at 0.
    """
    bench.check("auto: the first words from 0", words_from(0, 4), [298703107, 4236525527, 336081875, 1056616254])
    hosts = [(b"a", b"02:00:00:00:00:01"), (b"b", b"02:00:00:00:00:02"), (b"c", b"02:00:00:00:00:03")]
    setup = b"".join(b"host %s %s w rxa 2\n" % host for host in hosts) + b"socket a all\nsocket b 88b5\nsocket c 0800\n"
    lines_drawn = b"".join(event_of(word, hosts) for word in words_from(1, 10000))
    runs = []
    for name, text, warned in [("auto 10000 1", b"auto 10000 1\n", b""),
                               ("auto 10000 1 once more", b"auto 10000 1\n", b""),
                               ("the lines of auto 10000 1", lines_drawn, warning(578))]:
        path = folder(bench)
        bench.put("s.scenario", setup + text)
        ran = bench.run("run", "s.scenario", "outdir")
        runs.append((ran.returncode, ran.stdout, held(path)))
        bench.check(f"auto: {name}", (ran.returncode, ran.stderr), (0, warned))
        bench.check(f"auto: {name}: as the first", runs[-1] == runs[0], True)
    bench.check("auto: frames are given", len(runs[0][2]["a.0.pcap"]) > 10000, True)
    all_fit(bench, hosts, runs[0][1].decode())
    plays(bench, "auto 0 1", TO_SOCKET + b"auto 0 1\n", told("a") + told("b"), {"b.0.pcap": FILE_HEADER})
    plays(bench, "auto 0 1: the events behind it have the numbers from 0 on",
          EXAMPLE.replace(TO_SOCKET, TO_SOCKET + b"auto 0 1\n"), EXAMPLE_LINES,
          {"b.0.pcap": written([(7, EXAMPLE_FRAME)])})
