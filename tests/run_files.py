"""Runs scenarios into folders whose files are links to other files of the run."""

import os
from typing import Callable

from harness import Program
from pcap_files import packet, trace, written
from scenarios import EXAMPLE_FRAME, EXAMPLE_LINES, TO_SOCKET, folder, held, refusal

FED = trace(packet(EXAMPLE_FRAME))
SCENARIO = TO_SOCKET.replace(b"socket b all\n", b"socket a all\nsocket b 88b5\nsocket b all\n") + b"feed a fed.pcap\n"


def near(source: str, target: str) -> None:
    """Makes a symbolic link with a relative path."""
    os.symlink(os.path.relpath(source, os.path.dirname(target)), target)


def twice(source: str, target: str) -> None:
    """Makes a symbolic link to a symbolic link."""
    os.symlink(source, f"{source}.link")
    os.symlink(f"{source}.link", target)


LINKS: list[tuple[str, Callable[[str, str], None]]] = [("a hard link", os.link), ("a link", near),
                                                       ("a link to a link", twice)]


def state(bench: Program) -> dict[str, bytes]:
    """All files of the bench that a run could change, by their paths, and what they contain."""
    files = {f"outdir/{name}": data for name, data in held(bench.path("outdir")).items()}
    return {**files, **{name: bench.get(name) or b"" for name in ("s.scenario", "fed.pcap")}}


def begin(bench: Program, **old: bytes) -> None:
    """Writes the inputs, and these files into OUTDIR, without any links."""
    folder(bench)
    # A link is removed before the file that it leads to.
    for name in ("s.scenario.link", "fed.pcap.link", "s.scenario", "fed.pcap"):
        bench.remove(name)
    bench.put("s.scenario", SCENARIO)
    bench.put("fed.pcap", FED)
    for name, data in old.items():
        bench.put(f"outdir/{name}.pcap", data)


def links(bench: Program) -> None:
    """A file in OUTDIR may be neither a file that the run reads nor another file in OUTDIR. Otherwise the run writes no
    byte.
    """
    outputs = ["a.0.pcap", "b.0.pcap", "b.1.pcap", "w.pcap"]
    for kind, link in LINKS:
        for source in ("s.scenario", "fed.pcap"):
            for name in outputs:
                begin(bench)
                link(bench.path(source), bench.path(f"outdir/{name}"))
                before = state(bench)
                bench.ends(f"OUTDIR: {name} is {kind} to {source}", ["run", "--wires", "s.scenario", "outdir"], 3, b"",
                           refusal(f"E73 SameFile: outdir/{name}"))
                bench.check(f"OUTDIR: {name} is {kind} to {source}: nothing is written", state(bench),
                            {**{f"outdir/{other}": b"" for other in outputs}, **before})
        for first, second in [("a.0", "b.0"), ("b.0", "b.1"), ("b.1", "w"), ("a.0", "w"), ("w", "a.0")]:
            begin(bench, **{first: b"old"})
            link(bench.path(f"outdir/{first}.pcap"), bench.path(f"outdir/{second}.pcap"))
            later = max(first, second, key=lambda name: outputs.index(f"{name}.pcap"))
            bench.ends(f"OUTDIR: {second} is {kind} to {first}", ["run", "--wires", "s.scenario", "outdir"], 3, b"",
                       refusal(f"E73 SameFile: outdir/{later}.pcap"))
            got = held(bench.path("outdir"))
            bench.check(f"OUTDIR: {second} is {kind} to {first}: nothing is written",
                        {name: got[name] for name in outputs},
                        {name: b"old" if name[:-5] in (first, second) else b"" for name in outputs})


def other_links(bench: Program) -> None:
    """A link to a file that isn't there is found, and one to standard input. Links to a device, or to a file that the
    run doesn't use otherwise, are followed.
    """
    begin(bench)
    os.symlink("a.0.pcap", bench.path("outdir/b.1.pcap"))
    bench.ends("OUTDIR: a link to a new file", ["run", "s.scenario", "outdir"], 3, b"",
               refusal("E73 SameFile: outdir/b.1.pcap"))
    bench.check("OUTDIR: a link to a new file: nothing is written", held(bench.path("outdir")),
                {name: b"" for name in ("a.0.pcap", "b.0.pcap", "b.1.pcap")})
    for word, given in [("the scenario", "run - outdir <s.scenario"), ("a trace", "run in.scenario outdir <fed.pcap")]:
        begin(bench)
        bench.put("in.scenario", SCENARIO.replace(b"fed.pcap", b"-"))
        source = given.rpartition("<")[2]
        os.link(bench.path(source), bench.path("outdir/b.0.pcap"))
        got = bench.shell(f"{bench.program} {given}")
        bench.check(f"OUTDIR: standard input is {word}", (got, state(bench)["outdir/b.0.pcap"]),
                    ((3, b"", refusal("E73 SameFile: outdir/b.0.pcap")), bench.get(source)))
    begin(bench)
    bench.put("other.pcap", b"old")
    os.link(bench.path("fed.pcap"), bench.path("outdir/w.pcap"))
    os.symlink(bench.path("other.pcap"), bench.path("outdir/b.1.pcap"))
    for name in ("a.0", "b.0"):
        os.symlink("/dev/null", bench.path(f"outdir/{name}.pcap"))
    bench.ends("OUTDIR: links that two files don't share", ["run", "s.scenario", "outdir"], 0, EXAMPLE_LINES)
    bench.check("OUTDIR: links that two files don't share: what is written",
                (bench.get("other.pcap"), bench.get("outdir/w.pcap")), (written([(8, EXAMPLE_FRAME)]), FED))


def all_cases(bench: Program) -> None:
    links(bench)
    other_links(bench)
    begin(bench)
