"""Tests `--nanos` of `nicbench pass` and `nicbench run`: traces of nanoseconds, with the times that traces otherwise
have.
"""

from pcap_files import packet, trace, trace_in, written
from scenarios import EXAMPLE, EXAMPLE_FRAME, EXAMPLE_LINES, TO_SOCKET, folder, held, plays

MAGIC = 0xA1B23C4D
MICROSECONDS = 1_000_000


def nanoseconds(frames):
    """Returns a trace with times in nanoseconds. A frame is a pair: its time in microseconds, and its bytes, which are
    padded to 60.
    """
    packets = [(number // MICROSECONDS, number % MICROSECONDS * 1000, max(len(frame), 60), max(len(frame), 60),
                frame.ljust(60, b"\0"))
               for number, frame in frames]
    return trace_in("<", MAGIC, *packets)


def passes(bench):
    """With --nanos, OUT of `pass` is a trace of nanoseconds. The time of frame n in IN, from 0, is n microseconds. The
    line of counts is that without the option.
    """
    frames = [bytes([number]) * length for number, length in enumerate((14, 13, 1518, 60))]
    bench.put("in.pcap", trace(*map(packet, frames)))
    line = b"read 4 skipped 0 illegal 1 filtered 0 written 3 cut no\n"
    wanted = nanoseconds([(0, frames[0]), (2, frames[2]), (3, frames[3])])
    bench.check("nanoseconds: the second packet header", wanted[24 + 76:24 + 92].hex(),
                "00000000d0070000ee050000ee050000")
    for words in (["--nanos", "in.pcap", "out.pcap"], ["in.pcap", "out.pcap", "--nanos"]):
        bench.remove("out.pcap")
        bench.ends(f"nanoseconds: pass {words}", ["pass", *words], 0, line)
        bench.check(f"nanoseconds: pass {words}: what is written", bench.get("out.pcap"), wanted)
    bench.ends("nanoseconds: pass to standard output", ["pass", "--nanos", "in.pcap", "-"], 0, wanted, line)
    bench.put("nanos.pcap", wanted)
    bench.writes("nanoseconds: pass of its output", ["pass", "nanos.pcap", "out.pcap"],
                 b"read 3 skipped 0 illegal 0 filtered 0 written 3 cut no\n",
                 list(enumerate((frames[0], frames[2], frames[3]))))
    bench.ends("nanoseconds: a bare header", ["pass", "--nanos", "-", "-"], 0, nanoseconds([]),
               b"read 0 skipped 0 illegal 0 filtered 0 written 0 cut no\n", given=trace())


def runs(bench):
    """With --nanos, the files of sockets and of wires are traces of nanoseconds. The lines of hosts are those without
    the option.
    """
    given, put = [(7, EXAMPLE_FRAME)], [(2, EXAMPLE_FRAME)]
    whole = nanoseconds(given)
    bench.check("nanoseconds: the file header", whole[:24].hex(), "4d3cb2a1020004000000000000000000ffff000001000000")
    bench.check("nanoseconds: the packet header", whole[24:40].hex(), "00000000581b00003c0000003c000000")
    plays(bench, "nanoseconds: run", EXAMPLE, EXAMPLE_LINES, {"b.0.pcap": whole}, ["--nanos"])
    for options in (["--nanos", "--wires"], ["--wires", "--nanos"]):
        plays(bench, f"nanoseconds: run {options}", EXAMPLE, EXAMPLE_LINES,
              {"b.0.pcap": whole, "w.pcap": nanoseconds(put)}, options)
    plays(bench, "nanoseconds: run --wires without the option", EXAMPLE, EXAMPLE_LINES,
          {"b.0.pcap": written(given), "w.pcap": written(put)}, ["--wires"])
    drained = EXAMPLE.partition(b"tick rxdata")[0] + b"drain b\n"
    plays(bench, "nanoseconds: a drained frame", drained, EXAMPLE_LINES,
          {"b.0.pcap": nanoseconds([(4, EXAMPLE_FRAME)])}, ["--nanos"])
    bench.put("fed.pcap", trace_in(">", MAGIC, (1, 5, 14, 14, EXAMPLE_FRAME)))
    plays(bench, "nanoseconds: a fed trace of nanoseconds", TO_SOCKET + b"feed a fed.pcap\n", EXAMPLE_LINES,
          {"b.0.pcap": whole}, ["--nanos"])


# All frames of a are put, delivered to b and drained, so that the next frame that b receives is the next one of a.
EMPTIED = b"tick txtake:a\ntick txput:a\ntick deliver:b\n" * 12 + b"tick deliver:b\n" * 64 + b"drain b\n"


def late(bench):
    """Events about one and two seconds after the start have the right times, with --nanos and without. b's socket takes
    only the last frame, as random frames have another EtherType.
    """
    end = EMPTIED + EXAMPLE.partition(b"b all\n")[2].partition(b"tick rxdata")[0] + b"drain b\n"
    after = end.count(b"\n") - 1
    for number, header in [(999_999, "0000000018c69a3b"), (1_000_000, "0100000000000000"),
                           (1_000_001, "01000000e8030000"),
                           (1_999_999, "0100000018c69a3b")]:
        drawn = number - after
        autos = b"".join(b"auto %d %d\n" % (count, seed)
                         for seed, count in enumerate((min(drawn, MICROSECONDS), drawn - MICROSECONDS)) if count > 0)
        bench.put("s.scenario", TO_SOCKET.replace(b"b all", b"b 0800") + autos + end)
        for options, file in ((["--nanos"], nanoseconds([(number, EXAMPLE_FRAME)])),
                              ([], written([(number, EXAMPLE_FRAME)]))):
            path = folder(bench)
            ran = bench.run("run", *options, "s.scenario", "outdir")
            bench.check(f"nanoseconds: event {number}, {options}", (ran.returncode, held(path)),
                        (0, {"b.0.pcap": file}))
        bench.check(f"nanoseconds: event {number}: the packet header",
                    nanoseconds([(number, EXAMPLE_FRAME)])[24:32].hex(), header)


def all_cases(bench):
    for part in [passes, runs, late]:
        part(bench)
