"""Runs scenarios by `nicbench run`, and checks their outputs and their errors."""

import os
import re
import subprocess

from codes import failure
from helps import RUN_HELP
from pcap_files import FILE_HEADER, packet, trace, trace_in, written

# The example of the help of `run`, without its comment
EXAMPLE = b"".join(line[2:] + b"\n" for line in re.search(rb"^  host a .*?\n\n", RUN_HELP, re.M | re.S)[0].splitlines()
                   if line and not line.startswith(b"  #"))
EXAMPLE_FRAME = bytes.fromhex("0200000000020200000000010800")
# A frame of 1,518 bytes. A receive packet buffer of 2 KB has room for one.
LONG_FRAME = EXAMPLE_FRAME.ljust(1518, b"\1")
EXAMPLE_LINES = (b"a accepted 1 put 1 reached 0 stored 0 missed 0 exact given 0 unclaimed 0\n"
                 b"b accepted 0 put 0 reached 1 stored 1 missed 0 exact given 1 unclaimed 0\n")
TWO_HOSTS = b"host a 02:00:00:00:00:01 w\nhost b 02:00:00:00:00:02 w\n"
TO_SOCKET = TWO_HOSTS + b"socket b all\n"
# The lines by which a frame on the wire comes to b's socket and is returned.
ARRIVAL = b"tick deliver:b\ntick rxdata:b\ntick rxdone:b\ninterrupt b\nrecv b 0\n"
# The last line on standard error if `run` fails before it writes a byte.
UNCHANGED = b"nicbench: existing files in OUTDIR are unchanged\n"
NOTHING = {"accepted": 0, "put": 0, "reached": 0, "stored": 0, "missed": 0, "given": 0, "unclaimed": 0}


def told(name, exact="exact", **numbers):
    """The line of a host, with these counts, and 0 for the others."""
    n = {**NOTHING, **numbers}
    return (f"{name} accepted {n['accepted']} put {n['put']} reached {n['reached']} stored {n['stored']} missed "
            f"{n['missed']} {exact} "
            f"given {n['given']} unclaimed {n['unclaimed']}\n").encode()


def folder(bench, name="outdir"):
    """Makes or empties a folder of this name. Returns its path."""
    path = bench.path(name)
    os.makedirs(path, exist_ok=True)
    for file in os.listdir(path):
        os.remove(os.path.join(path, file))
    return path


def held(path):
    """The files of a folder, each with its bytes."""
    files = {}
    for name in os.listdir(path):
        with open(os.path.join(path, name), "rb") as file:
            files[name] = file.read()
    return files


def warning(sends, recvs=0, groups=0):
    """What a run prints on standard error if it refused these numbers of sends, of recvs, and of joins and leaves. A
    recv is refused if its socket doesn't exist.
    """
    return b"nicbench: refused: sends %d, joins and leaves %d, recvs %d; --events lists them\n" % (sends, groups, recvs)


# A warning of this kind with any numbers.
ANY_WARNING = re.compile(rb"nicbench: refused: sends \d+, joins and leaves \d+, recvs \d+; --events lists them\n")


def plays(bench, name, text, lines, files, options=(), warned=b""):
    """Runs a scenario with these options; checks the lines, a warning (None: any or none), and the files in OUTDIR."""
    path = folder(bench)
    bench.put("s.scenario", text)
    ran = bench.run("run", *options, "s.scenario", "outdir")
    told_on_error = ANY_WARNING.sub(b"", ran.stderr) if warned is None else ran.stderr
    bench.check(name, (ran.returncode, ran.stdout, told_on_error), (0, lines, warned or b""))
    bench.check(f"{name}: what is written", held(path), files)


def refusal(fault, path=None):
    """What a run that wrote nothing prints on standard error; `path` is that of an input that is refused, or the wrong
    word of E50.
    """
    return failure(fault, path) + UNCHANGED


def word_of(text, fault):
    """The first word of the line of a text that a fault E50 names; None for another fault."""
    if not fault.endswith("E50 Word"):
        return None
    number, lines = int(fault.split()[1].rstrip(":")), text.split(b"\n")
    line = lines[number - 1]
    line = line[:-1] if number < len(lines) and line.endswith(b"\r") else line
    return re.split("[ \t]+", line.decode().strip(" \t"))[0]


def refused(bench, name, text, fault, status=1, files=(), options=(), given=None):
    """Checks that a scenario is rejected. New files in OUTDIR are created, empty; existing files don't change."""
    path = folder(bench)
    bench.put("s.scenario", text)
    for before in [b"", b"old"] if files else [b""]:
        bench.ends(f"run: {name}", ["run", *options, "s.scenario", "outdir"], status, b"",
                   refusal(fault, given or word_of(text, fault)))
        bench.check(f"run: {name}: what is written", held(path), {file: before for file in files})
        for file in files:
            bench.put(f"outdir/{file}", b"old")


def played(bench):
    """Scenarios print the expected lines, and write the expected files."""
    files = {"b.0.pcap": written([(7, EXAMPLE_FRAME)])}
    plays(bench, "run: the example", EXAMPLE, EXAMPLE_LINES, files)
    bench.check("run: the example: size", len(files["b.0.pcap"]), 100)
    bench.check("run: the example: packet header", files["b.0.pcap"][24:40].hex(), "00000000070000003c0000003c000000")
    bench.ends("run: the example, shown", ["show", "outdir/b.0.pcap"], 0,
               b"0 60 02:00:00:00:00:02 02:00:00:00:00:01 0800\nframes 1 skipped 0 cut no\n")
    plays(bench, "run: CR LF", EXAMPLE.replace(b"\n", b"\r\n"), EXAMPLE_LINES, files)
    plays(bench, "run: no last line feed", EXAMPLE[:-1], EXAMPLE_LINES, files)
    plays(bench, "run: tabs, empty lines and comments",
          b"\n \t \n# none\n\t#\n" + EXAMPLE.replace(b" ", b"\t \t").replace(b"\n", b" \n"),
          EXAMPLE_LINES, files)
    plays(bench, "run: a line of 8,192 bytes", EXAMPLE + b"#" + b"x" * 8191 + b"\n#" + b"x" * 8191 + b"\r\n",
          EXAMPLE_LINES, files)
    plays(bench, "run: no event", TO_SOCKET, told("a") + told("b"), {"b.0.pcap": FILE_HEADER})
    plays(bench, "run: drains of hosts that hold nothing", TO_SOCKET + b"drain a\ndrain b\n", told("a") + told("b"),
          {"b.0.pcap": FILE_HEADER})
    plays(bench, "run: no socket", TWO_HOSTS, told("a") + told("b"), {})
    many = b"".join(b"socket a %04x\nsocket b %04x\n" % (n, n) for n in range(8))
    plays(bench, "run: eight sockets", TWO_HOSTS + many, told("a") + told("b"),
          {f"{host}.{n}.pcap": FILE_HEADER for host in "ab" for n in range(8)})
    lengths = b"".join(b"send a %s\n" % (b"ff" * length) for length in [13, 1519, 14, 1518])
    plays(bench, "run: sends too short and too long", TO_SOCKET + lengths, told("a", accepted=2) + told("b"),
          {"b.0.pcap": FILE_HEADER},
          warned=warning(2))
    full = b"send a %s\n" % EXAMPLE_FRAME.hex().encode()
    plays(bench, "run: a full ring", TO_SOCKET + full * 8 + b"tick txtake:a\n" + full,
          told("a", accepted=7) + told("b"), {"b.0.pcap": FILE_HEADER},
          warned=warning(2))
    plays(bench, "run: a full ring has room behind a put",
          TO_SOCKET + full * 8 + b"tick txtake:a\ntick txput:a\n" + full,
          told("a", accepted=8, put=1) + told("b"), {"b.0.pcap": FILE_HEADER}, warned=warning(1))
    plays(bench, "run: the highest link", TWO_HOSTS.replace(b"02 w\n", b"02 w link 2000\n"), told("a") + told("b"), {})
    late = b"interrupt b / go" + b" rxdata:b rxdone:b" * 6 + b"\n"
    missed = (TO_SOCKET.replace(b"02 w\n", b"02 w rxa 2\n") + b"send a %s\n" % LONG_FRAME.hex().encode() * 3
              + b"tick txtake:a\ntick txput:a\n" * 3
              + b"tick deliver:b\n" * 3)
    plays(bench, "run: misses", missed + late + b"interrupt b\nrecv b 0\n",
          told("a", accepted=3, put=3) + told("b", reached=3, stored=1, missed=2, given=1),
          {"b.0.pcap": written([(14, LONG_FRAME)])})
    plays(bench, "run: a frame without a socket", EXAMPLE.replace(b"socket b all", b"socket b 0806"),
          told("a", accepted=1, put=1) + told("b", reached=1, stored=1, unclaimed=1), {"b.0.pcap": FILE_HEADER})


def feeds(bench):
    """Each frame of a fed trace is sent, and delivered to the other hosts on the wire."""
    frames = [EXAMPLE_FRAME + bytes([n]) * n for n in range(20)]
    bench.put("twenty.pcap", trace(*map(packet, frames)))
    lines = told("a", accepted=20, put=20) + told("b", reached=20, stored=20, given=20)
    wanted = {"b.0.pcap": written([(8 * n + 7, frame) for n, frame in enumerate(frames)])}
    plays(bench, "feed: twenty frames", TO_SOCKET + b"feed a twenty.pcap\n", lines, wanted)
    plays(bench, "feed: by another path", TO_SOCKET + b"feed a " + bench.path("twenty.pcap").encode() + b"\n", lines,
          wanted)
    bench.put("big.pcap", trace_in(">", 0xA1B23C4D, *((1, 5, len(frame), len(frame), frame) for frame in frames)))
    plays(bench, "feed: big-endian, nanoseconds", TO_SOCKET + b"feed a big.pcap\n", lines, wanted)
    bench.put("cut.pcap", trace(*map(packet, frames)) + packet(EXAMPLE_FRAME)[:-1])
    plays(bench, "feed: a cut trace", TO_SOCKET + b"feed a cut.pcap\n", lines, wanted)
    bench.put("skipped.pcap", trace(packet(EXAMPLE_FRAME, 100), *map(packet, frames)))
    plays(bench, "feed: a packet that was captured in part", TO_SOCKET + b"feed a skipped.pcap\n", lines, wanted)
    plays(bench, "feed: one trace twice", TO_SOCKET + b"feed a twenty.pcap\nfeed a twenty.pcap\n",
          told("a", accepted=40, put=40) + told("b", reached=40, stored=40, given=40),
          {"b.0.pcap": written([(8 * n + 7, frame) for n, frame in enumerate(frames * 2)])})
    bench.put("none.pcap", FILE_HEADER)
    plays(bench, "feed: no frame", TO_SOCKET + b"feed a none.pcap\n", told("a") + told("b"), {"b.0.pcap": FILE_HEADER})
    bench.put("lengths.pcap", trace(packet(EXAMPLE_FRAME[:13]), packet(EXAMPLE_FRAME), packet(bytes(1519)),
                                    packet(LONG_FRAME)))
    plays(bench, "feed: frames that send refuses", TO_SOCKET + b"feed a lengths.pcap\n",
          told("a", accepted=2, put=2) + told("b", reached=2, stored=2, given=2),
          {"b.0.pcap": written([(15, EXAMPLE_FRAME), (41, LONG_FRAME)])}, warned=warning(2))
    three = (b"host a 02:00:00:00:00:01 w\nhost c 02:00:00:00:00:03 other\nhost b 02:00:00:00:00:02 w\n"
             b"host d 02:00:00:00:00:04 other\nhost e 02:00:00:00:00:05 w promiscuous\n"
             b"socket b 0806\nsocket b all\nsocket e 0800\nfeed a twenty.pcap\n")
    # Each frame is 14 events: three of the sender, six for b's two sockets and five for e's one.
    plays(bench, "feed: three hosts and another wire", three,
          told("a", accepted=20, put=20) + told("c") + told("b", reached=20, stored=20, given=20) + told("d")
          + told("e", reached=20, stored=20, given=20),
          {"b.0.pcap": FILE_HEADER, "b.1.pcap": written([(14 * n + 8, frame) for n, frame in enumerate(frames)]),
           "e.0.pcap": written([(14 * n + 13, frame) for n, frame in enumerate(frames)])})
    path = folder(bench)
    bench.put("outdir/b.0.pcap", trace(*map(packet, frames)))
    bench.put("s.scenario", TO_SOCKET + b"feed a outdir/b.0.pcap\n")
    before = held(path)
    bench.ends("feed: a file of OUTDIR", ["run", "s.scenario", "outdir"], 3, b"",
               refusal("E73 SameFile: outdir/b.0.pcap"))
    bench.check("feed: a file of OUTDIR: nothing is written", held(path), before)
    faults(bench)


def faults(bench):
    """Traces that can't be fed are reported, and no file is created."""
    feed = TO_SOCKET + b"feed a %s\n"
    for name, data, fault in [
        ("no header", b"", "E60 Header"),
        ("another magic number", b"\x0a\x0d\x0d\x0a" + FILE_HEADER[4:], "E61 Magic"),
        ("version 2.3", FILE_HEADER[:6] + b"\3\0" + FILE_HEADER[8:], "E62 Version"),
        ("another link type", FILE_HEADER[:20] + b"\x65\0\0\0", "E63 LinkType"),
        ("a packet that is too long", trace_in("<", 0xA1B2C3D4, (0, 0, 262145, 262145, b"")), "E64 Record"),
    ]:
        bench.put("bad.pcap", data)
        refused(bench, f"feed: {name}", feed % b"bad.pcap", fault, given="bad.pcap")
    missing = "E68 Open: missing.pcap"
    refused(bench, "feed: a missing trace", feed % b"missing.pcap", missing, 3)
    refused(bench, "feed: a folder", feed % b"outdir", "E66 Read", 3, given="outdir")
    refused(bench, "feed: the first fault of two", feed % b"bad.pcap" + b"feed a missing.pcap\n", "E64 Record",
            given="bad.pcap")
    refused(bench, "feed: the first fault of two, the other way", feed % b"missing.pcap" + b"feed a bad.pcap\n",
            missing, 3)
    refused(bench, "feed: a trace before a plan", b"host a 01:00:00:00:00:01 w\nfeed a missing.pcap\n", missing, 3)
    refused(bench, "feed: a line before a trace", feed % b"missing.pcap" + b"fly\n", "line 5: E50 Word")


def lines(bench):
    """Invalid lines are reported with their numbers, and no file is created."""
    long = b"#" + b"x" * 8192
    for name, text, fault in [
        ("an unknown word", EXAMPLE + b"fly b\n", "line 12: E50 Word"),
        ("a byte order mark", b"\xef\xbb\xbf" + EXAMPLE, "line 1: E50 Word"),
        ("an upper-case word", b"Host a 02:00:00:00:00:01 w\n", "line 1: E50 Word"),
        ("too few words", b"host a 02:00:00:00:00:01\n", "line 1: E51 Count"),
        ("too many words", TWO_HOSTS + b"group a 01:00:5e:00:00:01 b\n", "line 3: E51 Count"),
        ("words behind a tick", TWO_HOSTS + b"tick go go\n", "line 3: E51 Count"),
        ("a call without its words", TWO_HOSTS + b"send a / go\n", "line 3: E51 Count"),
        ("a drain with ticks", TO_SOCKET + b"drain b / go\n", "line 4: E51 Count"),
        ("a drain of nobody", TO_SOCKET + b"drain c\n", "line 4: E53 Name"),
        ("a host behind a drain", TWO_HOSTS + b"drain a\nhost c 02:00:00:00:00:03 w\n", "line 4: E54 Order"),
        ("an option twice", b"host a 02:00:00:00:00:01 w rx 8 rx 8\n", "line 1: E51 Count"),
        ("an option without its value", b"host a 02:00:00:00:00:01 w rx\n", "line 1: E51 Count"),
        ("an address", b"host a 02:00:00:00:00 w\n", "line 1: E52 Value"),
        ("an option", b"host a 02:00:00:00:00:01 w fast\n", "line 1: E52 Value"),
        ("a number", b"host a 02:00:00:00:00:01 w rx +8\n", "line 1: E52 Value"),
        ("a number that is too great", b"host a 02:00:00:00:00:01 w rxa 256\n", "line 1: E52 Value"),
        ("an EtherType", TWO_HOSTS + b"socket a 800\n", "line 3: E52 Value"),
        ("an odd digit", TWO_HOSTS + b"send a 0\n", "line 3: E52 Value"),
        ("no digit", TWO_HOSTS + b"send a xx\n", "line 3: E52 Value"),
        ("8,002 digits", TWO_HOSTS + b"send a " + b"0" * 8002 + b"\n", "line 3: E52 Value"),
        ("a tick", TWO_HOSTS + b"tick run:a\n", "line 3: E52 Value"),
        ("a second slash", TWO_HOSTS + b"interrupt a / go / go\n", "line 3: E52 Value"),
        ("too many events", TWO_HOSTS + b"auto 1000001 1\n", "line 3: E52 Value"),
        ("a host", TWO_HOSTS + b"interrupt c\n", "line 3: E53 Name"),
        ("a host in a tick", TWO_HOSTS + b"interrupt a / deliver:c\n", "line 3: E53 Name"),
        ("a host that isn't there yet", b"socket b all\n" + TWO_HOSTS, "line 1: E53 Name"),
        ("a host's name twice", TWO_HOSTS + b"host a 02:00:00:00:00:03 w\n", "line 3: E53 Name"),
        ("a ninth socket", TWO_HOSTS + b"socket a all\n" * 9, "line 11: E53 Name"),
        ("a 33rd group", TWO_HOSTS + b"group a 01:00:5e:00:00:01\n" * 33, "line 35: E53 Name"),
        ("a 33rd VLAN", TWO_HOSTS + b"vlan a 5\n" * 33, "line 35: E53 Name"),
        ("a host behind an event", TWO_HOSTS + b"tick go\n# one more\nhost c 02:00:00:00:00:03 w\n",
         "line 5: E54 Order"),
        ("a socket behind an event", TWO_HOSTS + b"auto 0 1\nsocket a all\n", "line 4: E54 Order"),
        ("a value before an order", TWO_HOSTS + b"tick go\nsocket a 800\n", "line 4: E52 Value"),
        ("a long line", EXAMPLE + b"\n" + long + b"\n", "line 13: E55 Long"),
        ("a long line, CR LF", EXAMPLE + long + b"\r\n", "line 12: E55 Long"),
        ("a long line without a line feed", EXAMPLE + b"#" + b"x" * 8191 + b"\r", "line 12: E55 Long"),
        ("a long line that isn't UTF-8", EXAMPLE + long + b"\xff\n", "line 12: E55 Long"),
        ("no UTF-8", EXAMPLE.replace(b"recv b", b"recv \xff"), "line 11: E56 Text"),
        ("no UTF-8 in a comment", b"# \xc3\n" + EXAMPLE, "line 1: E56 Text"),
        ("no UTF-8 in a word that isn't known", b"fly \x80\n", "line 1: E56 Text"),
        ("a CR that ends no line", EXAMPLE[:-1] + b"\r", "line 11: E52 Value"),
        ("two faults", b"fly\nhost\n", "line 1: E50 Word"),
        ("a CR at the end of the text", b"fly\r", "line 1: E50 Word"),
        ("a CR LF", b"#\r\n\t sned\r\n", "line 2: E50 Word"),
        ("two CR", b"\n\nfly\r\r\nfly", "line 3: E50 Word"),
        ("a word that isn't printable", "\u001b[1m\"\\\u0085\u00e9\u0301 a\n".encode(), "line 1: E50 Word"),
        ("a word of a whole line", b"x" * 8192 + b"\n", "line 1: E50 Word"),
        ("a text that isn't UTF-8 behind the word", b"fly\n\xff", "line 1: E50 Word"),
    ]:
        refused(bench, name, text, fault)


def plans(bench):
    """Invalid plans are reported. New files in OUTDIR are created, empty; existing files don't change."""
    hosts = [b"host h%d 02:00:00:00:00:%02x w%d\n" % (n, n, n // 8) for n in range(17)]
    socket = b"socket b all\n"
    made = ["b.0.pcap"]
    for name, text, fault, files in [
        ("an empty scenario", b"", "E42 Hosts", []),
        ("a name", TWO_HOSTS.replace(b" b ", b" B ") + b"socket B all\n", "E40 Name", ["B.0.pcap"]),
        ("a long name", TWO_HOSTS.replace(b" b ", b" bbbbbbbbbbbbbbbbb "), "E40 Name", []),
        ("a wire's name", TWO_HOSTS.replace(b"w\n", b"w.\n") + socket, "E40 Name", made),
        ("one host", b"host b 02:00:00:00:00:02 w\n" + socket, "E41 Ends", made),
        ("a wire with one end", TWO_HOSTS + b"host c 02:00:00:00:00:03 v\n" + socket, "E41 Ends", made),
        ("a wire with nine ends", b"".join(hosts[:9]).replace(b"w1", b"w0"), "E41 Ends", []),
        ("seventeen hosts", b"".join(hosts).replace(b"w0", b"w2", 1), "E42 Hosts", []),
        ("one address twice", TWO_HOSTS.replace(b":02 ", b":01 ") + socket, "E43 Address", made),
        ("a group's address", TWO_HOSTS.replace(b"02:00:00:00:00:02", b"03:00:00:00:00:02") + socket, "E43 Address",
         made),
        ("a group that is none", TWO_HOSTS + b"group a 02:00:00:00:00:03\n" + socket, "E44 Config", made),
        ("a VLAN", TWO_HOSTS + b"vlan a 4096\n" + socket, "E44 Config", made),
        *((f"option {option}", TWO_HOSTS.replace(b"02 w", b"02 w " + option.encode()) + socket, "E44 Config", made)
          for option in ["rx 12", "rx 0", "rx 4104", "tx 4104", "buffers 7", "buffers 8193", "rxa 3", "rxa 50", "rxa 0",
                         "link 0"]),
        ("a link that never comes", TWO_HOSTS.replace(b"02 w", b"02 w link never") + socket, "E46 Init: E14 NoLink",
         made),
        ("a link that comes too late", TWO_HOSTS.replace(b"02 w", b"02 w link 2001") + socket, "E46 Init: E14 NoLink",
         made),
    ]:
        refused(bench, name, text, fault, 1, files)


def places(bench):
    """Files and folders that are missing or can't be created are reported."""
    folder(bench)
    bench.put("s.scenario", EXAMPLE)
    bench.put("none.scenario", TWO_HOSTS)
    bench.put("bad.scenario", b"fly\n")
    bench.put("feed.scenario", TO_SOCKET + b"feed a missing.pcap\n")
    bench.put("plan.scenario", b"host b 02:00:00:00:00:02 w\nsocket b all\n")
    for name, words, fault, status, *word in [
        ("no scenario", ["missing.scenario", "outdir"], "E68 Open: missing.scenario", 3),
        ("a folder as scenario", ["outdir", "outdir"], "E66 Read", 3),
        ("no OUTDIR", ["s.scenario", "missing"], "E68 Open: missing", 3),
        ("no OUTDIR, and no file to make", ["none.scenario", "missing"], "E68 Open: missing", 3),
        ("a file as OUTDIR", ["s.scenario", "s.scenario"], "E68 Open: s.scenario", 3),
        ("a file as OUTDIR, and no file to make", ["none.scenario", "s.scenario"], "E68 Open: s.scenario", 3),
        ("an empty word as OUTDIR", ["none.scenario", ""], "E68 Open: ", 3),
        ("a line before OUTDIR", ["bad.scenario", "missing"], "line 1: E50 Word", 1, "fly"),
        ("a trace before OUTDIR", ["feed.scenario", "s.scenario"], "E68 Open: missing.pcap", 3),
        ("OUTDIR before a plan", ["plan.scenario", "missing"], "E68 Open: missing", 3),
    ]:
        bench.ends(f"run: {name}", ["run", *words], status, b"", refusal(fault, *(word or words[:1])))
    bench.check("run: OUTDIR stays empty", os.listdir(bench.path("outdir")), [])
    bench.check("run: OUTDIR isn't made", os.path.exists(bench.path("missing")), False)
    for name in ["x/y", "../b", "/b"]:
        refused(bench, f"a file outside of OUTDIR: {name}", TO_SOCKET.replace(b" b ", b" %s " % name.encode()),
                f"E68 Open: outdir/{name}.0.pcap", 3)
    bench.check("run: no file is made outside of OUTDIR", os.path.exists(bench.path("b.0.pcap")), False)
    replaced(bench)
    full(bench)


def replaced(bench):
    """`run` replaces its files in OUTDIR, and doesn't change others; OUTDIR may be a link, or end in a slash."""
    path = folder(bench)
    bench.put("s.scenario", EXAMPLE)
    os.symlink(path, bench.path("link"))
    for outdir in ["outdir", "outdir/", "link", path, "./outdir/../outdir"]:
        bench.put("outdir/b.0.pcap", b"old" * 1000)
        bench.put("outdir/other", b"old")
        bench.ends(f"run: OUTDIR {outdir}", ["run", "s.scenario", outdir], 0, EXAMPLE_LINES)
        bench.check(f"run: OUTDIR {outdir}: what is written", held(path),
                    {"b.0.pcap": written([(7, EXAMPLE_FRAME)]), "other": b"old"})


def full(bench):
    """Files that can't be created or written, and outputs that accept no bytes, are reported."""
    path = folder(bench)
    os.mkdir(os.path.join(path, "b.0.pcap"))
    taken = refusal("E68 Open: outdir/b.0.pcap")
    bench.ends("run: a folder in the place of a file", ["run", "s.scenario", "outdir"], 3, b"", taken)
    bench.put("three.scenario", EXAMPLE.replace(b"socket", b"socket a all\nsocket b 0806\nsocket", 1))
    bench.put("outdir/a.0.pcap", b"old")
    bench.ends("run: a folder in the place of the second file", ["run", "three.scenario", "outdir"], 3, b"", taken)
    bench.check("run: a folder in the place of the second file: the first", bench.get("outdir/a.0.pcap"), b"old")
    os.rmdir(os.path.join(path, "b.0.pcap"))
    os.symlink("/dev/full", os.path.join(path, "b.0.pcap"))
    bench.put("outdir/b.1.pcap", b"old")
    bench.ends("run: a full device in OUTDIR", ["run", "three.scenario", "outdir"], 3, b"", b"nicbench: E67 Write\n")
    bench.check("run: a full device in OUTDIR: the files before and after it",
                (bench.get("outdir/a.0.pcap"), bench.get("outdir/b.1.pcap")),
                (FILE_HEADER, b"old"))
    os.remove(os.path.join(path, "b.0.pcap"))
    os.symlink("/dev/null", os.path.join(path, "b.0.pcap"))
    bench.ends("run: a device in OUTDIR that has no bytes to drop", ["run", "s.scenario", "outdir"], 0, EXAMPLE_LINES)
    os.remove(os.path.join(path, "b.0.pcap"))
    for name, line, status, err in [("standard output is full", "run s.scenario outdir >/dev/full", 3,
                                     b"nicbench: E67 Write\n"),
                                    ("standard error is full", "run bad.scenario outdir 2>/dev/full", 1, b"")]:
        ran = subprocess.run(f"{bench.program} {line}", shell=True, cwd=bench.folder, capture_output=True, timeout=60)
        bench.check(f"run: {name}", (ran.returncode, ran.stdout, ran.stderr), (status, b"", err))


# Two wires, w and v. b's receive packet buffer has room for one long frame.
TWO_WIRES = (b"host a 02:00:00:00:00:01 w\nhost c 02:00:00:00:00:03 v\nhost b 02:00:00:00:00:02 w rxa 2\n"
             b"host d 02:00:00:00:00:04 v\n"
             b"socket b all\nsocket d all\n")
# Frames of a, of which b misses the second, and a frame of d, which c never gets.
OF_A = [LONG_FRAME, LONG_FRAME[:12] + b"\x86\xdd" + LONG_FRAME[14:]]
OF_D = bytes.fromhex("02000000000302000000000488b5")
TRAFFIC = (b"".join(b"send %s %s\n" % (host, frame.hex().encode())
                    for host, frame in [(b"a", OF_A[0]), (b"a", OF_A[1]), (b"d", OF_D)])
           + b"".join(b"tick txtake:%s\ntick txput:%s\n" % (host, host) for host in [b"a", b"d", b"a"])
           + b"tick deliver:b\n"
           + ARRIVAL.replace(b"tick rxdata:b\ntick rxdone:b\n", b"tick rxdata:b\ntick rxdone:b\n" * 6))
TRAFFIC_LINES = (told("a", accepted=2, put=2) + told("c") + told("b", reached=2, stored=1, missed=1, given=1)
                 + told("d", accepted=1, put=1))
TRAFFIC_FILES = {"b.0.pcap": written([(24, OF_A[0])]), "d.0.pcap": FILE_HEADER}
WIRE_FILES = {"w.pcap": written([(4, OF_A[0]), (8, OF_A[1])]), "v.pcap": written([(6, OF_D)])}


def wires(bench):
    """The traces of wires have the frames that were put, in order, with the numbers of their events."""
    plays(bench, "wires: the example", EXAMPLE, EXAMPLE_LINES,
          {"b.0.pcap": written([(7, EXAMPLE_FRAME)]), "w.pcap": written([(2, EXAMPLE_FRAME)])}, ["--wires"])
    plays(bench, "wires: two wires, and frames that no host receives", TWO_WIRES + TRAFFIC, TRAFFIC_LINES,
          {**TRAFFIC_FILES, **WIRE_FILES}, ["--wires"])
    plays(bench, "wires: without the option", TWO_WIRES + TRAFFIC, TRAFFIC_LINES, TRAFFIC_FILES)
    plays(bench, "wires: no event", TWO_WIRES, told("a") + told("c") + told("b") + told("d"),
          {name: FILE_HEADER for name in ["b.0.pcap", "d.0.pcap", "w.pcap", "v.pcap"]}, ["--wires"])
    sends = b"".join(b"send a %s\n" % frame.hex().encode() for frame in OF_A)
    plays(bench, "wires: two frames in one call",
          TO_SOCKET + sends + b"interrupt b / txtake:a txput:a go txtake:a txput:a\n",
          told("a", accepted=2, put=2) + told("b"),
          {"b.0.pcap": FILE_HEADER, "w.pcap": written([(2, frame) for frame in OF_A])}, ["--wires"])
    plays(bench, "wires: a put without a frame", TO_SOCKET + b"tick txput:a\nrecv b 0 / txput:a txput:b\n",
          told("a") + told("b"),
          {"b.0.pcap": FILE_HEADER, "w.pcap": FILE_HEADER}, ["--wires"])
    plays(bench, "wires: a drain has a number, and puts no frame",
          EXAMPLE.replace(TO_SOCKET, TO_SOCKET + b"drain b\n") + b"drain a\n", EXAMPLE_LINES,
          {"b.0.pcap": written([(8, EXAMPLE_FRAME)]), "w.pcap": written([(3, EXAMPLE_FRAME)])}, ["--wires"])
    frames = [EXAMPLE_FRAME + bytes([n]) * n for n in range(20)] + [LONG_FRAME]
    bench.put("fed.pcap", trace(*map(packet, frames)))
    numbers = [8 * n for n in range(21)]
    plays(bench, "wires: a feed", TO_SOCKET + b"feed a fed.pcap\n",
          told("a", accepted=21, put=21) + told("b", reached=21, stored=21, given=21),
          {"b.0.pcap": written([(n + 7 if n < 160 else 177, frame) for n, frame in zip(numbers, frames)]),
           "w.pcap": written([(n + 2, frame) for n, frame in zip(numbers, frames)])}, ["--wires"])
    plays(bench, "wires: a host of a wire's name", EXAMPLE.replace(b" b", b" w").replace(b":b", b":w"),
          EXAMPLE_LINES.replace(b"b ", b"w "),
          {"w.0.pcap": written([(7, EXAMPLE_FRAME)]), "w.pcap": written([(2, EXAMPLE_FRAME)])}, ["--wires"])
    drawn_wires(bench)
    wire_places(bench)


def drawn_wires(bench):
    """With random events: the other outputs are the same as without the option, and each frame that was put is in its
    wire's trace.
    """
    hosts = [b"host %c 02:00:00:00:00:%02x %s rxa 4\n" % (b"abcde"[n], n + 1, wire)
             for n, wire in enumerate([b"x", b"y", b"x", b"y", b"x"])]
    bench.put("s.scenario", b"".join(hosts) + b"socket a all\nsocket b 88b5\nauto 20000 3\n")
    path, runs = folder(bench), []
    for options in [[], ["--wires"]]:
        ran = bench.run("run", *options, "s.scenario", "outdir")
        runs.append((ran.returncode, ran.stdout, ran.stderr, held(path)))
    traces = {name: runs[1][3].pop(name) for name in ["x.pcap", "y.pcap"]}
    bench.check("wires: random events: the other outputs are the same", runs[1] == runs[0], True)
    put = dict(re.findall(rb"^(\w) accepted \d+ put (\d+) ", runs[0][1], re.M))
    for name, ends, others in [("x.pcap", b"ace", b"bd"), ("y.pcap", b"bd", b"ace")]:
        packets = [traces[name][at:at + 76] for at in range(24, len(traces[name]), 76)]
        senders = [packet[16 + 11] for packet in packets]
        bench.check(f"wires: random events: {name}: the frames of each host", [senders.count(n + 1) for n in range(5)],
                    [int(put[b"%c" % host]) if host in ends else 0 for host in b"abcde"])
        times = [int.from_bytes(packet[4:8], "little") for packet in packets]
        bench.check(f"wires: random events: {name}: in order", times, sorted(times))
        bench.check(f"wires: random events: {name}: there are frames", len(packets) > 100, True)


def wire_places(bench):
    """Files of wires that can't be created or written are reported. The files of wires follow those of sockets, in the
    order in which hosts name the wires.
    """
    made = ["b.0.pcap", "d.0.pcap"]
    option = ["--wires"]
    refused(bench, "wires: a wire's name", TWO_WIRES.replace(b" w", b" a.0"), "E40 Name", 1,
            [*made, "a.0.pcap", "v.pcap"], option)
    refused(bench, "wires: a plan", TWO_WIRES.replace(b" v", b" u", 1), "E41 Ends", 1,
            [*made, "w.pcap", "u.pcap", "v.pcap"], option)
    for name in ["x/y", "../w", "/w"]:
        refused(bench, f"wires: a file outside of OUTDIR: {name}", TO_SOCKET.replace(b" w\n", b" %s\n" % name.encode()),
                f"E68 Open: outdir/{name}.pcap", 3, made[:1], option)
    bench.check("wires: no file is made outside of OUTDIR", os.path.exists(bench.path("w.pcap")), False)
    bench.ends("wires: no OUTDIR", ["run", "--wires", "s.scenario", "missing"], 3, b"", refusal("E68 Open: missing"))
    bench.put("s.scenario", TWO_WIRES + TRAFFIC)
    order = ["b.0.pcap", "d.0.pcap", "w.pcap", "v.pcap"]
    texts = {**TRAFFIC_FILES, **WIRE_FILES}
    for place, file in enumerate(order):
        path = folder(bench)
        for name in order:
            bench.put(f"outdir/{name}", b"old")
        os.remove(bench.path(f"outdir/{file}"))
        os.symlink("/dev/full", bench.path(f"outdir/{file}"))
        bench.ends(f"wires: {file} is a full device", ["run", "--wires", "s.scenario", "outdir"], 3, b"",
                   b"nicbench: E67 Write\n")
        bench.check(f"wires: {file} is a full device: the others",
                    [bench.get(f"outdir/{name}") for name in order if name != file],
                    [texts[name] if order.index(name) < place else b"old" for name in order if name != file])
        os.remove(bench.path(f"outdir/{file}"))
        folder(bench)
        os.mkdir(os.path.join(path, file))
        bench.ends(f"wires: {file} is a folder", ["run", "--wires", "s.scenario", "outdir"], 3, b"",
                   refusal(f"E68 Open: outdir/{file}"))
        os.rmdir(os.path.join(path, file))
        bench.check(f"wires: {file} is a folder: the files before it", held(path),
                    {name: b"" for name in order[:place]})


def all_cases(bench):
    for part in [played, feeds, lines, plans, places, wires]:
        part(bench)
