"""Tests standard input, named pipes and devices as inputs of the program."""

import os
import subprocess
import threading
import time

from codes import failure
from pcap_files import FILE_HEADER, packet, trace, written
import command_words
import scenarios


def cases():
    """Returns commands that read one input. Each has a name, its words, the input's bytes, the status, both outputs,
    and the bytes of out.pcap or None. In the words, None is in place of the input's path. If the output on standard
    error is a `str`, it is a fault of the input.
    """
    frames = [bytes([number]) * (14 + number) for number in range(100)]
    data, passed = trace(*map(packet, frames)), written(list(enumerate(frames)))
    line = b"read 100 skipped 0 illegal 0 filtered 0 written 100 cut "
    header, magic = "E60 Header", "E61 Magic"
    return [
        ("a trace", ["pass", None, "out.pcap"], data, 0, line + b"no\n", b"", passed),
        ("a trace that is cut", ["pass", None, "out.pcap"], data + b"x", 0, line + b"yes\n", b"", passed),
        ("a trace to show", ["show", None], trace(packet(b"")), 0, b"0 0 short\nframes 1 skipped 0 cut no\n", b"",
         None),
        ("no byte", ["pass", None, "out.pcap"], b"", 1, b"", header, None),
        ("23 bytes", ["show", None], FILE_HEADER[:23], 1, b"", header, None),
        ("no trace", ["pass", None, "out.pcap"], bytes(100000), 1, b"", magic, None),
        ("a scenario", ["run", None, "outdir"], scenarios.EXAMPLE, 0, scenarios.EXAMPLE_LINES, b"", None),
        ("no scenario", ["run", None, "outdir"], b"", 1, b"", scenarios.refusal("E42 Hosts"), None),
        ("a line", ["run", None, "outdir"], b"#\n" * 100000 + b"fly\n", 1, b"",
         scenarios.refusal("line 100001: E50 Word", "fly"), None),
    ]


def write_slowly(path, data):
    """Writes bytes to a named pipe, in two parts."""
    with open(path, "wb", buffering=0) as pipe:
        for part in (data[:len(data) // 2], data[len(data) // 2:]):
            pipe.write(part)
            time.sleep(0.02)


def all_cases(bench):
    """Standard input and named pipes are read to their ends, and standard input only once. Devices are refused."""
    scenarios.folder(bench)
    os.mkfifo(bench.path("pipe"))
    for name, words_of, data, status, out, err, file in cases():
        for path, given in [("-", data), ("/dev/stdin", data), ("pipe", b"")]:
            bench.remove("out.pcap")
            if path == "pipe":
                threading.Thread(target=write_slowly, args=(bench.path("pipe"), data), daemon=True).start()
            told = failure(err, path) if isinstance(err, str) else err
            bench.ends(f"{path}: {name}", [path if word is None else word for word in words_of], status, out, told,
                       given=given)
            bench.check(f"{path}: {name}: what is written", bench.get("out.pcap"), file)
    bench.put("-", scenarios.EXAMPLE)
    bench.ends("a file of the name -", ["run", "./-", "outdir"], 0, scenarios.EXAMPLE_LINES)
    feed = scenarios.TO_SOCKET + b"feed a -\n"
    frame = trace(packet(scenarios.EXAMPLE_FRAME))
    bench.put("feed.scenario", feed)
    bench.put("twice.scenario", feed + b"feed a -\n")
    bench.ends("a trace that is fed from standard input", ["run", "feed.scenario", "outdir"], 0,
               scenarios.EXAMPLE_LINES, given=frame)
    bench.ends("standard input is read once", ["run", "twice.scenario", "outdir"], 1, b"",
               scenarios.refusal("E60 Header", "-"), given=frame)
    bench.ends("standard input is read once, as the scenario", ["run", "-", "outdir"], 1, b"",
               scenarios.refusal("E60 Header", "-"), given=feed)
    for device in ("/dev/zero", "/dev/null"):
        fault = f"E68 Open: {device}"
        bench.fails(f"{device} as a trace", device, fault, 3)
        bench.ends(f"{device} as a trace to show", ["show", device], 3, b"", failure(fault))
        bench.ends(f"{device} as a scenario", ["run", device, "outdir"], 3, b"", scenarios.refusal(fault))
    without_a_name(bench)
    ends_of_input(bench)


def without_a_name(bench):
    """Without a trace's name, `show` reads standard input if it is a pipe. Otherwise the name is missing."""
    whole, missing = (0, b"0 0 short\nframes 1 skipped 0 cut no\n", b""), command_words.NO_TRACE
    bench.put("good.pcap", trace(packet(b"")))
    os.mkfifo(bench.path("named"))
    for line, wanted in [
        ("cat good.pcap | {} show", whole), ("cat good.pcap >named & {} show <named", whole),
        ("printf x | {} show", (1, b"", failure("E60 Header", "-"))), ("{} show <good.pcap", (2, b"", missing)),
        ("{} show </dev/null", (2, b"", missing)), ("{} show <&-", (2, b"", missing)),
        ("{} show <.", (2, b"", missing)),
        ("cat good.pcap | {} show good.pcap", whole), ("cat good.pcap | {} show -", whole),
        ("cat good.pcap | {} show --", (2, b"", missing)), ("cat good.pcap | {} pass out.pcap", (2, b"", None)),
    ]:
        got = bench.shell(line.format(bench.program))
        bench.check(f"no name: {line}", (*got[:2], got[2] if wanted[2] is not None else None), wanted)


def ends_of_input(bench):
    """Checks standard input that isn't a pipe, can't be read, or has about 1 GiB or more."""
    bench.put("good.pcap", trace(packet(b"")))
    for name, line, out, err in [
        ("a file", "{} show - <good.pcap", b"0 0 short\nframes 1 skipped 0 cut no\n", (0, b"")),
        ("a file from the place where it stands", "(head -c 7 >/dev/null; {} show -) <good.pcap", b"",
         (1, failure("E61 Magic", "-"))),
        ("closed", "{} show - <&-", b"", (3, failure("E66 Read", "-"))),
        ("a folder", "{} show - <.", b"", (3, failure("E66 Read", "-"))),
        ("a device as a pipe", "head -c 1000000 /dev/zero | {} show -", b"", (1, failure("E61 Magic", "-"))),
        ("1 GiB", "head -c 1073741824 /dev/zero | {} show -", b"", (1, failure("E61 Magic", "-"))),
        ("a byte more", "head -c 1073741825 /dev/zero | {} show -", b"", (3, b"nicbench: E72 Pipe\n")),
        ("a device without end", "{} show - </dev/zero", b"", (3, b"nicbench: E72 Pipe\n")),
        ("a little memory", "ulimit -v 400000; {} show - </dev/zero", b"", (4, b"nicbench: E57 Memory\n")),
    ]:
        ran = subprocess.run(line.format(bench.program), shell=True, cwd=bench.folder, capture_output=True, timeout=60)
        bench.check(f"standard input: {name}", (ran.stdout, (ran.returncode, ran.stderr)), (out, err))
