"""Long jobs report their progress on standard error if it is a terminal, and nothing otherwise."""

import os
import pty
import struct
import subprocess

from pcap_files import FILE_HEADER, packet, trace
import scenarios

MIB = 1 << 20
# The header of a packet that was truncated by one byte: MIB // 4 bytes follow.
PART = struct.pack("<IIII", 0, 0, MIB // 4, MIB // 4 + 1)


def long_trace(path, packets):
    """Makes a trace of truncated packets; their bytes take no room on the disk."""
    with open(path, "wb") as file:
        file.write(FILE_HEADER)
        for _ in range(packets):
            file.write(PART)
            file.seek(MIB // 4, os.SEEK_CUR)
        file.truncate()


def on_terminal(bench, words):
    """The exit status, standard output, and what a terminal shows as standard error."""
    shown, error = pty.openpty()
    ran = subprocess.run([bench.program, *words], cwd=bench.folder, stdin=subprocess.DEVNULL, stdout=subprocess.PIPE,
                         stderr=error, timeout=60)
    os.write(error, b"end")
    os.close(error)
    text = b""
    while not text.endswith(b"end"):
        text += os.read(shown, 4096)
    os.close(shown)
    return ran.returncode, ran.stdout, text[:-3].replace(b"\r\n", b"\n")


def all_cases(bench):
    path = scenarios.folder(bench)
    long_trace(bench.path("short.pcap"), 1000)
    long_trace(bench.path("long.pcap"), 1030)
    bench.put("many.pcap", trace(*[packet(scenarios.EXAMPLE_FRAME)] * 100000))
    bench.put("few.pcap", trace(*[packet(scenarios.EXAMPLE_FRAME)] * 99))
    for name in ("many", "few"):
        bench.put(f"{name}.scenario", scenarios.TO_SOCKET + b"feed a %s.pcap\n" % name.encode())
    read = [25, 51, 77, 103, 128, 154, 180, 206, 231]
    long_lines = b"".join(b"nicbench: read %d of 257 MiB\n" % done for done in read)
    playing = b"nicbench: playing the scenario, which feeds 100000 frames\n"
    for words, lines in [(["show", "long.pcap"], long_lines), (["show", "short.pcap"], b""),
                         (["pass", "long.pcap", "out.pcap"], long_lines),
                         (["run", "many.scenario", path], playing), (["run", "few.scenario", path], b"")]:
        status, out, err = on_terminal(bench, words)
        bench.check(f"progress: {words[:2]} on a terminal", (status, err), (0, lines))
        bench.ends(f"progress: {words[:2]} elsewhere", words, 0, out)
    os.remove(bench.path("many.pcap"))
