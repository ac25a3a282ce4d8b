"""Tests tools/to_pcap, which converts a capture for nicbench.

Scripts in place of Wireshark's tools show how to_pcap runs a tool, and what it does with the output. If editcap and
tshark are installed, they convert captures that are made here, and `nicbench show` lists the frames.
"""

import gzip
import os
import signal
import stat
import struct
import subprocess
import sys
import time

from harness import TOOLS
from pcap_files import FILE_HEADER, packet, trace

TOOL = [sys.executable, "-S", "-E", os.path.join(TOOLS, "to_pcap")]
NO_TOOL = "to_pcap: there is neither editcap nor tshark; on Debian: apt-get install wireshark-common\n"
# A tool that stores its words, and copies its input. GIVEN makes it fail, end early, or print a warning.
FAKE = """#!/bin/sh
printf '%s\\n' "$@" >words
from=$3
case $0 in */tshark) echo 'Running as user "root" and group "root".' >&2 ;; esac
case ${GIVEN-} in
    fails) echo part; echo "first" >&2; echo "tool: no room" >&2; exit 2 ;;
    silent) echo part; exit 2 ;;
    warns) echo "tool: it is cut short" >&2 ;;
    hangs) echo part; echo $$ >pid; exec sleep 1000 ;;
    dies) kill -9 $$ ;;
    deaf) exit 0 ;;
esac
[ "$from" = - ] && exec cat
exec cat -- "$from"
"""
FRAMES = [bytes([number]) * (60 + number) for number in range(3)]


def block(kind, body):
    """A block of a pcapng file (Wireshark's default), little-endian."""
    body = body.ljust(-(-len(body) // 4) * 4, b"\0")
    return struct.pack("<II", kind, len(body) + 12) + body + struct.pack("<I", len(body) + 12)


def pcapng(*frames, links=(1,)):
    """A pcapng file with an interface for each of these link types. The last one has captured the frames."""
    heads = [block(0x0A0D0D0A, struct.pack("<IHHq", 0x1A2B3C4D, 1, 0, -1)),
             *(block(1, struct.pack("<HHI", link, 0, 0)) for link in links)]
    return b"".join([*heads, *(block(6, struct.pack("<IIIII", number % len(links), 0, number, len(frame), len(frame))
                                    + frame) for number, frame in enumerate(frames))])


def convert(bench, *words, given=b"", path=None, limit=60, **env):
    """Runs to_pcap. Returns its status, its output and its errors. `path` names the folder of the tools."""
    env = {**os.environ, **env, **({} if path is None else {"PATH": f"{bench.path(path)}:/usr/bin:/bin"})}
    ran = subprocess.run([*TOOL, *words], cwd=bench.folder, input=given, capture_output=True, timeout=limit, env=env,
                         check=False)
    return ran.returncode, ran.stdout, ran.stderr.decode()


def put_tools(bench):
    """Makes the folders `editcap` and `tshark` with these tools, which are our scripts."""
    for name in ("editcap", "tshark"):
        os.makedirs(bench.path(name), exist_ok=True)
        bench.put_script(f"{name}/{name}", FAKE)


def words_of(bench):
    return (bench.get("words") or b"").decode().splitlines()


def runs(bench):
    """The first tool that is there converts a file or a stream to a file or a stream."""
    put_tools(bench)
    bench.put("in", b"capture")
    bench.put("-in", b"capture")
    for tool, name in (("editcap", ["-F", "pcap", "{}", "-"]), ("tshark", ["-n", "-r", "{}", "-F", "pcap", "-w", "-"])):
        # Debian's editcap, if it is there, must not be found first.
        env = {"path": tool} if tool == "editcap" else {"PATH": bench.path(tool) + ":" + only(bench)}
        for words, given, read in [(["in", "out"], b"", "./in"), (["--", "-in", "out"], b"", "./-in"),
                                   (["-", "out"], b"capture", "-"), (["/dev/stdin", "out"], b"capture", "-"),
                                   ([bench.path("in"), "out"], b"", bench.path("in"))]:
            bench.remove("out")
            bench.check(f"{tool}: {words[:-1]}", (convert(bench, *words, given=given, **env), bench.get("out")),
                        ((0, b"", ""), b"capture"))
            bench.check(f"{tool}: {words[:-1]}: its words", words_of(bench), [word.format(read) for word in name])
        for words in (["in"], ["in", "-"], []):
            bench.check(f"{tool}: {words}, to standard output", convert(bench, *words, given=b"capture", **env),
                        (0, b"capture", ""))
    large = bytes(range(256)) * 20_000
    bench.check("a long stream", convert(bench, given=large, path="editcap"), (0, large, ""))
    bench.check("a stream that the tool doesn't read", convert(bench, given=large, path="editcap", GIVEN="deaf"),
                (0, b"", ""))
    bench.check("a warning", convert(bench, "in", path="editcap", GIVEN="warns"),
                (0, b"capture", "to_pcap: tool: it is cut short\n"))


def only(bench):
    """A folder with the programs that the script of a tool needs, and without editcap."""
    folder = bench.path("few")
    if not os.path.isdir(folder):
        os.mkdir(folder)
        for name in ("sh", "cat", "sleep"):
            os.symlink(f"/bin/{name}", os.path.join(folder, name))
    return folder


def refuses(bench):
    """An input or output that can't be used, and a missing tool, are reported by one line. OUT keeps its bytes, and no
    part of a file is left.
    """
    put_tools(bench)
    os.makedirs(bench.path("folder"), exist_ok=True)
    bench.put("in", b"capture")
    bench.put("empty", b"")
    before = sorted([*os.listdir(bench.folder), "out", "words"])
    for name, words, given, env, status, error in [
        ("no tool", ["in", "out"], b"", {"PATH": only(bench)}, 3, NO_TOOL.removeprefix("to_pcap: ").rstrip()),
        ("a missing IN", ["none", "out"], b"", {}, 3, "none: No such file or directory"),
        ("a folder as IN", ["folder", "out"], b"", {}, 3, "folder: Is a directory"),
        ("an empty IN", ["empty", "out"], b"", {}, 1, "empty is empty"),
        ("an empty stream", ["-", "out"], b"", {}, 1, "standard input is empty"),
        ("a folder as OUT", ["in", "folder"], b"", {}, 3, f"{os.path.realpath(bench.path('folder'))}: Is a directory"),
        ("OUT in a missing folder", ["in", "none/out"], b"", {}, 3,
         f"{os.path.realpath(bench.path('none/out'))}: No such file or directory"),
        ("the tool fails", ["in", "out"], b"", {"GIVEN": "fails"}, 1,
         "first\nto_pcap: in can't be converted: tool: no room"),
        ("the tool fails without a word", ["-", "out"], b"capture", {"GIVEN": "silent"}, 1,
         "standard input can't be converted: the tool ended with exit status 2"),
        ("the tool is killed", ["in", "out"], b"", {"GIVEN": "dies"}, 1,
         "in can't be converted: the tool was ended by signal 9"),
    ]:
        bench.put("out", b"old")
        env = env if "PATH" in env else {**env, "path": "editcap"}
        bench.check(name, convert(bench, *words, given=given, **env), (status, b"", f"to_pcap: {error}\n"))
        bench.check(f"{name}: what is left", (bench.get("out"), sorted({*os.listdir(bench.folder), "words", "few"})),
                    (b"old", sorted({*before, "few"})))
    for words in (["in", "out", "more"], ["--fast"]):
        status, out, errors = convert(bench, *words, path="editcap")
        bench.check(f"the words {words}", (status, out, "usage: tools/to_pcap" in errors), (2, b"", True))
    for closed, status in (("<&-", 3), (">&-", 3)):
        ran = subprocess.run(["sh", "-c", f'exec "$@" {closed}', "sh", *TOOL], cwd=bench.folder, input=b"x",
                             env={**os.environ, "PATH": f"{bench.path('editcap')}:{os.environ['PATH']}"},
                             stderr=subprocess.PIPE, stdout=None if ">" in closed else subprocess.PIPE, check=False)
        bench.check(f"a standard stream is closed: {closed}", (ran.returncode, ran.stderr),
                    (status, b"to_pcap: a standard stream: Bad file descriptor\n"))


def terminals(bench):
    """The bytes of a capture aren't read from a terminal, or written to it."""
    put_tools(bench)
    ours, theirs = os.openpty()
    for name, words, streams in [("input", ["-", "out"], {"stdin": theirs}), ("output", ["in"], {"stdout": theirs})]:
        ran = subprocess.run([*TOOL, *words], cwd=bench.folder, stderr=subprocess.PIPE, check=False,
                             env={**os.environ, "PATH": f"{bench.path('editcap')}:/usr/bin:/bin"}, timeout=60,
                             **{"stdin": subprocess.DEVNULL, **streams})
        bench.check(f"a terminal as {name}", (ran.returncode, f"standard {name} is a terminal".encode() in ran.stderr),
                    (2, True))
    os.close(ours)
    os.close(theirs)


def replaces(bench):
    """OUT may be IN, a link, a device or a pipe. An existing OUT keeps its permissions; a new one gets the usual ones.
    """
    put_tools(bench)
    for name, out in [("itself", "in"), ("a second name", "second"), ("a link", "link"), ("a dangling link", "away")]:
        for left in ("in", "second", "link", "away", "target"):
            if os.path.lexists(bench.path(left)):
                os.remove(bench.path(left))
        bench.put("in", b"capture")
        os.chmod(bench.path("in"), 0o640)
        os.link(bench.path("in"), bench.path("second"))
        os.symlink("in", bench.path("link"))
        os.symlink("target", bench.path("away"))
        bench.check(f"OUT is {name}", (convert(bench, "in", out, path="editcap"), bench.get(out)),
                    ((0, b"", ""), b"capture"))
        mode = stat.S_IMODE(os.stat(bench.path(out)).st_mode)
        bench.check(f"OUT is {name}: its permissions", (oct(mode), os.path.islink(bench.path(out))),
                    (oct(0o640 if out != "away" else 0o666 & ~umask()), out in ("link", "away")))
    bench.check("a device as OUT", convert(bench, "in", "/dev/null", path="editcap"), (0, b"", ""))
    os.mkfifo(bench.path("fifo"))
    with subprocess.Popen(["timeout", "60", "cat", bench.path("fifo")], stdout=subprocess.PIPE) as reader:
        ended = convert(bench, "in", "fifo", path="editcap")
        bench.check("a pipe with a name as OUT", (ended, reader.stdout.read()), ((0, b"", ""), b"capture"))
    os.remove(bench.path("fifo"))


def umask():
    mask = os.umask(0)
    os.umask(mask)
    return mask


def wait_for(bench, name):
    """Waits until a file has a line, for at most a minute."""
    for _ in range(6000):
        if (bench.get(name) or b"").endswith(b"\n"):
            return
        time.sleep(0.01)


def ends(bench):
    """After a signal the tool has ended, and OUT keeps its bytes. A reader that goes away ends the script as usual."""
    put_tools(bench)
    bench.put("in", b"capture")
    for number in (signal.SIGINT, signal.SIGTERM, signal.SIGHUP):
        bench.put("out", b"old")
        bench.remove("pid")
        names = sorted({*os.listdir(bench.folder), "pid"})
        with subprocess.Popen([*TOOL, "in", "out"], cwd=bench.folder, stderr=subprocess.PIPE,
                              env={**os.environ, "PATH": f"{bench.path('editcap')}:/usr/bin:/bin", "GIVEN": "hangs"}
                              ) as script:
            wait_for(bench, "pid")
            script.send_signal(number)
            status, errors = script.wait(60), script.stderr.read()
        bench.check(f"signal {number}", (status, errors, bench.get("out"), sorted(os.listdir(bench.folder))),
                    (128 + number, b"", b"old", names))
        bench.check(f"signal {number}: the tool", os.path.exists(f"/proc/{int(bench.get('pid'))}"), False)
    large = bench.put("large", bytes(10_000_000))
    got = bench.shell(f"export PATH={bench.path('editcap')}:$PATH; {{ {' '.join(TOOL)} {large}; echo $? >status; }} | "
                      "head -c 1 | wc -c")
    wait_for(bench, "status")
    bench.check("a reader that goes away", (got[1].strip(), got[2], bench.get("status")), (b"1", b"", b"141\n"))


def captures(bench):
    """Wireshark's tools convert pcapng files, also compressed or cut, and refuse what isn't a capture of one link type.
    """
    tools = [name for name in ("editcap", "tshark") if bench.is_there(
        name, f"captures by {name} (on Debian: apt-get install wireshark-common tshark)")]
    bench.put("in.pcapng", pcapng(*FRAMES))
    bench.put("in.gz", gzip.compress(pcapng(*FRAMES)))
    bench.put("in.pcap", trace(*map(packet, FRAMES)))
    bench.put("cut.pcapng", pcapng(*FRAMES)[:-30])
    bench.put("mixed.pcapng", pcapng(*FRAMES, links=(1, 113)))
    bench.put("text", b"no capture\n")
    bench.put("none.pcapng", pcapng())
    listed = bench.run("show", "in.pcap").stdout
    for tool in tools:
        env = {"path": f"only-{tool}"}
        os.makedirs(bench.path(env["path"]), exist_ok=True)
        where = next(path for path in (os.path.join(folder, tool) for folder in os.get_exec_path())
                     if os.access(path, os.X_OK))
        os.symlink(where, bench.path(f"{env['path']}/{tool}"))
        env = {"PATH": bench.path(env["path"])}
        for name in ("in.pcapng", "in.gz", "in.pcap"):
            bench.remove("out.pcap")
            bench.check(f"{tool}: {name}", convert(bench, name, "out.pcap", **env), (0, b"", ""))
            bench.check(f"{tool}: {name}: its frames", bench.run("show", "out.pcap").stdout, listed)
            data = bench.get(name)
            status, out, errors = convert(bench, given=data, **env)
            bench.check(f"{tool}: {name} by a pipe", (status, out == bench.get("out.pcap"), errors), (0, True, ""))
        bench.check(f"{tool}: no packets", convert(bench, "none.pcapng", **env)[1][20:], FILE_HEADER[20:])
        for name in ("mixed.pcapng", "text"):
            bench.put("out.pcap", b"old")
            status, out, errors = convert(bench, name, "out.pcap", **env)
            begin = f"to_pcap: {name} can't be converted: {tool}: "
            bench.check(f"{tool}: {name}", (status, out, errors.startswith(begin), errors.count("\n"),
                                            bench.get("out.pcap")), (1, b"", True, 1, b"old"))
    if "editcap" in tools:
        status, out, errors = convert(bench, "cut.pcapng")
        bench.check("a capture that is cut", (status, "cut short" in errors, bench.run("show", "-", given=out).stdout),
                    (0, True, listed.replace(b"frames 3", b"frames 2").replace(listed.splitlines(True)[2], b"")))


def all_cases(bench):
    """Runs all parts in a folder of their own."""
    top = bench.folder
    bench.folder = bench.path("captures")
    os.mkdir(bench.folder)
    try:
        for part in (runs, refuses, terminals, replaces, ends, captures):
            part(bench)
    finally:
        bench.folder = top
