"""Runs the program under limits of the size of a file, of the stack, and of all memory."""

import os
import resource
import subprocess
from typing import Optional

import scenarios
from codes import failure
from harness import Program
from pcap_files import packet, trace, written

FAILED = (3, failure("E67 Write"))
# `ulimit -f` counts blocks of 512 bytes in a POSIX shell.
BLOCKS, LIMIT = 8, 4096
FRAMES = [bytes([number]) * 1000 for number in range(120)]
# The smallest limit of the stack with which the program runs, in KiB, and its text below that.
LEAST_STACK = 384
NO_STACK = b"nicbench: E57 Memory\nnicbench: the limit of the stack is below 384 KiB (ulimit -s)\n"
NO_ROOM = (b"nicbench: E57 Memory\n"
           b"nicbench: the limit of memory is too small for 320 KiB of stack (ulimit -v)\n")
# Requests that use each large value of the server.
REQUESTS = (b"interleave 100\nevents on\nlog targets\nsave\nreadl 0xFEB00008\nstep txtake\noffer 00\nsettle\nrestore\n"
            b"digest\nenabled\nrings\ntarget 0 4\nmemset 0 65536 3\nread 0 65536\nb64read 0 65536\nclock_step\n")


def files(bench: Program) -> None:
    """A file that reaches the limit of its size is a failed write, not the end of the process by a signal."""
    bench.put("whole.pcap", trace(*map(packet, FRAMES)))
    passed = written(list(enumerate(FRAMES)))
    addresses = [b":".join([b"%02x" % n] * 6) for n in range(120)]
    line = b"".join(b"%d 1000 %s %s %02x%02x\n" % (n, address, address, n, n) for n, address in enumerate(addresses))
    line += b"frames 120 skipped 0 cut no\n"
    bench.put("s.scenario", scenarios.TO_SOCKET + b"feed a whole.pcap\n")
    shell = f"ulimit -f {BLOCKS}; exec {bench.program} "
    for name, command, path, whole in [
        ("pass to standard output", "pass whole.pcap - >out", "out", passed),
        ("show to standard output", "show whole.pcap >out", "out", line),
        ("--events to standard output", "run --events - s.scenario outdir2 >out", "out", None),
        ("serve", "serve <requests >out", "out", None),
    ]:
        scenarios.folder(bench, "outdir2")
        bench.put("requests", b"read 0 4096\n" * 3)
        ended = bench.shell(shell + command)
        bench.check(f"a limit of files: {name}", (ended[0], ended[2]), FAILED)
        got = bench.get(path)
        bench.check(f"a limit of files: {name}: what is written", (len(got), whole is None or whole.startswith(got)),
                    (LIMIT, True))
        bench.put("out", b"x" * (LIMIT - 1))
        ended = bench.shell((shell + command).replace(">out", ">>out"))
        bench.check(f"a limit of files: {name}, appended", (ended[0], ended[2], len(bench.get(path))), (*FAILED, LIMIT))
    ended = bench.shell(f"printf {'x' * 5000} >out; {shell} show whole.pcap 1<>out")
    bench.check("a limit of files: a file that is longer, from its beginning",
                (ended[0], ended[2], len(bench.get("out")), bench.get("out")[:LIMIT]), (*FAILED, 5000, line[:LIMIT]))
    bench.check("a limit of files: standard output is a pipe", bench.shell(f"{shell} show whole.pcap"), (0, line, b""))
    to_folder(bench, shell)


def to_folder(bench: Program, shell: str) -> None:
    """If a file in OUTDIR reaches the limit, the files before it are complete, and those after it are unchanged."""
    text = (scenarios.TWO_HOSTS + b"socket a all\nsocket b 0800\nsocket b all\n"
            + b"send b 0200000000010200000000020800\ntick txtake:b\ntick txput:b\ntick deliver:a\ntick rxdata:a\n"
            + b"tick rxdone:a\ninterrupt a\nrecv a 0\nfeed a fed.pcap\n")
    bench.put("fed.pcap", trace(*[packet(scenarios.EXAMPLE_FRAME.ljust(1000, b"x"))] * 9))
    bench.put("two.scenario", text)
    path = scenarios.folder(bench)
    whole = bench.run("run", "--wires", "--events", "events.txt", "two.scenario", "outdir")
    made = scenarios.held(path)
    bench.check("a limit of files: run, without a limit", (whole.returncode, sorted(made)),
                (0, ["a.0.pcap", "b.0.pcap", "b.1.pcap", "w.pcap"]))
    path = scenarios.folder(bench)
    for file in made:
        bench.put(f"outdir/{file}", b"old")
    status, out, errors = bench.shell(f"{shell} run --wires two.scenario outdir")
    bench.check("a limit of files: run", (status, errors, out), (*FAILED, b""))
    bench.check("a limit of files: run: the files", scenarios.held(path),
                {"a.0.pcap": made["a.0.pcap"], "b.0.pcap": made["b.0.pcap"][:LIMIT], "b.1.pcap": b"old",
                 "w.pcap": b"old"})
    bench.put("short.scenario", scenarios.TO_SOCKET + b"auto 200 1\n")
    scenarios.folder(bench)
    status, out, errors = bench.shell(f"{shell} run --events events.txt short.scenario outdir")
    bench.check("a limit of files: --events", (status, errors, out, len(bench.get("events.txt"))),
                (*FAILED, b"", LIMIT))
    bench.put("requests", b"interleave 9\n" + b"writel 0xFEB00014 1\nreadl 0xFEB00014\n" * 300)
    status, _, errors = bench.shell(f"{shell} serve --seed 1 --record schedule <requests | cat")
    bench.check("a limit of files: serve into a pipe", (errors, len(bench.get("schedule"))), (FAILED[1], LIMIT))


def limited(bench: Program, words: list[str], given: bytes, stack: int,
            environment: dict[str, str]) -> tuple[int, bytes, bytes]:
    """Runs the program with this limit of the stack, in KiB. Returns the status and both outputs."""
    scenarios.folder(bench)
    ran = subprocess.run([bench.program, *words], cwd=bench.folder, input=given, capture_output=True, timeout=60,
                         env=environment,
                         preexec_fn=lambda: resource.setrlimit(resource.RLIMIT_STACK, (stack * 1024, stack * 1024)))
    return ran.returncode, ran.stdout, ran.stderr


def commands(bench: Program) -> list[tuple[list[str], bytes]]:
    """Commands of each kind, with their standard input."""
    hosts = "".join(f"host h{n} 02:00:00:00:01:{n:02x} w{n // 8} rx 4096 tx 4096 buffers 8192\nsocket h{n} all\n"
                    for n in range(16))
    bench.put("large.scenario", (hosts + "feed h0 whole.pcap\nauto 500 7\nreset h1\ndrain h9\n").encode())
    return [
        (["run", "--wires", "--events", "events.txt", "large.scenario", "outdir"], b""),
        (["pass", "--address", "00:00:00:00:00:00", "--group", "01:01:01:01:01:01", "--vlan", "5", "whole.pcap", "out"],
         b""),
        (["pass", "-", "-"], bench.get("whole.pcap")), (["show", "whole.pcap"], b""),
        (["serve", "--seed", "3", "--record", "schedule"], REQUESTS), (["--help"], b""), (["run", "--help"], b""),
        (["drive", "--send", "whole.pcap", "--receive", "out"], b""), (["run", "whole.pcap", "outdir"], b""),
        (["pass", "none", "out"], b""), (["fly"], b""),
    ]


def stacks(bench: Program) -> None:
    """A command needs no more than the smallest limit of the stack, even with the largest environment for that limit.
    With a smaller limit, the command is refused.
    """
    plain = {"PATH": os.defpath}
    full = {**plain, **{f"X{number}": "x" * 8000 for number in range(15)}}
    for words, given in commands(bench):
        whole = limited(bench, words, given, 8192, plain)
        for environment in (plain, full):
            bench.check(f"a stack of {LEAST_STACK} KiB, {len(environment)} variables: {words}",
                        limited(bench, words, given, LEAST_STACK, environment), whole)
        for stack in (32, 64, 128, LEAST_STACK - 4):
            bench.check(f"a stack of {stack} KiB: {words}", limited(bench, words, given, stack, plain),
                        (4, b"", NO_STACK))


def memory_end(bench: Program, words: list[str], given: bytes, most: int) -> tuple[int, Optional[bytes]]:
    """Runs the program with this limit of all memory, in KiB. Returns the status, and the text on standard error."""
    ran = subprocess.run(["/bin/sh", "-c", 'ulimit -v "$1"; shift; exec "$@"', "sh", str(most), bench.program, *words],
                         cwd=bench.folder, input=given, capture_output=True, timeout=60)
    return ran.returncode, ran.stderr


def memories(bench: Program) -> None:
    """Whatever the limit of all memory is, no signal ends the program. The smallest one with which the system loads it
    is found first.
    """
    told = {NO_ROOM, failure("E57 Memory"), failure("E65 Memory"),
            *map(scenarios.refusal, ["E45 Memory", "E47 Memory", "E57 Memory", "E65 Memory"])}
    bench.put("tiny.scenario", scenarios.EXAMPLE)
    for words, given in [(["show", "whole.pcap"], b""), (["serve"], REQUESTS), (["pass", "whole.pcap", "out"], b""),
                         (["run", "tiny.scenario", "outdir"], b""), (["--help"], b"")]:
        scenarios.folder(bench)
        whole = memory_end(bench, words, given, 1_000_000)
        # 127: the system can't load the program, or its libraries
        first = next(most for most in range(1024, 100_000, 64) if memory_end(bench, words, given, most)[1] in
                     (NO_ROOM, failure("E57 Memory")))
        ends = [memory_end(bench, words, given, most) for most in range(first, first + 1024, 4)]
        bench.check(f"a limit of memory: {words}", [end for end in ends if end != whole and not (
            end[0] == 4 and end[1] in told)], [])
        bench.check(f"a limit of memory: {words}: the stack", (4, NO_ROOM) in ends, True)


def all_cases(bench: Program) -> None:
    files(bench)
    stacks(bench)
    memories(bench)
    bench.remove("out")  # later parts make a folder of this name
