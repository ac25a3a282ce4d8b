"""Makes allocations of the built program fail."""

import os

import refusing
import scenarios
from pcap_files import packet, trace, written


def all_cases(bench):
    """Makes each allocation of runs of `pass`, `show` and `run` fail in turn, until no allocation fails in a run."""
    library = refusing.build(bench.folder)
    bench.check("memory: a C compiler is here", library is not None, True)
    if library is None:
        return
    allocators = refusing.allocators_of(bench.program)
    bench.check("memory: the program names the functions that are refused, and no others", allocators, refusing.REFUSED)
    frames = [(number, bytes([number % 256]) * 1000) for number in range(2000)]
    bench.put("in.pcap", trace(*(packet(frame) for _, frame in frames)))
    line = b"read 2000 skipped 0 illegal 0 filtered 0 written 2000 cut no\n"
    memory_of(bench, ["pass", "in.pcap", "out.pcap"], line, written(frames))
    lines = b"".join(b"%d 1000 %s %s %s\n" % (number, address, address, digits * 2) for number, digits, address in
                     ((number, b"%02x" % (number % 256), b":".join([b"%02x" % (number % 256)] * 6))
                      for number in range(2000)))
    memory_of(bench, ["show", "in.pcap"], lines + b"frames 2000 skipped 0 cut no\n", None)
    memory_of(bench, ["pass", "-", "out.pcap"], line, written(frames), bench.get("in.pcap"))
    for words_of in [["pass", "in.pcap", "out.pcap", "--vlan", "x"], ["pass", "--help"], ["--version"],
                     ["pass", "in.pcap", "out.pcap", "--vlan"]]:
        memory_of_words(bench, words_of)
    memory_of_run(bench, [], [])
    memory_of_run(bench, ["--wires"], ["w.pcap"])
    memory_of_run(bench, ["--events", os.devnull], [])
    for words_of in [["show", "in.pcap"], ["pass", "in.pcap", "out.pcap"], ["run", "--wires", "s.scenario", "outdir"]]:
        no_memory_for_output(bench, words_of)


def no_memory_for_output(bench, line):
    """A command requests no memory after its first write: its output is the same if each allocation after this write
    fails.
    """
    made = []
    for env in [{}, {"LD_PRELOAD": bench.path("refuse.so"), "REFUSE_AFTER_WRITE": "1",
                     "REFUSED": bench.path("refused")}]:
        bench.remove("out.pcap")
        bench.remove("refused")
        path = scenarios.folder(bench)
        ran = bench.run(*line, env=env)
        made.append((ran.returncode, ran.stdout, ran.stderr, bench.get("out.pcap"), scenarios.held(path),
                     bench.get("refused")))
    bench.check(f"memory: {line[0]}: no allocation after the first write", made[1], made[0])
    bench.check(f"memory: {line[0]}: the run without refusals", made[0][0], 0)


def memory_of_words(bench, line):
    """Makes each allocation of a help, a version or invalid arguments fail in turn: the answer is the same, or it is
    E57.
    """
    whole = bench.run(*line)
    for number in range(1, 10000):
        bench.remove("refused")
        env = {"LD_PRELOAD": bench.path("refuse.so"), "REFUSE": str(number), "REFUSED": bench.path("refused")}
        ran = bench.run(*line, env=env)
        got = (ran.returncode, ran.stdout, ran.stderr)
        bench.check(f"memory: {line}: allocation {number}",
                    got in [(4, b"", b"nicbench: E57 Memory\n"), (whole.returncode, whole.stdout, whole.stderr)], True)
        if bench.get("refused") is None:
            break
    bench.check(f"memory: {line}: a run meets no refusal", bench.get("refused"), None)


def memory_of_run(bench, options, wire_files):
    """Makes each allocation of a `run` fail in turn. Some failures change nothing, because a library then requests less
    memory. After the others, files that existed are unchanged, and new ones are empty.
    """
    name = " ".join(["memory: run", *options])
    bench.put("fed.pcap", trace(packet(scenarios.EXAMPLE_FRAME)))
    setup = b"group b 01:00:5e:00:00:01\nvlan b 5\nsocket b 0806\nsocket b all\n"
    text = scenarios.EXAMPLE.replace(b"02 w\n", b"02 w rx 16 tx 24 buffers 32 rxa 8 link 2 promiscuous\n")
    text = text.replace(b"socket b all\n", setup)
    calls = (b"send a 0200000000020200000000010800 / go txtake:a go go txput:a\nrecv b 0 / eeprom:a phy:a\n"
             b"interrupt b / go rxdata:b rxdone:b\n")
    calls += (b"join b 01:00:5e:00:00:02 / txput:a go deliver:b\nleave b 01:00:5e:00:00:01 / txput:a\n"
              b"reset b / deliver:b go rxdone:b\nreset a\n")
    bench.put("s.scenario", text + calls + b"feed a fed.pcap\nauto 20 1\ndrain b\n")
    path = scenarios.folder(bench)
    whole = bench.run("run", *options, "s.scenario", "outdir")
    whole = (whole.returncode, whole.stdout, whole.stderr, scenarios.held(path))
    codes, made = set(), set()
    for number in range(1, 10000):
        scenarios.folder(bench)
        bench.put("outdir/b.1.pcap", b"old")
        bench.remove("refused")
        env = {"LD_PRELOAD": bench.path("refuse.so"), "REFUSE": str(number), "REFUSED": bench.path("refused")}
        ran = bench.run("run", *options, "s.scenario", "outdir", env=env)
        got = (ran.returncode, ran.stdout, ran.stderr, scenarios.held(path))
        if got == whole:
            if bench.get("refused") is None:
                break
            continue
        codes.add(ran.stderr)
        made.update(got[3].items())
        bench.check(f"{name}: allocation {number} is refused", got[:2], (4, b""))
    bench.check(f"{name}: a run meets no refusal", bench.get("refused"), None)
    bench.check(f"{name}: all refusals came", codes,
                {b"nicbench: E57 Memory\n",
                 *map(scenarios.refusal, ["E45 Memory", "E47 Memory", "E57 Memory", "E65 Memory"])})
    bench.check(f"{name}: files of refused runs", made,
                {("b.0.pcap", b""), ("b.1.pcap", b"old"), *((file, b"") for file in wire_files)})


def memory_of(bench, line, out, file, given=b""):
    """Makes each allocation of a command fail in turn: the command is refused, or succeeds with this output and this
    file. In the last run, no allocation fails, and the command succeeds.
    """
    name = f"memory: {line[0]} {line[1]}"
    codes = set()
    for number in range(1, 1000):
        bench.remove("out.pcap")
        bench.remove("refused")
        env = {"LD_PRELOAD": bench.path("refuse.so"), "REFUSE": str(number), "REFUSED": bench.path("refused")}
        ran = bench.run(*line, env=env, given=given)
        if ran.returncode == 0:
            bench.check(f"{name}: allocation {number}: the output", (ran.stdout, ran.stderr, bench.get("out.pcap")),
                        (out, b"", file))
            if bench.get("refused") is None:
                break
            continue
        codes.add(ran.stderr)
        told = ran.stderr in (b"nicbench: E57 Memory\n", b"nicbench: E65 Memory\n")
        bench.check(f"{name}: allocation {number} is refused", (ran.returncode, ran.stdout, told), (4, b"", True))
    else:
        bench.check(f"{name}: a run meets no refusal", False, True)
    bench.check(f"{name}: both refusals came", codes, {b"nicbench: E57 Memory\n", b"nicbench: E65 Memory\n"})
