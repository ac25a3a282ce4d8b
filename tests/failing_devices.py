"""Runs the program with files and standard streams that fail, transfer one byte at a time, or end earlier than when
they were opened.
"""

import os
import signal

from codes import TABLE, failure
from pcap_files import FILE_HEADER, packet, trace, written
from failing import FAILING, OTHERS, Failing, functions_of
from scenario_reader import TraceRead
from scenarios import EXAMPLE_FRAME, OF_D, TRAFFIC, TWO_WIRES, UNCHANGED

READ, WRITE, OPEN = "E66 Read", "E67 Write", "E68 Open: "
# What an output file contains if it exists before a run.
OLD = b"old" * 1000
# A run makes fewer calls of each function than this.
MOST_CALLS = 10_000
# The files that `run` writes in OUTDIR, in order: those of sockets, and with --wires those of wires.
SOCKET_FILES = ["outdir/b.0.pcap", "outdir/b.1.pcap", "outdir/d.0.pcap"]
WIRE_FILES = ["outdir/w.pcap", "outdir/v.pcap"]
SCENARIO = TWO_WIRES.replace(b"socket d",
                             b"socket b 88b5\nsocket d") + TRAFFIC + b"feed a %s\nauto 60 9\ndrain b\ndrain d\n"
SHORT = [{"SHORT_READ": "1"}, {"SHORT_WRITE": "1"}, {"SHORT_READ": "1", "SHORT_WRITE": "1"}]
# What happens if a read is interrupted. FAILS: the command ends, as it does for a trace file. GOES_ON: the command
# reads again. SOME: the command reads the first input again, and ends at the last one.
FAILS, GOES_ON, SOME = range(3)


class Job:
    """A command, the files that it reads and those that it writes, in order, and the bytes of its standard input.
    Before each run, all files that it writes have the contents `old`, one of `olds`. If `old` is None, there are no
    such files.
    """

    def __init__(self, name, words, inputs, outputs=(), given=b"", interrupted=FAILS, olds=(None, OLD)):
        self.name, self.words, self.inputs, self.outputs = name, words, inputs, list(outputs)
        self.given, self.interrupted = given, interrupted
        self.folders, self.olds = 1 if words[0] == "run" else 0, olds
        # `pass` writes a part next to its output, and renames the part to the output at the end.
        self.part = f"{self.outputs[0]}.part0" if words[0] == "pass" else None
        # the answer of a run without a failure, and the number of bytes that it reads
        self.whole, self.read_bytes = None, 0

    def with_files(self, old):
        """A name for runs with these contents of the output files."""
        return f"{self.name}, {'new' if old is None else 'existing'} files"

    def refusal(self, fault):
        """What the command prints on standard error for a fault. Unless a write failed, `run` adds that existing files
        are unchanged.
        """
        return failure(fault) + (UNCHANGED if self.folders and fault != WRITE else b"")

    def without_name(self, errors):
        """These bytes of standard error, without a second line that names one of the inputs or `-`."""
        fault = errors.partition(b"\n")[0].decode(errors="replace").removeprefix("nicbench: ")
        for path in [*self.inputs, "-"] if fault in TABLE else ():
            if errors.startswith(failure(fault, path)):
                return failure(fault) + errors[len(failure(fault, path)):]
        return errors

    def play(self, failing, old, **environment):
        """Runs the command. Returns its answer (the status, both outputs, and the contents of its files), and whether a
        call failed.
        """
        for file in self.outputs:
            failing.bench.remove(file)
            if old is not None:
                failing.bench.put(file, old)
        status, out, errors, is_failed = failing.run(self.words, self.given, **environment)
        return (status, out, self.without_name(errors), [failing.bench.get(file) for file in self.outputs]), is_failed

    def cut(self, old, count):
        """The answer if a write fails after this number of bytes. The file in progress has lost its old contents. Later
        files have their old contents, or are empty if they are new. With a part, an unfinished output is as before.
        """
        texts, files = self.whole[3], []
        for text in texts:
            if self.part and count < len(text):
                return 3, b"", self.refusal(WRITE), [old]
            files.append(text[:count] if count >= 0 else old or b"")
            count -= len(text)
        return 3, self.whole[1][:max(count, 0)], self.refusal(WRITE), files

    def size(self):
        """The number of bytes that a run writes to its files and to standard output."""
        return sum(map(len, self.whole[3])) + len(self.whole[1])

    def in_turn(self, failing, function, old, **environment):
        """Makes each call of a function fail in turn. Yields the number of the failing call, from 1, and the run's
        answer. Ends with the first run in which no call fails, and checks that its answer is that of a run without a
        failure.
        """
        for number in range(1, MOST_CALLS):
            got, is_failed = self.play(failing, old, FAIL=function, FAIL_AT=str(number), **environment)
            if not is_failed:
                failing.bench.check(f"{self.with_files(old)}: no {function} fails", got, self.whole)
                return
            yield number, got
        failing.bench.check(f"{self.with_files(old)}: a run without a failing {function}", False, True)


def long_trace(lengths):
    """A trace of different frames with these lengths."""
    return trace(*(packet(bytes((n * 7 + k * k) % 251 for k in range(length))) for n, length in enumerate(lengths)))


def jobs(bench):
    """Writes the input files. Returns two lists of jobs: those with short inputs, and those with long traces."""
    small = trace(packet(EXAMPLE_FRAME), packet(OF_D), packet(bytes(13)), packet(EXAMPLE_FRAME, 100),
                  packet(EXAMPLE_FRAME + bytes(range(200)))) + b"x"
    big, wide = long_trace([1518, 1517] * 250), long_trace([60_000] * 12)
    # The driver accepts each of these frames: `run` would warn of a refused send.
    fed = trace(packet(EXAMPLE_FRAME), packet(OF_D), packet(EXAMPLE_FRAME, 100),
                packet(EXAMPLE_FRAME + bytes(range(200)))) + b"x"
    scenario, from_input = SCENARIO % b"fed.pcap", SCENARIO % b"-"
    for name, data in [("small.pcap", small), ("fed.pcap", fed), ("same.pcap", small), ("big.pcap", big),
                       ("wide.pcap", wide), ("s.scenario", scenario),
                       ("in.scenario", from_input)]:
        bench.put(name, data)
    os.makedirs(bench.path("outdir"), exist_ok=True)
    out, run = ["out.pcap"], ["s.scenario", "fed.pcap"]
    return [
        Job("pass", ["pass", "small.pcap", "out.pcap"], ["small.pcap"], out),
        Job("pass, OUT is IN", ["pass", "same.pcap", "same.pcap"], ["same.pcap"], ["same.pcap"], olds=(small,)),
        Job("pass -", ["pass", "-", "out.pcap"], [], out, small, GOES_ON),
        Job("show", ["show", "small.pcap"], ["small.pcap"]),
        Job("show -", ["show", "-"], [], [], small, GOES_ON),
        Job("run", ["run", "s.scenario", "outdir"], run, SOCKET_FILES, b"", SOME),
        Job("run --wires", ["run", "--wires", "s.scenario", "outdir"], run, SOCKET_FILES + WIRE_FILES, b"", SOME),
        Job("run -", ["run", "--wires", "-", "outdir"], run[1:], SOCKET_FILES + WIRE_FILES, scenario, SOME),
        Job("run, a trace from -", ["run", "in.scenario", "outdir"], ["in.scenario"], SOCKET_FILES, fed, GOES_ON),
    ], [
        Job("pass, a long trace", ["pass", "big.pcap", "out.pcap"], ["big.pcap"], out),
        Job("pass -, a long trace", ["pass", "-", "out.pcap"], [], out, big, GOES_ON),
        Job("show, a long trace", ["show", "wide.pcap"], ["wide.pcap"]),
    ]


def plays(failing, job):
    """Runs the command without a failure: it succeeds, and each file begins as a pcap file. For `pass`, the line and
    all frames are checked. Other tests check the contents of the files of `run`.
    """
    read = job.given + b"".join(failing.bench.get(name) for name in job.inputs)
    job.read_bytes = len(read)
    job.whole, _ = job.play(failing, job.olds[0])
    status, out, err, files = job.whole
    failing.bench.check(f"{job.name}: without a failure", (status, err), (0, b""))
    failing.bench.check(f"{job.name}: its files", [file and file[:len(FILE_HEADER)] for file in files],
                        [FILE_HEADER] * len(files))
    if job.words[0] == "pass":
        line, frames = TraceRead(read).passed()
        failing.bench.check(f"{job.name}: what is written", (out, files), (line, [written(frames)]))


def reads(failing, job):
    """Each read fails in turn: the command writes no byte to its outputs, and ends. Then each read is interrupted in
    turn: the command also writes nothing and ends, or reads again, as the job states.
    """
    for old in job.olds:
        number = 0
        for number, got in job.in_turn(failing, "read", old):
            failing.bench.check(f"{job.with_files(old)}: read {number} fails", got,
                                (3, b"", job.refusal(READ), [old] * len(job.outputs)))
        failing.bench.check(f"{job.with_files(old)}: reads failed", number > len(job.inputs), True)
    old = job.olds[0]
    results = [got == job.whole for _, got in job.in_turn(failing, "read", old, FAIL_INTERRUPTED="1")
               if got in (job.whole, (3, b"", job.refusal(READ), [old] * len(job.outputs)))]
    wanted = {FAILS: [False], GOES_ON: [True], SOME: [True, False]}[job.interrupted]
    failing.bench.check(f"{job.name}: a read is interrupted",
                        [good for n, good in enumerate(results) if n == 0 or good != results[n - 1]], wanted)
    failing.bench.check(f"{job.name}: each interrupted read", len(results), number)


def failed(answers):
    """The answers of runs that end because a file failed, each with what it prints on standard error and its files."""
    return [(3, b"", *answer) for answer in answers]


def opens(failing, job):
    """For a command that writes no part, each call of open, statx and ftruncate fails in turn. The fault, and what each
    output contains then, are as computed here.
    """
    count, texts = len(job.outputs), job.whole[3]
    for old in job.olds if not job.part else ():
        untouched = [old or b""] * count
        wanted = [(job.refusal(OPEN + path), [old] * count) for path in job.inputs]
        refused = [(job.refusal(OPEN + "outdir"), [old] * count)]
        created = [(job.refusal(OPEN + path), untouched[:place] + [old] * (count - place))
                   for place, path in enumerate(job.outputs)]
        begun = [(job.refusal(WRITE), texts[:place] + untouched[place:]) for place in range(count)]
        # SCENARIO, the trace that is fed and the files in OUTDIR are compared. One that can't be found equals no other.
        compared = [job.whole] * (2 + count) * job.folders
        for function, answers in [("open", failed(wanted + created)), ("ftruncate", failed(begun)),
                                  ("statx", failed(wanted + refused * job.folders) + compared + failed(begun))]:
            got = [got for _, got in job.in_turn(failing, function, old)]
            failing.bench.check(f"{job.with_files(old)}: each {function} fails", got, answers)


def parts(failing, job):
    """For a command that writes a part, each call of open, statx, ftruncate, rename and write fails in turn. If no part
    can be made, the output is written in place. If only the line on standard output can't be written, the output is
    complete. After each other failure that ends the command, the output is as it was.
    """
    for old in job.olds if job.part else ():
        given, kept = ([(3, b"", job.refusal(OPEN + path), [old]) for path in paths]
                       for paths in (job.inputs, job.outputs))
        lost = [(3, b"", job.refusal(WRITE), [old])]
        there = int(old is not None)
        for function, answers in [("open", given + kept * there + [job.whole]),
                                  ("statx", given + [job.whole] * (1 + there) + lost),
                                  ("ftruncate", lost), ("rename", lost)]:
            got = [got for _, got in job.in_turn(failing, function, old)]
            failing.bench.check(f"{job.with_files(old)}: each {function} fails", got, answers)
        for environment in ({}, {"FAIL_ON": "1"}, {"FAIL_INTERRUPTED": "1"}):
            got = [got for _, got in job.in_turn(failing, "write", old, **environment)]
            begun = [answer for answer in got if answer != lost[0]]
            failing.bench.check(f"{job.with_files(old)}: each write fails, {environment}", got,
                                lost * (len(got) - len(begun)) + begun)
            failing.bench.check(f"{job.with_files(old)}: each write of the line fails", begun,
                                [(3, b"", job.refusal(WRITE), job.whole[3])])
            failing.bench.check(f"{job.with_files(old)}: writes failed", len(got) > 1, True)
        failing.bench.check(f"{job.with_files(old)}: no part is left", failing.bench.get(job.part), None)
        kills(failing, job, old)


def kills(failing, job, old):
    """A command that writes a part is killed at each write in turn, and at the rename. Before the rename, the output is
    as it was, and the part contains a beginning of the new bytes.
    """
    text, lengths = job.whole[3][0], []
    for function in ("write", "rename"):
        for number, got in job.in_turn(failing, function, old, FAIL_KILLS="1"):
            part = failing.bench.get(job.part)
            failing.bench.remove(job.part)
            if part is None:
                failing.bench.check(f"{job.with_files(old)}: a kill at the line", got,
                                    (-signal.SIGKILL, b"", b"", job.whole[3]))
                continue
            failing.bench.check(f"{job.with_files(old)}: a kill at {function} {number}", (got, text.startswith(part)),
                                ((-signal.SIGKILL, b"", b"", [old]), True))
            lengths.append(len(part))
    failing.bench.check(f"{job.with_files(old)}: kills", (lengths[0], lengths[-1], lengths),
                        (0, len(text), sorted(lengths)))


def writes(failing, job):
    """For a command that writes no part, each write fails in turn. The bytes of the writes before the failing one are
    written, and no others.
    """
    for environment in ({}, {"FAIL_ON": "1"}, {"FAIL_INTERRUPTED": "1"}):
        for old in job.olds if not job.part else ():
            counts = [-1]
            for number, got in job.in_turn(failing, "write", old, **environment):
                texts, files = job.whole[3], got[3]
                done = next((place for place, pair in enumerate(zip(texts, files)) if pair[0] != pair[1]), len(texts))
                count = sum(map(len, texts[:done])) + len(got[1] if done == len(texts) else files[done] or b"")
                failing.bench.check(f"{job.with_files(old)}: write {number} fails, {environment}", got,
                                    job.cut(old, count))
                failing.bench.check(f"{job.with_files(old)}: write {number} fails: more bytes than before",
                                    counts[-1] < count < job.size(), True)
                counts.append(count)
            failing.bench.check(f"{job.with_files(old)}: writes failed",
                                (len(counts) > 1 + len(job.outputs), counts[1]), (True, 0))


def places(texts, last):
    """Numbers of bytes, in order: each boundary of these texts, one byte before it and after it, and ten numbers from 0
    to `last`.
    """
    ends = [sum(map(len, texts[:place])) for place in range(len(texts) + 1)]
    return sorted({place for end in ends for place in (end - 1, end, end + 1)}
                  | {last * part // 9 for part in range(10)})


def bytes_apart(failing, job):
    """If each read or write transfers one byte, the answer is the same. If the write of a byte then fails, exactly the
    bytes before it are written, except that an unfinished part is dropped. If the read of a byte fails, nothing is
    written.
    """
    for short in SHORT:
        for old in job.olds:
            failing.bench.check(f"{job.with_files(old)}: {short}", job.play(failing, old, **short), (job.whole, False))
    size = job.size()
    for count in places([*job.whole[3], job.whole[1]], size):
        for old in job.olds:
            if 0 <= count <= size:
                got, is_failed = job.play(failing, old, SHORT_WRITE="1", FAIL="write", FAIL_AT=str(count + 1))
                wanted = (job.cut(old, count), True) if count < size else (job.whole, False)
                failing.bench.check(f"{job.with_files(old)}: byte {count + 1} fails", (got, is_failed), wanted)
    for count in places([], job.read_bytes):
        if 0 <= count < job.read_bytes:
            got, is_failed = job.play(failing, job.olds[-1], SHORT_READ="1", FAIL="read", FAIL_AT=str(count + 1))
            wanted = (3, b"", job.refusal(READ), [job.olds[-1]] * len(job.outputs))
            failing.bench.check(f"{job.name}: the read of byte {count + 1} fails", (got, is_failed), (wanted, True))


def cut_inputs(failing, job, data):
    """IN of `pass` ends earlier than when it was opened. The answer is that to a trace of the bytes that were read."""
    for size in [*places([data[:24], data[24:40]], len(data)), *range(25, len(data), 5)]:
        if 0 <= size < len(data):
            read = TraceRead(data[:size])
            line, frames = read.passed()
            for old in job.olds:
                got, _ = job.play(failing, old, SHORT_READ="1", END_AT=str(size + 1))
                refused = (1, b"", f"nicbench: {read.fault}\n".encode(), [old])
                failing.bench.check(f"{job.with_files(old)}: IN ends after {size} bytes", got,
                                    refused if read.fault else (0, line, b"", [written(frames)]))


def errors(failing):
    """Runs commands that print only on standard error. If their writes transfer one byte, the answer is the same. If a
    write fails, the status is the same, and standard output is empty.
    """
    failing.bench.put("bad.pcap", b"x" * 24)
    failing.bench.put("bad.scenario", b"fly\n")
    failing.bench.put("plan.scenario", b"host a 02:00:00:00:00:01 w\n")
    for status, *words in [(1, "pass", "bad.pcap", "none.pcap"), (1, "show", "bad.pcap"),
                           (1, "run", "bad.scenario", "outdir"), (1, "run", "plan.scenario", "outdir"), (2,),
                           (2, "--help"), (2, "--version"), (2, "run", "a"), (2, "pass", "--vlan", "x", "a", "b"),
                           (2, "serve", "a"), (3, "pass", "missing", "none.pcap"), (3, "run", "outdir", "outdir"),
                           (4, "serve", "--memory", "18446744073709551615")]:
        *whole, _ = failing.run(words)
        failing.bench.check(f"errors: {words}", (whole[0], whole[1], whole[2] != b""), (status, b"", True))
        lines = [whole[2]] if status == 2 else whole[2].splitlines(True)
        for short in ({}, {"SHORT_WRITE": "1"}):
            failing.bench.check(f"errors: {words} {short}", failing.run(words, **short), (*whole, False))
            errors_in_turn(failing, words, status, lines, short)


def errors_in_turn(failing, words, status, lines, short):
    """Writes to standard error fail in turn. One line is then missing or cut, and all other lines are complete. With
    `short`, only the writes near the ends of lines and some others fail.
    """
    size = sum(map(len, lines))
    for number in [place + 1 for place in places(lines, size) if place >= 0] if short else range(1, MOST_CALLS):
        got, out, text, is_failed = failing.run(words, FAIL="write", FAIL_AT=str(number), **short)
        if not is_failed:
            break
        possible = {b"".join([*lines[:place], line[:count], *lines[place + 1:]]) for place, line in enumerate(lines)
                    for count in range(len(line))}
        failing.bench.check(f"errors: {words} {short}: write {number} fails", (got, out, text in possible),
                            (status, b"", True))
    failing.bench.check(f"errors: {words} {short}: writes failed", number > 1, True)


SENT = "020000000009020000000001080001020304"
STEPS = ["txtake", "txput", "rxdata", "rxdone", "eeprom", "phy"]
ZERO = "OK 0x" + 16 * "0"
# Requests of each kind, each with all lines that the server prints for it; the last one is the answer.
TALK = [
    ("events on", "OK"), ("writel 0xFEB000D0 0x80", "OK"), ("writel 0xFEB000C8 0x80", "IRQ raise 0\nOK"),
    ("line", "OK 0x0000000000000001"), ("readl 0xFEB000C0", "IRQ lower 0\nOK 0x0000000000000080"),
    ("write 0x1000 9000 0x" + 9000 * "5a", "OK"), ("read 0x1000 9000", "OK 0x" + 9000 * "5a"),
    ("memset 0 65536 0", "OK"), ("log on", "OK"), ("read 0 2", "# read 0 2\nOK 0x0000"),
    ("step phy", "# step phy -> nothing\nOK nothing"), ("arrive 00", "# arrive 00\nOK off"),
    ("settle", "".join(f"# step {step} -> nothing\n" for step in STEPS) + ZERO), ("log off", "OK"),
    ("interleave 0", "OK"), ("endianness", "OK little"), ("", "FAIL unknown"), ("fly", "FAIL unknown"),
    ("readl", "ERR count"), ("readb x", "ERR value"), ("read 0 65537", "ERR size"), ("readb 0x100000", "ERR address"),
    (f"write 0x800 18 0x{SENT}", "OK"), ("write 0 16 0x00080000000000001200000900000000", "OK"),
    ("writel 0xFEB03808 128", "OK"), ("writel 0xFEB00400 0xA", "OK"), ("writel 0xFEB03818 1", "OK"),
    ("step txtake", "OK took"), ("step txput", f"frame {SENT.ljust(120, '0')}\nOK put"),
    ("b64write 0x900 3 AQID", "OK"), ("b64read 0x900 3", "OK AQID"), ("pace 1", "OK"),
    ("writel 0xFEB03818 2", "fault tx 1 eop\nOK"), ("frames", "OK"), ("faults", "OK"), ("outl 0xCF8 0x80002000", "OK"),
    ("inl 0xCFC", "OK 0x00000000100e8086"), ("clock_step 5", "OK 5"), ("readb 0xFEB00000", "ERR register"),
    ("readw 0xFFFFE", ZERO)]
# The last line has no LF.
REQUESTS = "\n".join(request for request, _ in TALK).encode()


def answers(count):
    """All lines that the server prints for this number of first requests."""
    return "".join(f"{told}\n" for _, told in TALK[:count]).encode()


def answered(size):
    """All lines that the server prints for the requests whose LF is in the first `size` bytes of the input."""
    return answers(REQUESTS[:size].count(b"\n"))


def server_reads(failing):
    """Each read of standard input fails in turn: the server answers the requests whose lines it has read, and ends. The
    server repeats an interrupted read.
    """
    bench, error, possible = failing.bench, b"nicbench: E66 Read\n", [answers(count) for count in range(len(TALK) + 1)]
    counts = []
    for number in range(1, MOST_CALLS):
        *got, is_failed = failing.run(["serve"], REQUESTS, FAIL="read", FAIL_AT=str(number))
        if not is_failed:
            break
        bench.check(f"serve: read {number} fails", (got[0], got[1] in possible, got[2]), (3, True, error))
        counts.append(len(got[1]))
        bench.check(f"serve: read {number} is interrupted",
                    failing.run(["serve"], REQUESTS, FAIL="read", FAIL_AT=str(number), FAIL_INTERRUPTED="1"),
                    (0, possible[-1], b"", True))
    bench.check("serve: reads failed", (len(counts) > 3, counts[:1], counts), (True, [0], sorted(counts)))
    # The last line has no LF: the server answers it after the read that returns the end of the input. If the read after
    # that one fails, all answers are written before the error.
    size = len(REQUESTS)
    for place in places([request.encode() + b"\n" for request, _ in TALK], size):
        if 0 <= place <= size + 1:
            wanted = answered(place) if place <= size else possible[-1]
            bench.check(f"serve: the read of byte {place + 1} fails",
                        failing.run(["serve"], REQUESTS, FAIL="read", FAIL_AT=str(place + 1), SHORT_READ="1"),
                        (3, wanted, error, True))


def server_writes(failing):
    """Each write of an answer fails in turn: only this write, or this and all later writes. The server reports E67, and
    its output is a beginning of the answers. The server repeats an interrupted write.
    """
    bench, error, whole = failing.bench, b"nicbench: E67 Write\n", answers(len(TALK))
    lengths = []
    for number in range(1, MOST_CALLS):
        status, out, err, is_failed = failing.run(["serve"], REQUESTS, FAIL="write", FAIL_AT=str(number), FAIL_ON="1")
        if not is_failed:
            break
        bench.check(f"serve: all writes fail from {number} on", (status, whole.startswith(out), err), (3, True, error))
        lengths.append(len(out))
        status, again, err, _ = failing.run(["serve"], REQUESTS, FAIL="write", FAIL_AT=str(number))
        bench.check(f"serve: write {number} fails", (status, again.startswith(out) and whole.startswith(again), err),
                    (3, True, error))
        bench.check(f"serve: write {number} is interrupted",
                    failing.run(["serve"], REQUESTS, FAIL="write", FAIL_AT=str(number), FAIL_INTERRUPTED="1"),
                    (0, whole, b"", True))
    bench.check("serve: writes failed", (lengths[:1], len(lengths) >= len(TALK), len(set(lengths)), lengths),
                ([0], True, len(lengths), sorted(lengths)))
    told = [answers(count)[len(answers(count - 1)):] for count in range(1, len(TALK) + 1)]
    for place in places(told, len(whole)):
        if 0 <= place < len(whole):
            asked = {"FAIL": "write", "FAIL_AT": str(place + 1), "SHORT_WRITE": "1"}
            bench.check(f"serve: all bytes fail from {place + 1} on",
                        failing.run(["serve"], REQUESTS, **asked, FAIL_ON="1"), (3, whole[:place], error, True))
            status, out, err, _ = failing.run(["serve"], REQUESTS, **asked)
            end = next(len(answers(count)) for count in range(len(TALK) + 1) if len(answers(count)) > place)
            bench.check(f"serve: byte {place + 1} fails",
                        (status, whole.startswith(out), place <= len(out) <= end, err), (3, True, True, error))


def serves(failing):
    whole = (0, answers(len(TALK)), b"", False)
    failing.bench.check("serve: without a failure", failing.run(["serve"], REQUESTS), whole)
    for short in SHORT:
        failing.bench.check(f"serve: {short}", failing.run(["serve"], REQUESTS, **short), whole)
    server_reads(failing)
    server_writes(failing)


def all_cases(bench):
    failing = Failing(bench)
    bench.check("devices: a C compiler is here", failing.library is not None, True)
    if failing.library is None:
        return
    bench.check("devices: the program names the functions that fail, and no others", functions_of(bench.program),
                FAILING | OTHERS)
    small, long = jobs(bench)
    for job in small + long:
        for part in [plays, reads, opens, writes, parts, *([bytes_apart] if job in small else [])]:
            part(failing, job)
    for job in small[:3]:
        cut_inputs(failing, job, bench.get("small.pcap"))
    errors(failing)
    serves(failing)
