"""Tests the server with clients that send any lines, close their ends at any time, or are killed. Also tests ten
million requests, and the sessions of tests/published_faults.txt.
"""

import os
import re
import select
import signal
import subprocess
import threading

from hostile_lines import ACTIVE
from server import LIMIT, LONGEST, ZERO, lines, number
from server_pages import read_page
import hostile_lines

WRITE_FAILED = (3, b"nicbench: E67 Write\n")
ENDED = (0, b"")
# Requests whose answers are more bytes than a pipe holds. They follow the session, so that the server never writes its
# last answer before its client is gone.
MANY = [b"read 0x10000 4096"] * 40
MANY_TOLD = (b"OK 0x" + b"00" * 4096 + b"\n") * 40
# Numbers of bytes around the sizes of a page and of a pipe, and around twice these sizes.
AROUND = [place + more for place in (4096, 8192, 65_536, 131_072) for more in (-1, 0, 1)]


def joined(texts):
    return b"".join(text + b"\n" for text in texts)


def started(server, **streams):
    """Starts the server, with its standard error in a pipe. Returns the process."""
    return subprocess.Popen([server.program, "serve"], stderr=subprocess.PIPE, **streams)


def end_of(process):
    """The status and the standard error of a server that must end by itself."""
    try:
        _, errors = process.communicate(timeout=LIMIT)
    except subprocess.TimeoutExpired:
        process.kill()
        process.communicate()
        return "it doesn't end", b""
    return process.returncode, errors


def read_some(end, most):
    """The next bytes of a pipe, at most `most`. No bytes at the end of the pipe, or if no byte comes in LIMIT seconds.
    """
    return os.read(end, most) if select.select([end], [], [], LIMIT)[0] else b""


def read_exactly(end, size):
    """This number of bytes of a pipe, or fewer if the pipe ends or no byte comes in LIMIT seconds."""
    got = b""
    while len(got) < size:
        more = read_some(end, size - len(got))
        if not more:
            break
        got += more
    return got


def closes_answers(server):
    """The client closes the end of answers after each number of bytes, while the server has more to write. The server
    ends with status 3, and not by a signal.
    """
    asked = joined([line for line, _ in ACTIVE] + MANY)
    told = b"".join(answer for _, answer in ACTIVE)
    whole = told + MANY_TOLD
    server.put("asked", asked)
    server.answers("closed answers: the session to its end", asked, whole)
    for size in [*range(len(told) + 20), *AROUND]:
        answers = os.pipe()
        with open(server.path("asked"), "rb") as file:
            process = started(server, stdin=file, stdout=answers[1])
        os.close(answers[1])
        got = read_exactly(answers[0], size)
        os.close(answers[0])
        server.check(f"closed answers: after {size} bytes", (got == whole[:size], *end_of(process)),
                     (True, *WRITE_FAILED))


# Each row: which ends the client closes, what it still sends after it closed the end of answers, and how the server
# ends.
CLOSINGS = [("both ends", b"", ENDED), ("the end of answers", b"line\n", WRITE_FAILED),
            ("the end of answers, in a line", b"lin", WRITE_FAILED),
            ("the end of answers, before a rejected line", b"\xff\n", WRITE_FAILED)]


class Talk:
    """A server, and the client's ends of its two pipes."""

    def __init__(self, server):
        asked, answers = os.pipe(), os.pipe()
        self.process = started(server, stdin=asked[0], stdout=answers[1])
        os.close(asked[0])
        os.close(answers[1])
        self.asks, self.answers = asked[1], answers[0]

    def ask(self, line, told):
        """Sends a request. Returns whether the next bytes of the server are these."""
        os.write(self.asks, line + b"\n")
        return read_exactly(self.answers, len(told)) == told


def byte_by_byte(server):
    """The client writes one byte at a time: each answer comes after the LF of its request."""
    talk = Talk(server)
    for line, told in ACTIVE:
        for byte in line:
            os.write(talk.asks, bytes([byte]))
        early = select.select([talk.answers], [], [], 0)[0]
        server.check(f"byte by byte: {line!r:.60}", (early, talk.ask(b"", told)), ([], True))
    os.close(talk.asks)
    server.check("byte by byte: the end", (read_exactly(talk.answers, 1), *end_of(talk.process)), (b"", *ENDED))
    os.close(talk.answers)


def closes_between(server):
    """The client closes its ends after each answered request. It closes both, or only the end of answers, and then
    sends more, or a part of a line.
    """
    for count in range(len(ACTIVE) + 1):
        for name, sent, wanted in CLOSINGS:
            talk = Talk(server)
            answered = all([talk.ask(*row) for row in ACTIVE[:count]])
            os.close(talk.answers)
            if sent:
                os.write(talk.asks, sent)
            if sent.endswith(b"\n"):
                # The server ends although its input is open.
                end = end_of(talk.process)
                os.close(talk.asks)
            else:
                os.close(talk.asks)
                end = end_of(talk.process)
            server.check(f"closed between: {name} after {count} requests", (answered, *end), (True, *wanted))


def killed(server, client):
    """How a server ends if its client, a process, plays `client` and is then killed. No other process has the client's
    ends of the pipes.
    """
    asked, answers = os.pipe(), os.pipe()
    process = started(server, stdin=asked[0], stdout=answers[1])
    child = os.fork()
    if child == 0:
        try:
            os.close(asked[0])
            os.close(answers[1])
            client(asked[1], answers[0])
        finally:
            os.kill(os.getpid(), signal.SIGKILL)
    for end in (*asked, *answers):
        os.close(end)
    server.check("killed: the client was killed", os.waitpid(child, 0)[1], signal.SIGKILL)
    return end_of(process)


def answered(asks, answers, count):
    """Sends the first requests of the session, and reads the answer to each before the next."""
    for line, told in ACTIVE[:count]:
        os.write(asks, line + b"\n")
        read_exactly(answers, len(told))


def kills(server):
    """The client is killed: after each answered request, inside a line, and while the server waits until its answers
    are read.
    """
    for count in range(len(ACTIVE) + 1):
        server.check(f"killed: after {count} requests",
                     killed(server, lambda asks, answers: answered(asks, answers, count)), ENDED)

        def in_a_line(asks, answers):
            answered(asks, answers, count)
            os.write(asks, b"readl")

        # The kernel closes the client's two ends in any order.
        server.check(f"killed: in a line after {count} requests", killed(server, in_a_line) in (ENDED, WRITE_FAILED),
                     True)

        def in_answers(asks, answers):
            answered(asks, answers, count)
            os.write(asks, joined(MANY))
            read_exactly(answers, 10_000 * count)

        server.check(f"killed: in answers after {count} requests", killed(server, in_answers), WRITE_FAILED)


# OPEN is requested once. In ROUND, a frame is received, a frame is sent, random steps are played, and lines are
# rejected. After ROUND, the adapter is as it was before.
DESCRIPTOR = "00080000000000000000000000000000"
SENT = "00080000000000003c00000900000000"
OPEN = ["events on", "writel 0xFEB02808 128", "writel 0xFEB03808 128", "writel 0xFEB03800 0x80",
        "writel 0xFEB00100 0x8002", "writel 0xFEB00400 0xA",
        "writel 0xFEB000D0 0x81"]
ROUND = [
    (f"write 0 16 0x{DESCRIPTOR}", "OK"), ("writel 0xFEB02810 0", "OK"), ("writel 0xFEB02818 1", "OK"),
    ("arrive " + "ff" * 60, "OK stored"), ("step rxdata", "OK moved"), ("step rxdata", "OK nothing"),
    ("step rxdone", "IRQ raise 0\nOK done"), ("line", number(1)), ("readl 0xFEB000C0", "IRQ lower 0\n" + number(0x80)),
    ("read 0 16", "OK 0x00080000000000003c00000003000000"), ("readl 0xFEB04074", number(1)),
    (f"write 0x80 16 0x{SENT}", "OK"), ("writel 0xFEB03810 0", "OK"), ("writel 0xFEB03818 1", "OK"),
    ("step txtake", "OK took"), ("step txput", "frame " + "ff" * 60 + "\nIRQ raise 0\nOK put"),
    ("readl 0xFEB000C0", "IRQ lower 0\n" + number(3)), ("readl 0xFEB04080", number(1)), ("frames", "OK"),
    ("settle", ZERO), ("pace 2", "OK"), ("b64write 0x300 3 AQID", "OK"), ("b64read 0x301 2", "OK AgM="),
    ("pace 0", "OK"), ("outl 0xCF8 0x80002004", "OK"), ("inw 0xCFC", number(6)), ("irq_intercept_in ioapic", "OK"),
    ("clock_set 1000", "OK 1000"), ("events off", "OK"), ("faults", "OK"), ("events on", "OK"), ("interleave 3", "OK"),
    ("readl 0xFEB00008", ZERO), ("writeq 0x100 1", "OK"), ("interleave 0", "OK"), ("fly", "FAIL unknown"),
    ("readl", "ERR count"), ("readl x", "ERR value"), ("read 0 65537", "ERR size"), ("readl 0x100000", "ERR address"),
    ("log on", "OK"), ("memset 0x200 4 9", "# memset 0x200 4 9\nOK"), ("log off", "OK"), ("endianness", "OK little"),
    ("readq 0x100", number(1)), ("", "FAIL unknown"), ("arrive 00", "OK illegal"), ("readb 0x200", number(9)),
    ("\u00e9", "FAIL unknown"), ("readw 0x201", number(0x0909)), ("step phy", "OK nothing"),
    ("writel 0xFEB1FFFC 1", "OK")]
# The requests that need the most memory, once in each block.
LARGE = [("x" * (LONGEST + 1), "ERR long"), ("read 0x10000 65536", "OK 0x" + "00" * 65_536),
         ("write 0x10000 65536 0x" + "00" * 65_536, "OK"),
         ("memset 0x10000 65536 0", "OK"), ("arrive " + "00" * 65_000, "OK illegal")]
BLOCK = 100_000
BLOCKS = 100
# Kilobytes by which the most resident memory may grow: pages of the program's file that are read late count, too. A
# server that kept one byte of each request would need 9,668 kilobytes more.
ROOM = 2048


def block():
    """The requests of a block, the bytes of their answers, and the number of requests."""
    rounds = (BLOCK - len(LARGE)) // len(ROUND)
    idle = BLOCK - len(LARGE) - rounds * len(ROUND)
    rows = [*LARGE, *[("line", ZERO)] * idle]
    asked, told = (lines([row[place] for row in ROUND]) * rounds + lines([row[place] for row in rows])
                   for place in (0, 1))
    return asked, told, rounds * len(ROUND) + len(rows)


def most_memory(process):
    """The most resident memory that a process has had, in kilobytes."""
    with open(f"/proc/{process.pid}/status") as file:
        return int(re.search(r"^VmHWM:\s+(\d+) kB$", file.read(), re.M)[1])


def write_blocks(end, data, count):
    try:
        for _ in range(count):
            rest = memoryview(data)
            while rest:
                rest = rest[os.write(end, rest):]
    except BrokenPipeError:
        pass  # The server has ended: its answers show it.


def is_answered(talk, asked, told, count):
    """Sends a block of requests `count` times. Returns whether each block is answered with exactly these bytes; kills
    the server if it isn't.
    """
    writer = threading.Thread(target=write_blocks, args=(talk.asks, asked, count))
    writer.start()
    twice, place, left = told + told, 0, count * len(told)
    while left:
        got = read_some(talk.answers, min(left, 1 << 16))
        if not got or twice[place:place + len(got)] != got:
            talk.process.kill()
            break
        place, left = (place + len(got)) % len(told), left - len(got)
    writer.join()
    return left == 0


def many_requests(server):
    """Each of ten million requests has its answer. After the first hundred thousand, the most memory that the server
    has had grows by at most ROOM kilobytes.
    """
    asked, told, count = block()
    server.check("many requests: their number", (count, asked.count(b"\n"), count * BLOCKS), (BLOCK, BLOCK, 10_000_000))
    talk, most = Talk(server), []
    server.check("many requests: the rings are set up", [talk.ask(line.encode(), b"OK\n") for line in OPEN],
                 [True] * len(OPEN))
    for number_of_blocks in (1, BLOCKS - 1):
        right = is_answered(talk, asked, told, number_of_blocks)
        server.check(f"many requests: {number_of_blocks} blocks", right, True)
        most.append(most_memory(talk.process) if right else None)
    server.check(f"many requests: the most memory, {most} kB", None not in most and most[1] <= most[0] + ROOM, True)
    os.close(talk.asks)
    server.check("many requests: the end", (read_exactly(talk.answers, 1), *end_of(talk.process)), (b"", *ENDED))
    os.close(talk.answers)


def plays_shown(server, shown):
    """Plays a session of a page. If its first line prints requests into the server, the lines below are the output.
    Otherwise, they are requests with the answers next to them.
    """
    begun = re.match(r"\$ ((?:printf .*? \| )?)\./nicbench serve([^\n]*)\n", shown, re.S)
    server.check(f"page: a session begins with a command: {shown[:60]!r}", begun is not None, True)
    if begun is None:
        return
    rest = shown[begun.end():]
    if begun[1]:
        ran = subprocess.run(f"{begun[1]}{server.program} serve{begun[2]}", shell=True, capture_output=True,
                             timeout=LIMIT)
        server.check(f"page: {begun[1][:60]!r}", (ran.returncode, ran.stdout.decode(), ran.stderr), (0, rest, b""))
        return
    rows = [re.fullmatch(r"(\S+(?: \S+)*)?(?:  +(\S+(?: \S+)*))?", row) for row in rest.splitlines()]
    server.check(f"page: a row has a request, an answer or both: {rest[:60]!r}", None not in rows, True)
    if None in rows:
        return
    asked, told = (lines(row[place] for row in rows if row[place]) for place in (1, 2))
    server.answers(f"page: {asked[:60]!r}", asked, told, *begun[2].split())


def page(server):
    """The sessions of tests/published_faults.txt have the output that this file shows. Each session in docs/FAULTS.md
    is one of them.
    """
    text = read_page("tests", "published_faults.txt")
    sessions = re.findall(r"^```\n(.*?)^```$", text, re.M | re.S)
    server.check("page: there are sessions", len(sessions) > 20, True)
    shown = re.findall(r"^```\n(\$ .*?)^```$", read_page("docs", "FAULTS.md"), re.M | re.S)
    server.check("page: the sessions of docs/FAULTS.md",
                 [one for one in shown if one not in sessions] or len(shown) > 0, True)
    for shown in sessions:
        plays_shown(server, shown)


def all_cases(server):
    for part in [hostile_lines.all_cases, byte_by_byte, closes_answers, closes_between, kills, many_requests, page]:
        part(server)
