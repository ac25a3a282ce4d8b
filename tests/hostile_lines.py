"""Sends the server request lines of any bytes and lengths. A model of the server (request_model.py) computes the answer
to each line, and what the line changes.
"""

import base64
import random

from adapter_sessions import BASE, IMS, PLAIN, RULED
from configuration_model import ADDRESS_PORT, DATA_PORT
from request_forms import FORMS, KINDS
from request_model import Model, Unknown
from server import LONGEST, ZERO

SEEDS = range(20)
LINES = 1_000
# The bytes of memory in the sessions of short lines: one request can read all of them.
MEMORY = 256
WHOLE = b"read 0 256"
# The bytes of memory in the sessions of long lines: one more than a request can write.
LARGE = 65_537
EDGES = [0, 1, 2, 4, 7, 8, 9, 10, 16, 127, 128, 254, 255, 256, 257, 4095, 65_535, 65_536, 65_537, 1 << 31,
         (1 << 32) - 1, 1 << 32,
         (1 << 63) - 1, 1 << 63, (1 << 64) - 9, (1 << 64) - 8, (1 << 64) - 4, (1 << 64) - 1, 1 << 64, 1 << 65, 10 ** 30]
ODD_WORDS = ["on", "off", "ON", "rx", "OK", "ERR", "IRQ", "0x", "0X10", "-1", "+1", "1_0", "0b1", "0o7", "1e3", "0x_1",
             "'", '"', "#",
             "\u0660", "\u00b2", "\uff11", "\u00e9", "\u2028", "\u00a0", "\ufeff", "\0", "\r", "\v", "\f", "\x85",
             "\x7f"]
# Texts that aren't UTF-8: cut characters, bytes that begin no character, overlong forms, surrogates, and numbers above
# 10FFFF.
NOT_TEXT = [b"\x80", b"\xbf", b"\xc3", b"\xe2\x82", b"\xf0\x9f\x98", b"\xff", b"\xfe", b"\xc0\x80", b"\xc1\xbf",
            b"\xe0\x80\x80", b"\xed\xa0\x80",
            b"\xed\xbf\xbf", b"\xf0\x80\x80\x80", b"\xf4\x90\x80\x80", b"\xf5\x80\x80\x80"]
REGISTERS = [*PLAIN, *RULED, 0x0004, 0x2814, 0x3FFC, 0x1FFFC, 0x20000]


def some_bytes(draw, most):
    """Any bytes except LF."""
    return bytes(draw.choice([draw.randrange(10), draw.randrange(11, 256)]) for _ in range(draw.randrange(most)))


def some_number(draw):
    """A number as text, decimal or hexadecimal: a limit, an address near a register, a place in memory, or a number of
    many digits.
    """
    value = draw.choice([draw.choice(EDGES), BASE + draw.choice(REGISTERS) + draw.choice([0, 0, 0, 1, 2]),
                         draw.randrange(MEMORY + 4),
                         draw.getrandbits(draw.randrange(1, 70)), draw.getrandbits(draw.randrange(1, 400))])
    zeros = "0" * draw.choice([0, 0, 0, 1, 2, 20, 300])
    return zeros + str(value) if draw.randrange(2) else "0x" + zeros + draw.choice(["{:x}", "{:X}"]).format(value)


def some_digits(draw, most=24):
    """Hexadecimal digits: an odd number of them in half of the cases."""
    return "".join(draw.choice("0123456789abcdefABCDEF") for _ in range(draw.randrange(most)))


def some_word(draw):
    return draw.choice([lambda: draw.choice([*FORMS, *KINDS]), lambda: some_number(draw),
                        lambda: draw.choice(["", "0x"]) + some_digits(draw),
                        lambda: draw.choice(ODD_WORDS)])()


def joined(draw, words):
    """Words with spaces and tabs between them, and sometimes around them."""
    # noqa: E731
    gap = lambda least: "".join(draw.choice(" \t") for _ in range(draw.choice([least, least, least, 1, 3])))
    return (gap(0) + "".join(word + gap(1) for word in words[:-1]) + (words[-1] if words else "") + gap(0)).encode()


def of_vocabulary(draw):
    return joined(draw, [some_word(draw) for _ in range(draw.randrange(6))])


def some_base64(draw, size):
    """This number of random bytes in base64, or a word that is nearly base64."""
    text = base64.b64encode(draw.randbytes(size)).decode()
    return draw.choice([text, text, text, text.rstrip("="), text + "=", text[:-2] + "B=", text[1:], "A\u00e9==",
                        "-_8="])


def some_port(draw):
    return draw.choice([str(ADDRESS_PORT), hex(DATA_PORT + draw.randrange(5)), hex(ADDRESS_PORT + draw.randrange(8)),
                        some_number(draw)])


def some_port_value(draw):
    """An address in configuration space (PCI 2.2, 3.2.2.3.2), the address of the first register, or any number."""
    address = 1 << 31 | draw.choice([0, 0, 0, 0x10000, 0x100]) | draw.choice([4, 4, 4, 1,
                                                                              20]) << 11 | draw.randrange(0x50)
    return draw.choice([hex(address), hex(BASE), str(draw.randrange(256)), some_number(draw)])


def some_frame(draw):
    return draw.choice([some_digits(draw), "ff" * 60, "0x00", "f" * 121])


# For each request with one word that isn't always a number: how this word is drawn
ONE_WORD = {
    "step": lambda draw: draw.choice(KINDS), "log": lambda draw: draw.choice(["on", "off"]),
    "events": lambda draw: draw.choice(["on", "off"]), "wire": lambda draw: draw.choice(["full", "free"]),
    "arrive": some_frame, "offer": some_frame,
    "pace": lambda draw: draw.choice(["0", "1", "3", "65535", "65536", some_number(draw)]),
    "clock_step": lambda draw: draw.choice(["", str(draw.randrange(1 << 20)), some_number(draw)]),
    "irq_intercept_in": lambda draw: draw.choice(["ioapic", some_word(draw)]),
    "irq_intercept_out": lambda draw: draw.choice(["/machine", some_word(draw)]),
    **{name: some_port for name in ("inb", "inw", "inl")}}


def of_an_access(draw, name):
    """The words after the name of a request that reads or writes bytes, in hexadecimal or in base64, or sets them."""
    if name in ("write", "b64write"):
        size = draw.choice([0, 1, 2, 3, 4, 5, 8, 255, 256, 257])
        payload = draw.choice([some_digits(draw), "a5" * size, "5A" * size, "3c" * size + "3"])
        return [some_number(draw), draw.choice([str(size), str(size), str(size), some_number(draw)]),
                "0x" + payload if name == "write" else some_base64(draw, size)]
    size = draw.choice([some_number(draw), str(draw.randrange(9)), "4", str(65_536 + draw.randrange(3))])
    return [some_number(draw), size, *([draw.choice([some_number(draw), str(draw.randrange(260))])]
                                       if name == "memset" else [])]


def of_a_form(draw):
    """A request with as many words as requests of its name may have, most of them of the right form."""
    name = draw.choice(list(FORMS))
    if name in ONE_WORD:
        return joined(draw, [name, ONE_WORD[name](draw)])
    if name in ("read", "write", "b64read", "b64write", "memset"):
        return joined(draw, [name, *of_an_access(draw, name)])
    if name.startswith("out"):
        return joined(draw, [name, some_port(draw), some_port_value(draw)])
    return joined(draw, [name, *(some_number(draw) for _ in FORMS[name])])


def of_a_port(draw):
    """A read or a write of an I/O port for configuration space. A written value selects a double word that can be
    written, is a value for such a double word, or is any port value.
    """
    value = draw.choice([hex(0x80002000 + draw.choice([4, 0x10, 0x10, 0x12, 0x3C])), hex(BASE), "2",
                         some_port_value(draw)])
    letter = draw.choice("bwlll")
    port = draw.choice([hex(ADDRESS_PORT), hex(DATA_PORT), hex(DATA_PORT + draw.randrange(4))])
    return joined(draw, draw.choice([[f"in{letter}", port], [f"out{letter}", port, value]]))


def of_a_changed_form(draw):
    """A request in which a byte is replaced, removed or inserted, or whose end is missing or doubled."""
    line = of_a_form(draw)
    place, byte = draw.randrange(len(line)), draw.choice([draw.randrange(10), draw.randrange(11, 256), *b"0x \t9fFg"])
    return draw.choice([line[:place] + bytes([byte]) + line[place + 1:], line[:place] + line[place + 1:],
                        line[:place] + bytes([byte]) + line[place:],
                        line[:place], line + line[place:]])


def of_no_text(draw):
    line = of_a_form(draw)
    place = draw.randrange(len(line) + 1)
    return line[:place] + draw.choice(NOT_TEXT) + line[place:]


def of_bytes(draw):
    """Any bytes, after the name of a request in half of the cases."""
    name = draw.choice(list(FORMS)).encode()
    return draw.choice([b"", b"", name, name + b" "]) + some_bytes(draw, draw.choice([2, 10, 40, 300]))


MAKERS = [of_bytes, of_vocabulary, of_a_form, of_a_form, of_a_form, of_a_port, of_a_changed_form, of_no_text]


def told(model, request):
    return model.answer(request)[0]


def begun(draw, model):
    """Requests that fill memory and registers and assert the interrupt line, with their answers."""
    rows = [(b"write 0 256 0x" + bytes(draw.randrange(256) for _ in range(MEMORY)).hex().encode())]
    rows += [b"writel %d %d" % (BASE + offset, draw.getrandbits(32) & (0xFBFFFFFD if offset < 0x1000 else 0xFFFFFFFF))
             for offset in PLAIN]
    rows += [b"writel %d 0x2d7" % (BASE + IMS), b"writel 0xFEB000C8 0x85"]
    return [(row, told(model, row)) for row in rows]


def probes(draw, model):
    """Valid requests, with their answers, that show whether something has changed: they read all of memory, two
    registers and the interrupt line.
    """
    rows = [WHOLE, *(b"readl %d" % (BASE + offset) for offset in draw.sample(list(PLAIN), 2)), b"line"]
    return [(row, told(model, row)) for row in rows]


def plays(server, name, talk, *words):
    """Sends the line of each pair of a line and an answer, and compares the answers. If all are right, each line counts
    as a comparison.
    """
    got = server.serve(b"".join(line + b"\n" for line, _ in talk), *words)
    if got == (0, b"".join(answer for _, answer in talk), b""):
        server.passed += len(talk)
        return
    place = 0
    for line, answer in talk:
        if got[1][place:place + len(answer)] != answer:
            server.check(f"{name}: {line!r:.200}", got[1][place:place + len(answer) + 80], answer)
            break
        place += len(answer)
    server.check(f"{name}: its end", (got[0], got[2], len(got[1])), (0, b"", sum(len(answer) for _, answer in talk)))


def short_lines(server):
    """Sends random lines. After each line that is rejected, memory, two registers and the interrupt line are as before.
    At the end, all registers are compared.
    """
    counts = {}
    for seed in SEEDS:
        draw, model, talk, made = random.Random(seed), Model(MEMORY), [], 0
        talk += begun(draw, model)
        while made < LINES:
            line = draw.choice(MAKERS)(draw)
            try:
                answer, refused = model.answer(line)
            except Unknown:
                continue
            made += 1
            talk.append((line, answer))
            if refused:
                counts[answer] = counts.get(answer, 0) + 1
                talk += probes(draw, model)
        rest = [b"readl %d" % (BASE + offset) for offset in [*PLAIN, *RULED]]
        talk += [(row, told(model, row)) for row in rest]
        plays(server, f"short lines: seed {seed}", talk, "--memory", str(MEMORY))
    server.check("short lines: refusals of each kind", [counts.get(answer, 0) > 100 for answer in [
        b"ERR text\n", b"FAIL unknown\n", b"ERR count\n", b"ERR value\n", b"ERR size\n", b"ERR address\n",
        b"ERR register\n"]], [True] * 7)
    server.check("short lines: a state was restored before any was saved", counts.get(b"ERR saved\n", 0) > 0, True)


def long_forms(size):
    """Lines of this number of bytes, or one byte less, of many kinds."""
    fill = lambda start, byte, end=b"": start + byte * (size - len(start) - len(end)) + end  # noqa: E731
    digits = b"5a" * ((size - 16) // 2)
    return [fill(b"", b" "), fill(b"", b"\t"), fill(b"", b"\0"), fill(b"", b"\xff"), fill(b"", b"a"),
            fill(b"readb 0", b" "), fill(b"", b" ", b"readb 0"), fill(b"", b" ", b"\xc3"),
            fill(b"", b"a", "\u00e9".encode()), fill(b"readb 0x", b"0", b"10000"), fill(b"readb ", b"0", b"65536"),
            fill(b"readb 0x", b"f"), fill(b"readb ", b"9"), fill(b"arrive ", b"f"), fill(b"arrive ", b"f", b"ff "),
            fill(b"write 1 65536 0x", b"0"), b"write 1 65536 0x" + digits, fill(b"write 0 1 0x00", b" "),
            fill(b"memset 0 9 ", b"0", b"7"), fill(b"writeq 0 ", b"0", b"18446744073709551615"),
            (b"readb 0 " * (size // 8 + 1))[:size], (b"a " * size)[:size], fill(b"log\t", b" ", b"off"),
            fill(b"settle", b"\r")]


def long_lines(server):
    """Sends lines of about LONGEST bytes, and of a million bytes, also as the last line without LF. The valid requests
    after each line are answered, and show that no rejected line has changed anything.
    """
    probe = [b"read 0 256", b"read 65281 256", b"readl 0xFEB05400"]
    for size in [*range(LONGEST - 2, LONGEST + 3), 1_000_000]:
        model, talk = Model(LARGE), []
        for line in long_forms(size):
            talk += [(row, told(model, row)) for row in [line, *probe]]
        plays(server, f"long lines: {size} bytes", talk, "--memory", str(LARGE))
        for line in long_forms(size):
            server.answers(f"long lines: {size} bytes without LF: {line[:20]!r}", line, told(Model(LARGE), line),
                           "--memory", str(LARGE))
        server.check(f"long lines: {size} bytes: they have about this size",
                     {len(line) - size for line in long_forms(size)} <= {0, -1}, True)


# A session of each kind of request, in which each beginning of a line is a request that the model knows, or is
# rejected.
SESSION = [
    b"log on", b"write 0x10 4 0x01020304", b"  readl\t0x10 ", b"writeb 1 255", b"readb 0x11", b"writew 2 0x1234",
    b"readw 2", b"writel 0xFEB000D0 0x80", b"writel 0xFEB000C8 0x80", b"line", b"readl 0xFEB000C0",
    b"writeq 8 0x1122334455667788", b"readq 8", b"memset 4 9 200", b"read 0 32", b"endianness", b"step phy", b"restore",
    b"offer ff", b"save", b"arrive ffffffffffff", b"settle", b"events on", b"restore", b"settle", b"restore",
    b"events on", b"settle", b"interleave 0", b"pace 2", b"b64write 7 4 AAECAw==", b"b64read 6 5", b"clock_step 7",
    b"clock_set 1000", b"clock_step", b"irq_intercept_in ioapic", b"irq_intercept_out ioapic", b"outl 0xcf8 0x80002004",
    b"inl 0xcfc", b"outb 0xcfc 0", b"inw 0xcfe", b"outw 0xcfc 0x106", b"readl 0xFEB02802", b"inb 0xcfd", b"frames",
    b"faults", b"pace 0", b"", b"fly", b"read 0 65537", b"readl", b"writel 4 x", b"readb 256",
    b"\xc3\xa9", b"\xff", b"write 0xFEB02800 4 0x00010000", b"read 0xFEB02800 4", b"log off", b"readl 0xFEB02800"]


def cut_input(server):
    """The input ends after each byte of a session: complete lines are answered, and a last line without LF, too."""
    model, done = Model(MEMORY), [b"", b""]
    for line in SESSION:
        for size in range(len(line) + 1):
            answer = model.copy().answer(line[:size])[0] if size else b""
            server.answers(f"cut input: {line!r} after {size} bytes", done[0] + line[:size], done[1] + answer,
                           "--memory", str(MEMORY))
        done = [done[0] + line + b"\n", done[1] + told(model, line)]
        server.answers(f"cut input: {line!r} with its LF", *done, "--memory", str(MEMORY))


# A session in which a frame is received and a frame is sent.
FRAME = b"ff" * 60
ACTIVE = [
    (b"events on", b"OK\n"), (b"writel 0xFEB02808 128", b"OK\n"), (b"writeq 0 0x800", b"OK\n"),
    (b"writel 0xFEB02818 1", b"OK\n"), (b"writel 0xFEB00100 0x8002", b"OK\n"), (b"writel 0xFEB000D0 0x81", b"OK\n"),
    (b"arrive " + FRAME, b"OK stored\n"), (b"step rxdata", b"OK moved\n"), (b"step rxdone", b"IRQ raise 0\nOK done\n"),
    (b"readl 4272947392", b"IRQ lower 0\nOK 0x0000000000000080\n"),
    (b"read 0 16", b"OK 0x00080000000000003c00000003000000\n"),
    (b"write 0x80 16 0x00080000000000003c00000900000000", b"OK\n"), (b"writel 0xFEB03800 0x80", b"OK\n"),
    (b"writel 0xFEB03808 128", b"OK\n"), (b"writel 0xFEB00400 0xA", b"OK\n"), (b"writel 0xFEB03818 1", b"OK\n"),
    (b"step txtake", b"OK took\n"),
    (b"step txput", b"frame " + FRAME + b"\nIRQ raise 0\nOK put\n"), (b"settle", b"OK 0x0000000000000000\n")]


def cut_frames(server):
    """The input ends after each byte of a session in which frames move. If the beginning of a line is a request, it
    writes, delivers a short frame, or reads zeros.
    """
    done, beginnings = [b"", b""], {b"write": b"OK\n", b"arriv": b"OK illegal\n", b"read ": b"OK 0x00\n",
                                    b"readl": f"{ZERO}\n".encode()}
    for line, answer in ACTIVE:
        for size in range(1, len(line)):
            refusal, refused = Model(1 << 20).answer(line[:size])
            wanted = refusal if refused else beginnings[line[:5]]
            server.answers(f"cut frames: {line!r:.60} after {size} bytes", done[0] + line[:size], done[1] + wanted)
        for end in (b"", b"\n"):
            server.answers(f"cut frames: {line!r:.60} with {end!r}", done[0] + line + end, done[1] + answer)
        done = [done[0] + line + b"\n", done[1] + answer]


def all_cases(server):
    for part in [short_lines, long_lines, cut_input, cut_frames]:
        part(server)
