"""Tests requests of the server that change nothing: the steps that would do something, names of targets, and rings."""

from adapter_sessions import (
    BASE, CTRL, EERD, ICR, MDIC, MTA, OFFERED, RAH, RDBAH, RDBAL, RDH, RDLEN, RDT, RESET, RING, SLOTS, TDBAL, TDLEN,
    TDT, arrives, reads, slot, steps, writes)
from request_forms import KINDS
from server import ZERO

# Requests that can't change anything
LOOKS = ["enabled", "target 0 1", f"target {BASE:#x} 4", "rings"]


def enabled(*kinds):
    return "enabled", " ".join(["OK", *kinds])


def target(address, size, name):
    return f"target {address:#x} {size}", f"OK {name}"


def possible(server):
    """A kind is enabled if its step would do something; the kinds come in the order of a cycle."""
    server.talks("enabled: ticks", [
        enabled(), writes(EERD, 1), enabled("eeprom"), writes(MDIC, 0x04201200), enabled("eeprom", "phy"),
        *steps(("eeprom", "ticked")), enabled("phy"), *steps(("phy", "ticked")), enabled("phy"),
        *steps(("phy", "ticked")), enabled()])
    server.talks("enabled: a frame is sent", [
        *RING, slot(60, 0x0B), enabled(), writes(TDT, 1), enabled("txtake"), *steps(("txtake", "took")),
        enabled("txput"),
        ("wire full", "OK"), enabled(), *steps(("txput", "wirefull")), ("wire free", "OK"), enabled("txput"),
        *steps(("txput", "put")), enabled()])
    server.talks("enabled: a fault is something, and stops the engine", [
        *RING, slot(0, 0x0B), writes(TDT, 1), enabled("txtake"), *steps(("txtake", "fault")), enabled(),
        writes(CTRL, RESET), enabled()])
    server.talks("enabled: a frame is received", [
        *SLOTS, *OFFERED, enabled(), arrives("stored"), enabled("rxdata"), *steps(("rxdata", "moved")),
        enabled("rxdone"),
        *steps(("rxdone", "done")), enabled()])
    server.talks("enabled: all kinds", [
        *RING, slot(60, 0x0B), slot(60, 0x0B, 1), writes(TDT, 2), *steps(("txtake", "took")), *SLOTS, *OFFERED,
        arrives("stored"),
        *steps(("rxdata", "moved")), arrives("stored"), writes(EERD, 1), writes(MDIC, 0x04201200),
        enabled("txtake", "txput", "rxdone", "eeprom", "phy"), *steps(("rxdone", "done")),
        enabled("txtake", "txput", "rxdata", "eeprom", "phy")])


def outcomes(server):
    """Each kind that is enabled does something, and no other kind does."""
    talk = [*RING, *(slot(60, 0x0B, at) for at in range(3)), writes(TDT, 3), *SLOTS, *OFFERED, arrives("stored"),
            arrives("stored"), writes(EERD, 1)]
    asked = [request for request, _ in talk]
    for at in range(12):
        tried = [request for kind in KINDS for request in (f"step {kind}", "restore")]
        asked += ["enabled", "save", *tried, f"step {KINDS[at % 4]}"]
    status, out, errors = server.serve("".join(f"{request}\n" for request in asked).encode())
    answers = [line for line in out.decode().splitlines() if not line.startswith("IRQ")]
    server.check("enabled: a run with each step", (status, len(answers), errors), (0, len(asked), b""))
    for at in range(len(talk), len(answers), 2 + 2 * len(KINDS) + 1):
        outcomes_there = zip(KINDS, answers[at + 2::2])
        did = [kind for kind, answer in outcomes_there if answer not in ("OK nothing", "OK wirefull")]
        server.check(f"enabled: at line {at + 1}", answers[at].split()[1:], did)


def names(server):
    """`target` returns the names of registers, of descriptors in both rings, and of other memory."""
    server.talks("target: registers", [
        target(BASE + ICR, 4, "ICR"), target(BASE + MTA + 20, 4, "MTA[5]"), target(BASE + RAH + 8, 4, "RAH[1]"),
        target(BASE + 0x10, 4, "register[0x10]"), target(BASE + 0x1FFFC, 4, "register[0x1fffc]")])
    server.talks("target: memory", [
        target(0x800, 1, "0x800"), writes(RDBAL, 0x800), writes(RDLEN, 128), writes(TDBAL, 0x840), writes(TDLEN, 128),
        target(0x7FF, 2, "0x7ff"), target(0x800, 16, "rx[0]"), target(0x818, 2, "rx[1]+8"),
        target(0x87F, 1, "rx[7]+15"),
        target(0x880, 0, "tx[4]"), target(0x8BF, 1, "tx[7]+15"), target(0x8C0, 1, "0x8c0"), target(0, 65536, "0x0"),
        writes(CTRL, RESET), target(0x818, 2, "0x818"), target(1 << 20, 0, "0x100000")])
    server.talks("target: refused as the access", [
        (f"target {1 << 20} 1", "ERR address"), (f"target {BASE + 1} 4", "ERR register"),
        (f"target {BASE} 2", "ERR register"),
        ("target 0 65537", "ERR size"), ("target x 1", "ERR value"), ("target 0 -1", "ERR value"),
        ("target 0", "ERR count"),
        ("target", "ERR count"), ("target 0 1 2", "ERR count"), ("target 0x10000000000000000 1", "ERR value")])
    server.talks("target: registers that have moved", [
        ("outl 0xCF8 0x80002010", "OK"), ("outl 0xCFC 0xE0000000", "OK"), ("target 0xE00000C0 4", "OK ICR"),
        (f"target {BASE + ICR} 4", "ERR address"), ("outl 0xCF8 0x80002004", "OK"), ("outw 0xCFC 0", "OK"),
        ("target 0xE00000C0 4", "ERR address")])


def ring(base, size, head, tail):
    return " ".join(f"0x{value:016x}" for value in (base, size, head, tail))


def rings(server):
    """`rings` returns the registers of both rings, as reads do, while a frame is sent and another is received."""
    none = ring(0, 0, 0, 0)
    sent, received = ring(0x80, 128, 1, 1), ring(0, 128, 1, 7)
    server.talks("rings: their registers", [
        ("rings", f"OK {none} {none}"), writes(RDBAL, 0x12345678), writes(RDBAH, 0x9ABCDEF0), writes(RDLEN, 0xFFFFFFFF),
        writes(RDH, 0x12345),
        writes(RDT, 7), ("rings", f"OK {ring(0x9ABCDEF012345670, 0xFFF80, 0x2345, 7)} {none}"), writes(CTRL, RESET),
        *RING, slot(60, 0x0B), writes(TDT, 1), ("rings", f"OK {none} {ring(0x80, 128, 0, 1)}"),
        *steps(("txtake", "took")),
        ("rings", f"OK {none} {sent}"), *steps(("txput", "put")), ("rings", f"OK {none} {sent}"),
        *SLOTS, *OFFERED, arrives("stored"), ("rings", f"OK {ring(0, 128, 0, 7)} {sent}"), *steps(("rxdata", "moved")),
        ("rings", f"OK {received} {sent}"), *steps(("rxdone", "done")), ("rings", f"OK {received} {sent}")])
    server.talks("rings: bad words", [("rings 1", "ERR count"), ("ring", "FAIL unknown")])


def targets(server):
    """After `log targets`, the line of each access ends with the name of its target. Other lines don't change."""
    asked = [writes(RDBAL, 0x800), writes(RDLEN, 128), ("read 0x810 2", "OK 0x0000"), ("memset 5 1 7", "OK"),
            ("b64read 0x81C 1", "OK AA=="),
             reads(RDH, 0), ("writeq 0 1", "OK")]
    told = ["RDBAL", "RDLEN", "rx[1]", "0x5", "rx[1]+12", "RDH", "0x0"]
    named = [(request, f"# {request} -> {name}\n{answer}") for (request, answer), name in zip(asked, told)]
    plain = [(request, f"# {request}\n{answer}") for request, answer in asked]
    server.talks("log: targets", [
        ("log targets", "OK"), *named, ("step phy", "# step phy -> nothing\nOK nothing"),
        ("arrive 00", "# arrive 00\nOK off"),
        ("log on", "OK"), *plain, ("log targets", "OK"), *named[-1:], ("log off", "OK"), *asked])
    server.talks("log: targets are refused, saved and restored", [
        ("log targets", "OK"), ("readl 0x100000", "ERR address"), ("save", "OK"), ("log on", "OK"), *plain[-1:],
        ("restore", "OK"),
        *named[-1:], ("log target", "ERR value"), ("log targets on", "ERR count"), *named[-1:]])


def quiet(server):
    """The requests of LOOKS play no steps, count no access, and change nothing."""
    talk = [*SLOTS, *OFFERED, arrives("stored"), ("interleave 9", "OK"), ("pace 9", "OK"), ("log on", "OK"),
            ("events on", "OK")]
    asked = [request for request, _ in talk]
    for looks in ([], LOOKS, LOOKS * 9):
        got = server.serve("".join(f"{request}\n" for request in [*asked, "digest", *looks, "digest"]).encode())
        answers = got[1].decode().splitlines()
        server.check(f"looks: {len(looks)} of them", (got[0], len(answers), answers[-1], got[2]),
                     (0, len(asked) + 2 + len(looks), answers[len(asked)], b""))
    server.put("schedule", b"0.2 rxdata before read ICR\n")
    server.talks("looks: they are no accesses of a schedule", [
        *((request, answer) for request, answer in [("enabled", "OK"), ("target 0xFEB000C0 4", "OK ICR"),
        ("target 0 1", "OK 0x0")]),
        ("readb 0", ZERO), ("enabled", "OK"), ("readl 0xFEB000C0", ZERO)], "--schedule", "schedule")
    server.talks("enabled: bad words", [("enabled 1", "ERR count"), ("Enabled", "FAIL unknown"),
            (f"{'enabled':>9}", "OK")])


def all_cases(server):
    for part in [possible, outcomes, names, rings, targets, quiet]:
        part(server)
