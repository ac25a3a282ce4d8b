"""Tests states that are saved and restored, their digests, and frames that are offered to the server."""

from adapter_sessions import BASE, ICR, IMS, MPC, RCTL, RDLEN, RDT
from server import ONE, ZERO, lines, number

FRAME = "ffffffffffff02000000000908000000".ljust(120, "0")
LONG = FRAME.ljust(3036, "0")
KINDS = ["txtake", "txput", "rxdata", "rxdone", "eeprom", "phy"]
# A receive ring of eight descriptors at 0, one of which has a buffer, at 0x800.
RECEIVES = [(f"writel {BASE + RDLEN} 128", "OK"), ("writeq 0 0x800", "OK"), (f"writel {BASE + RDT} 1", "OK"),
            (f"writel {BASE + RCTL} 0x8002", "OK"),
            (f"writel {BASE + IMS} 0xC0", "OK")]
NOTHING = "\n".join(f"# step {kind} -> nothing" for kind in KINDS)


def restored(server):
    """`restore` brings all of the saved state back, again and again: later changes are lost."""
    server.talks("states: nothing is saved",
                 [("restore", "ERR saved"), ("writeb 0 1", "OK"), ("restore", "ERR saved"), ("readb 0", ONE)])
    server.talks("states: memory and registers", [
        ("writeb 5 7", "OK"), ("writel 0xFEB05400 9", "OK"), ("save", "OK"), ("writeb 5 8", "OK"),
        ("writel 0xFEB05400 0", "OK"), ("restore", "OK"), ("readb 5", number(7)), ("readl 0xFEB05400", number(9)),
        ("memset 0 65536 1", "OK"), ("restore", "OK"), ("readb 5", number(7)),
        ("readb 6", ZERO), ("writeb 6 1", "OK"), ("save", "OK"), ("writeb 6 2", "OK"), ("restore", "OK"),
        ("readb 6", ONE)])
    server.talks("states: packets in the adapter", [
        *RECEIVES, (f"arrive {FRAME}", "OK stored"), ("step rxdata", "OK moved"), ("save", "OK"),
        ("step rxdone", "IRQ raise 0\nOK done"), (f"readl {BASE + ICR}", "IRQ lower 0\n" + number(0x80)),
        ("restore", "OK"), ("readb 12", ZERO), ("step rxdone", "IRQ raise 0\nOK done"),
        ("readb 12", number(3)), ("step rxdone", "OK nothing")])
    server.talks("states: the EEPROM and the PHY", [
        ("writel 0xFEB00014 1", "OK"), ("writel 0xFEB00020 0x04201200", "OK"), ("writel 0xFEB00000 0x40", "OK"),
        ("save", "OK"), *[("settle", number(4)), ("readl 0xFEB00014", number(0x00020010)),
        ("readl 0xFEB00008", number(0x83)), ("settle", ZERO), ("restore", "OK"), ("readl 0xFEB00014", ZERO),
                          ("readl 0xFEB00008", number(0))] * 2],
        "--link", "2")
    server.talks("states: the log and the wire", [
        ("log on", "OK"), ("wire full", "OK"), ("save", "OK"), ("log off", "OK"), ("wire free", "OK"),
        ("readb 0", ZERO), ("restore", "OK"), ("readb 0", "# readb 0\n" + ZERO), ("log off", "OK"),
        ("memset 0x800 60 7", "OK"), ("write 0 16 0x00080000000000003c00000900000000", "OK"),
        ("writel 0xFEB03808 128", "OK"), ("writel 0xFEB00400 2", "OK"), ("writel 0xFEB03818 1", "OK"),
        ("step txtake", "OK took"),
        ("step txput", "OK wirefull")])


def lines_moved(server):
    """A restore reports a change of the interrupt line, once."""
    server.talks("states: the interrupt line", [
        ("save", "OK"), ("writel 0xFEB000D0 1", "OK"), ("writel 0xFEB000C8 1", "IRQ raise 0\nOK"),
        ("restore", "IRQ lower 0\nOK"), ("line", ZERO), ("restore", "OK"), ("readl 0", ZERO),
        ("writel 0xFEB000D0 1", "OK"), ("writel 0xFEB000C8 1", "IRQ raise 0\nOK"), ("save", "OK"), ("restore", "OK"),
        ("readl 0xFEB000C0", "IRQ lower 0\n" + ONE), ("restore", "IRQ raise 0\nOK"), ("line", ONE), ("readl 0", ZERO),
        ("readl 0xFEB000C0", "IRQ lower 0\n" + ONE), ("log on", "OK"), ("restore", "IRQ raise 0\nOK"),
        ("readl 0", ZERO)])


def generators(server):
    """The random steps after a restore are those after the save."""
    steps = ["readl 0xFEB00008", "readb 0"] * 20
    ran = server.serve(lines(["log on", "interleave 5", *steps, "save", "endianness", *steps,
                              *["restore", "endianness", *steps] * 2, "restore"]))
    parts = ran[1].decode().split("OK little\n")
    server.check("states: many steps are played", parts[1].count("# step") > 50, True)
    server.check("states: the same steps after each restore", parts[2:], [parts[1]] * 2)


def offered(server):
    """Offered frames arrive at a settle, oldest first, or by an interleaved step."""
    second = "02" * 60
    server.talks("offers: a settle", [
        ("events on", "OK"), (f"offer {FRAME}", "OK"), ("settle", f"arrived off {FRAME}\n{ZERO}"), ("settle", ZERO),
        *RECEIVES, (f"offer {FRAME.upper()}", "OK"), (f"offer {second}", "OK"), ("offer 00", "OK"), ("readb 12", ZERO),
        ("step rxdata", "OK nothing"), ("settle",
                                        f"arrived stored {FRAME}\narrived filtered {second}\narrived illegal 00\n"
                                        f"IRQ raise 0\n{number(2)}"), ("readb 12", number(3)),
        ("settle", ZERO), ("log on", "OK"), ("offer", "ERR count"), ("offer 0102", "OK"), ("offer ", "ERR count"),
        ("settle", f"# arrive 0102\narrived illegal 0102\n{NOTHING}\n{ZERO}")])
    server.talks("offers: a miss raises the line", [
        ("events on", "OK"), *RECEIVES, (f"offer {LONG}", "OK"), (f"offer {LONG}", "OK"),
        ("settle", f"arrived stored {LONG}\narrived missed {LONG}\nIRQ raise 0\n{number(2)}"),
        (f"readl {BASE + MPC}", ONE)], "--rxa", "2")
    server.talks("offers: saved and restored", [
        ("events on", "OK"), (f"offer {FRAME}", "OK"), ("save", "OK"), ("offer 01", "OK"), ("restore", "OK"),
        ("settle", f"arrived off {FRAME}\n{ZERO}"), ("settle", ZERO),
        ("restore", "OK"), ("settle", f"arrived off {FRAME}\n{ZERO}")])


def drawn(server):
    """While a frame waits, an interleaved step may be its arrival. While none waits, a seed draws the same steps as
    without offers.
    """
    reads = ["readl 0xFEB00008"] * 40
    plain = server.serve(lines(["log on", "interleave 3", *reads]), "--seed", "3")
    server.check("offers: none waits", server.serve(lines(["log on", "offer 00", "settle", "interleave 3", *reads]),
                                                    "--seed", "3")[1].split(b"\nOK\n", 2)[2],
                 plain[1].split(b"\nOK\n", 1)[1])
    ran = server.serve(lines(["events on", "log on", "interleave 3", "offer 00", "offer 01", *reads]), "--seed", "3")
    texts = ran[1].decode().split("\n")
    server.check("offers: both come between accesses, in order", [text for text in texts if text.startswith("arrived")],
                 ["arrived off 00", "arrived off 01"])
    server.check("offers: each has a line of the log before it",
                 [text for text in texts if text.startswith("# arrive")], ["# arrive 00", "# arrive 01"])
    server.check("offers: they come before accesses", texts[texts.index("arrived off 01") + 1].startswith("#"), True)
    again = ["events on", "log on", *[text.removeprefix("# ").partition(" ->")[0] for text in texts
                                      if text.startswith("#")]]
    replayed = server.serve(lines(again))[1].decode().split("\n")
    server.check("offers: the log is replayed", [text for text in replayed if text.startswith("#")],
                 [text for text in texts if text.startswith("#")])


def missed_between(server):
    """Random steps find a miss between the reads of ICR and MPC."""
    found = []
    for seed in range(60):
        ran = server.serve(lines(["events on", *(request for request, _ in RECEIVES), f"arrive {LONG}", "interleave 2",
                                  f"offer {LONG}", f"readl {BASE + ICR}",
                                  f"readl {BASE + MPC}", f"readl {BASE + ICR}"]), "--rxa", "2", "--seed", str(seed))
        answers = [text for text in ran[1].decode().split("\n") if text.startswith("OK 0x")]
        if f"arrived missed {LONG}" in ran[1].decode() and answers[1:] == [ONE, number(0x40)]:
            found.append(seed)
    server.check("offers: a seed finds a miss between the reads of ICR and MPC", found != [], True)


# Changes of one thing each: registers, memory, and what the EEPROM, the PHY and the engines are in the middle of.
CHANGES = [
    *[[f"writel {BASE + offset:#x} {value:#x}"] for offset, value in [
        (0x0000, 0x40), (0x0014, 0x1), (0x0014, 0x101), (0x0020, 0x08210000), (0x0020, 0x04201200), (0x0038, 0x9100),
        (0x00C8, 0x1), (0x00C8, 0x80), (0x00D0, 0x1), (0x0100, 0x2), (0x0100, 0x8002), (0x0400, 0x2), (0x1000, 0x8),
        (0x2800, 0x100), (0x2804, 0x1), (0x2808, 0x80), (0x2810, 0x1), (0x2818, 0x1), (0x3800, 0x100), (0x3804, 0x1),
        (0x3808, 0x80), (0x3810, 0x1), (0x3818, 0x1), (0x5200, 0x1), (0x53FC, 0x1), (0x5400, 0x1),
        (0x5404, 0x1), (0x5478, 0x1), (0x547C, 0x1), (0x5600, 0x1), (0x57FC, 0x1)]],
    *[[f"writeb {address:#x} {value}"] for address in (0, 1, 0x7FFF, 0x8000, 0xFFFF, 0xFFFFF) for value in (1, 2)],
    ["writel 0xFEB00014 0x1", "step eeprom"], ["writel 0xFEB00020 0x04201200", "step phy"],
    ["writel 0xFEB00020 0x04201200", "step phy", "step phy"],
]


def digests(server):
    """Each of the changes leads to another digest, and a restored state has its digest again. The log, events and
    offered frames don't change the digest.
    """
    asked = ["save", "digest", *sum(([*change, "digest", "restore", "digest"] for change in CHANGES), [])]
    status, out, errors = server.serve(lines(asked))
    told = [line for line in out.decode().split("\n") if line.startswith("OK 0x") and len(line) == len(ZERO)]
    server.check("digests: the session", (status, errors, len(told)), (0, b"", 1 + 2 * len(CHANGES)))
    server.check("digests: after a restore", set(told[2::2]), {told[0]})
    server.check("digests: after a change", len({told[0], *told[1::2]}), 1 + len(CHANGES))
    session = [*[request for request, _ in RECEIVES], f"arrive {FRAME}", "step rxdata", "step rxdone",
               f"arrive {FRAME}", f"readl {BASE + ICR}",
               f"arrive {FRAME[:-2]}01"]
    for name, extra in [("", []), (", with the log", ["log on"]), (", with events", ["events on"]),
                        (", after an offer", ["offer 00"])]:
        got = server.serve(lines([*extra, *sum(([request, "digest"] for request in session),
                                               [])]))[1].decode().split("\n")
        told = [line for line in got if line.startswith("OK 0x") and line not in (ZERO, number(0x80), number(1))]
        first = told if not extra else first
        server.check(f"digests: a session{name}", told, first)
    server.check("digests: each request of a session changes it", len(set(first)), len(session))
    for size in (0, 1, 7, 8, 9, 4096):
        got = [server.serve(lines(["digest", *change, "digest"]), "--memory", str(size))[1].split()
               for change in ([], ["writeb 0 1"])]
        server.check(f"digests: {size} bytes of memory", (got[0][1] == got[0][3], got[1][1] != got[1][-1]),
                     (True, size > 0))


def all_cases(server):
    for part in [digests, restored, lines_moved, generators, offered, drawn, missed_between]:
        part(server)
