"""Tests I/O ports, PCI configuration space, and the registers whose address it determines. The values are those of
docs/REQUESTS.md.
"""

from adapter_sessions import BASE, ICR, ICS, IMS, VET, reads, writes
from server import ONE, ZERO, number

# The value of the address port that selects the first double word of device 4, function 0, on bus 0
OURS = 0x80002000
ONES = {"b": 0xFF, "w": 0xFFFF, "l": 0xFFFFFFFF}
COMMAND, CLASS, BAR0, SUBSYSTEM, LINE = 0x04, 0x08, 0x10, 0x2C, 0x3C
# The double words that aren't 0 at the start
FIRST = {0: 0x100E8086, COMMAND: 0x02200006, CLASS: 0x02000002, BAR0: BASE, SUBSYSTEM: 0x001E8086, LINE: 0x00FF0100}
IS_ASSERTED = 1 << 19


def selects(offset):
    return f"outl 0xCF8 {OURS + offset:#x}", "OK"


def shows(offset, word):
    """The rows that read a double word of configuration space."""
    return [selects(offset), ("inl 0xCFC", number(word))]


def sets(offset, word):
    return [selects(offset), (f"outl 0xCFC {word:#x}", "OK")]


def space(server):
    """Configuration space has the expected values at the start, and some of its bits can be written."""
    server.talks("ports: configuration space at the start", [
        row for offset in range(0, 256, 4) for row in shows(offset, FIRST.get(offset, 0))])
    kept = {COMMAND: 0x02200157, BAR0: 0xFFFE0000, LINE: 0x00FF01FF}
    server.talks("ports: the bits that can be written", [
        *(row for offset in range(0, 256, 4) for row in sets(offset, 0xFFFFFFFF)),
        *(row for offset in range(0, 256, 4) for row in shows(offset, kept.get(offset, FIRST.get(offset, 0)))),
        *(row for offset in range(0, 256, 4) for row in sets(offset, 0)),
        *(row for offset in range(0, 256, 4) for row in shows(offset,
        {COMMAND: 0x02200000, BAR0: 0, LINE: 0x00FF0100}.get(offset, FIRST.get(offset, 0))))])
    server.talks("ports: the status shows the interrupt line", [
        *shows(COMMAND, 0x02200006), writes(IMS, 4), writes(ICS, 4, "IRQ raise 0\n"),
        *shows(COMMAND, 0x02200006 | IS_ASSERTED), ("inw 0xCFE", number(0x0228)),
        ("inb 0xCFE", number(0x28)), reads(ICR, 4, "IRQ lower 0\n"), *shows(COMMAND, 0x02200006)])


def lanes(server):
    """Bytes and words of a double word can be read and written."""
    server.talks("ports: reads of bytes and words", [
        selects(0), *((f"inb {0xCFC + lane:#x}", number(0x100E8086 >> 8 * lane & 0xFF)) for lane in range(4)),
        *((f"inw {0xCFC + lane:#x}", number(0x100E8086 >> 8 * lane & 0xFFFF)) for lane in range(3)),
        ("inw 0xCFF", number(0xFFFF)),
        *((f"inl {0xCFC + lane:#x}", number(0xFFFFFFFF)) for lane in (1, 2, 3)), ("inl 3324", number(0x100E8086))])
    server.talks("ports: writes of bytes and words", [
        selects(LINE), ("outb 0xCFC 11", "OK"), ("inl 0xCFC", number(0x00FF010B)), ("outb 0xCFD 2", "OK"),
        ("outb 0xCFE 0", "OK"), ("outw 0xCFE 0", "OK"),
        ("inl 0xCFC", number(0x00FF010B)), ("outw 0xCFC 0xABCD", "OK"), ("inl 0xCFC", number(0x00FF01CD)),
        ("outw 0xCFF 0", "OK"), ("outl 0xCFD 0", "OK"),
        ("inl 0xCFC", number(0x00FF01CD)), selects(BAR0), ("outb 0xCFF 0xE0", "OK"), ("inl 0xCFC", number(0xE0B00000)),
        ("outw 0xCFE 0x1235", "OK"),
        ("inl 0xCFC", number(0x12340000)), ("outb 0xCFD 0xFF", "OK"), ("inl 0xCFC", number(0x12340000)),
        ("readl 0x12340038", number(0x8100)),
        selects(COMMAND), ("outw 0xCFC 0xFFFF", "OK"), ("inl 0xCFC", number(0x02200157)), ("outb 0xCFC 2", "OK"),
        ("inl 0xCFC", number(0x02200102)),
        ("outb 0xCFD 0", "OK"), ("inl 0xCFC", number(0x02200002))])


def other_ports(server):
    """The address port keeps the bits that are stored. Other ports, other functions, and narrow accesses of the address
    port read as ones, and ignore writes.
    """
    server.talks("ports: the address", [
        ("inl 0xCF8", ZERO), ("outl 0xCF8 0xFFFFFFFF", "OK"), ("inl 0xCF8", number(0x80FFFFFC)), ("outb 0xCF8 0", "OK"),
        ("outw 0xCFA 0", "OK"),
        ("inl 0xCF8", number(0x80FFFFFC)), *((f"in{letter} {port}", number(ONES[letter])) for letter, port in [
            ("b", "0xCF8"), ("w", "0xCF8"), ("b", "0xCFB"), ("l", "0xCF9"), ("l", "0xCF4")]), ("outl 0xCF8 0", "OK"),
            ("inl 0xCF8", ZERO)])
    for name, address in [("bit 31 is 0", 0x2000), ("bus 1", 0x80012000), ("device 0", 0x80000000),
        ("device 3", 0x80001800), ("device 5", 0x80002800),
                          ("device 20", 0x8000A000), ("function 1", 0x80002100), ("function 7", 0x80002700)]:
        server.talks(f"ports: no function: {name}", [
            (f"outl 0xCF8 {address + LINE:#x}", "OK"), ("inl 0xCFC", number(0xFFFFFFFF)), ("inw 0xCFC", number(0xFFFF)),
            ("inb 0xCFF", number(0xFF)),
            ("outl 0xCFC 0x55", "OK"), ("inl 0xCFC", number(0xFFFFFFFF)), *shows(LINE, 0x00FF0100)])
    server.talks("ports: other ports", [
        row for letter, ones in ONES.items() for port in ("0", "0x80", "0xCFB", "0xD00", "65535") for row in [
        (f"out{letter} {port} {ones}", "OK"), (f"in{letter} {port}", number(ones))]] + [("readb 0", ZERO)])
    server.talks("ports: words that are rejected", [
        ("inb 65536", "ERR value"), ("outb 65536 0", "ERR value"), ("outb 0 256", "ERR value"),
        ("outw 0 65536", "ERR value"), ("outl 0 4294967296", "ERR value"),
        ("inl x", "ERR value"), ("inl", "ERR count"), ("inl 0 0", "ERR count"), ("outl 0", "ERR count"),
        ("outl 0 0 0", "ERR count"), ("inq 0", "FAIL unknown"),
        ("outq 0 0", "FAIL unknown")])


def places(server):
    """BAR0 determines the address of the registers. If the command register disables memory space, no access goes to
    a register.
    """
    kept = writes(VET, 0x1234)
    server.talks("ports: the registers move", [
        kept, *sets(BAR0, 0xE0000000), (f"readl {0xE0000000 + VET:#x}", number(0x1234)),
        (reads(VET, 0)[0], "ERR address"), ("readb 0xE001FFFF", "ERR register"),
        ("readl 0xE0020000", "ERR address"), *sets(BAR0, BASE | 0x1FFFF), *shows(BAR0, BASE), reads(VET, 0x1234)])
    server.talks("ports: the size of the registers", [
        *sets(BAR0, 0xFFFFFFFF), *shows(BAR0, 0xFFFE0000), (f"readl {0xFFFE0000 + VET:#x}", number(0x8100))])
    server.talks("ports: registers over memory", [
        *sets(BAR0, 0), (f"readl {VET}", number(0x8100)), (f"writeb {VET} 7", "OK"), (f"readl {VET}", number(0x8100)),
        (f"readb {VET}", number(7)),
        *sets(BAR0, BASE), (f"readl {VET}", number(7))])
    server.talks("ports: no memory space", [
        kept, *sets(COMMAND, 4), (reads(VET, 0)[0], "ERR address"), (writes(VET, 0)[0], "ERR address"),
        (f"readb {BASE + VET:#x}", "ERR address"), ("line", ZERO),
        *sets(BAR0, 0), ("readl 0x38", ZERO), ("writel 0x38 5", "OK"), ("readl 0x38", number(5)),
        *sets(BAR0, 0xE0000000), *sets(COMMAND, 2),
        ("readl 0xE0000038", number(0x1234)), ("readl 0x38", number(5))])
    for command in 0x0000, 0x0101, 0x0154, 0x0155:
        server.talks(f"ports: command {command:#x}", [
            *sets(COMMAND, command), *shows(COMMAND, 0x02200000 | command), (reads(VET, 0)[0], "ERR address")])
    server.talks("ports: the interrupt line without memory space", [
        writes(IMS, 4), writes(ICS, 4, "IRQ raise 0\n"), *sets(COMMAND, 0), ("line", ONE),
        *shows(COMMAND, 0x02200000 | IS_ASSERTED), *sets(COMMAND, 6),
        reads(ICR, 4, "IRQ lower 0\n")])
    for place, bar in [("0x123456789ABCDEF0", 0x9ABC0000), ("2", 0), ("0xFFFFFFFF", 0xFFFE0000)]:
        first = int(place, 16)
        server.talks(f"ports: BAR0 at --registers {place}", [
            *shows(BAR0, bar), (f"readl {first + VET:#x}", number(0x8100)), *sets(LINE, 5),
            (f"readl {first + VET:#x}", number(0x8100)), *sets(BAR0, bar),
            (f"readl {bar + VET:#x}", number(0x8100)), *([] if first + VET < 1 << 20 else [(f"readl {first + VET:#x}",
            "ERR address")])], "--registers", place)


def refusals(server):
    """Accesses are refused with `ERR register` if they touch a register, and otherwise with `ERR address`."""
    wrong = [("readb 0xFEB00000", 1), ("readw 0xFEB00002", 2), ("readq 0xFEB00000", 8), ("readl 0xFEB00001", 4),
        ("readl 0xFEB1FFFD", 4), ("readb 0xFEB1FFFF", 1),
             ("readl 0xFEAFFFFD", 4), ("readq 0xFEAFFFF9", 8), ("read 0xFEB05400 3", 3), ("read 0xFEB05400 8", 8),
             ("read 0xFEA00000 65536", 0),
             ("read 0xFEAF0000 65536", 0), ("read 0xFEAF0001 65536", 1), ("b64read 0xFEB05400 5", 5),
             ("read 0xFEB05400 0", 0), ("readl 0xFEB20000", 0),
             ("readw 0xFEB1FFFF", 2), ("readq 0xFEAFFFF8", 0), ("readl 0xFEAFFFFC", 0)]
    server.talks("registers: refusals of reads", [
        (request, "ERR register" if touched else "ERR address") for request, touched in wrong])
    server.talks("registers: refusals of writes", [
        ("writeb 0xFEB05400 1", "ERR register"), ("writew 0xFEB05402 1", "ERR register"),
        ("writeq 0xFEB05400 1", "ERR register"),
        ("write 0xFEB05400 1 0x00", "ERR register"), ("b64write 0xFEB05400 1 AQ==", "ERR register"),
        ("memset 0xFEB05400 65536 0", "ERR register"),
        ("memset 0xFEB20000 1 0", "ERR address"), ("writel 0xFEB05402 1", "ERR register"),
        ("readl 0xFEB05400", number(2))])
    server.talks("registers: refusals over memory", [
        ("readb 0x5400", ZERO), ("readq 0x5400", ZERO), ("read 0x1FFFE 4", "OK 0x00000000"),
        ("readq 0xFFFFC", "ERR address"), ("readl 0x5400", number(2))],
        "--registers", "0")
    server.talks("registers: refusals across the end of memory", [
        ("readb 0xFFFFF", ZERO), ("readw 0xFFFFF", "ERR register"), ("readb 0x100000", "ERR register"),
        ("read 0xFFFFF 2", "ERR register"),
        ("read 0xFFFFF 0", "OK 0x"), ("read 0x100001 0", "ERR address")], "--registers", "0x100000")
    server.talks("registers: refusals past the end of registers", [
        ("readq 0xFFFFFFFFFFFFFFFD", "ERR register"), ("readl 0xFFFFFFFFFFFFFFFC", ZERO),
        ("readb 0xFFFFFFFFFFFDFFFF", "ERR address")],
        "--registers", "0xFFFFFFFFFFFE0000")


def restored(server):
    """`save` keeps both ports and configuration space."""
    server.talks("ports: saved and restored", [
        *sets(BAR0, 0xE0000000), *sets(LINE, 9), ("save", "OK"), *sets(BAR0, 0), *sets(COMMAND, 0), *sets(LINE, 3),
        ("restore", "OK"),
        ("inl 0xCF8", number(OURS + LINE)), ("inb 0xCFC", number(9)), *shows(COMMAND, 0x02200006),
        *shows(BAR0, 0xE0000000), ("readl 0xE0000038", number(0x8100))])


def all_cases(server):
    for part in [space, lanes, other_ports, places, refusals, restored]:
        part(server)
