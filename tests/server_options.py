"""Tests the options of `nicbench serve`: their effects, their defaults, and arguments that are invalid."""

import re

from clap_texts import DIGITS, FOR_MORE, KILOBYTES, reason, refused
from codes import failure
from server import ZERO, lines, number

# A frame of 1,518 bytes. A receive packet buffer of 2 KB has room for one.
FRAME = "ffffffffffff02000000000908000000".ljust(3036, "0")
USAGE = b"\nUsage: nicbench serve [OPTIONS]\n" + FOR_MORE
DEFAULTS = ["--memory", "1048576", "--registers", "0xFEB00000", "--address", "02:00:00:00:00:01", "--link", "1",
            "--rxa", "48", "--seed", "0", "--missed", "0"]


def options(server):
    """Each option has its effect, and without an option its default applies."""
    asked = lines(["readl 0xFEB05400", "readl 0xFEB05404", "readl 0xFEB01000", "readb 0xFFFFF", "readb 0x100000"])
    wanted = lines([number(0x00000002), number(0x80000100), number(0x00100030), ZERO, "ERR address"])
    server.answers("options: none", asked, wanted)
    server.answers("options: the defaults", asked, wanted, *DEFAULTS)
    pairs = [f"{name}={value}" for name, value in zip(DEFAULTS[::2], DEFAULTS[1::2])]
    server.answers("options: in another order, joined to their values", asked, wanted, *reversed(pairs))
    server.answers("options: an address", asked[:34], lines([number(0x33221122), number(0x80005544)]), "--address",
                   "22:11:22:33:44:55")
    server.answers("options: a group's address", asked[:34], lines([number(0x00000001), number(0x8000FF00)]),
                   "--address", "01:00:00:00:00:FF")
    server.answers("options: zeros before numbers", asked[34:51] + b"step phy\n",
                   lines([number(0x003A0006), "OK nothing"]),
                   "--seed=007", "--rxa=06", "--link=001", "--memory=0001048576")
    server.answers("options: registers at the last place", b"readl 0xFFFFFFFFFFFFFFFF\n", lines([ZERO]), "--registers",
                   "0xFfFfFfFfFfFfFfFf")
    for kilobytes in [2, 24, 48]:
        server.answers(f"options: {kilobytes} KB", b"readl 0xFEB01000\n",
                       lines([number(64 - kilobytes << 16 | kilobytes)]), "--rxa", str(kilobytes))
    server.answers("options: no memory", b"readb 0\nread 0 0\n", lines(["ERR address", "OK 0x"]), "--memory", "0")
    server.answers("options: a byte", b"readb 0\nreadb 1\n", lines([ZERO, "ERR address"]), "--memory", "0x1")
    server.answers("options: registers at the end", b"readl 0xFFFFFFFFFFFE1000\n", lines([number(0x00100030)]),
                   "--registers", "0xFFFFFFFFFFFE0000")
    start = lines(["writel 0xFEB00020 0x04201200", "writel 0xFEB00000 0x40"])
    # A tick ends the command of MDIC, and then ticks are counted.
    for link, ticks, status in [("1", 2, 0x83), ("3", 4, 0x83), ("65535", 65536, 0x83), ("never", 1, 0)]:
        wanted = lines(["OK", "OK", number(ticks), number(status)])
        server.answers(f"options: a link after {link}", start + b"settle\nreadl 0xFEB00008\n", wanted, "--link", link)
    for missed, later in [("7", 8), ("4294967294", 0xFFFFFFFF), ("4294967295", 0xFFFFFFFF)]:
        talk = [("readl 0xFEB04010", number(int(missed))), ("readl 0xFEB04010", ZERO)]
        server.talks(f"options: {missed} missed packets", talk, "--missed", missed)
        server.talks(f"options: {missed} missed packets, and one more", [
            ("writel 0xFEB00100 0x8002", "OK"), (f"arrive {FRAME}", "OK stored"), (f"arrive {FRAME}", "OK missed"),
            ("readl 0xFEB04010", number(later)), ("readl 0xFEB04010", ZERO)], "--missed", missed, "--rxa", "2")
    for size in ["0x100000000000", "18446744073709551615"]:
        server.check(f"options: {size} bytes of memory", server.serve(b"readl 0\n", "--memory", size),
                     (4, b"", b"nicbench: E57 Memory\n"))


def images(server):
    """The words of the EEPROM may come from a file, with any checksum. A file that isn't an image is refused."""
    data = bytes(range(128))
    server.put("words", data)
    asked = [(f"writel 0xFEB00014 {1 | place << 8}", "step eeprom", "readl 0xFEB00014") for place in range(64)]
    wanted = [("OK", "OK ticked", number(int.from_bytes(data[2 * place:2 * place + 2], "little") << 16 | place << 8
                                         | 0x10)) for place in range(64)]
    asked += [("readl 0xFEB05400", "readl 0xFEB05404")]
    wanted += [(number(0x03020100), number(0x80000504))]
    server.answers("images: all words", lines(sum(asked, ())), lines(sum(wanted, ())), "--image", "words")
    for name, size in [("none", 0), ("short", 127), ("long", 129), ("longer", 1_000_000)]:
        server.put(name, bytes(size))
        server.check(f"images: {size} bytes", server.serve(b"readl 0\n", "--image", name),
                     (1, b"", b"nicbench: E58 Image\n"))
    for name, fault in [("missing", "E68 Open: missing"), (".", "E66 Read"), ("/dev/zero", "E68 Open: /dev/zero")]:
        server.check(f"images: {name}", server.serve(b"readl 0\n", "--image", name), (3, b"", failure(fault, name)))
    both = (b"error: invalid value 'words' for '--image <FILE>': the file contains the address, so --address can't be "
            b"used with it\n")
    for order in [("--image=words", "--address=02:00:00:00:00:01"), ("--address=02:00:00:00:00:01", "--image=words")]:
        server.check(f"images: {order}", server.serve(b"readl 0\n", *order), (2, b"", both + FOR_MORE))
    server.check("images: twice", server.serve(b"", "--image=a", "--image=a"),
                 (2, b"", b"error: the argument '--image <FILE>' cannot be used multiple times\n" + USAGE))
    server.check("images: without a value", server.serve(b"", "--image"),
                 (2, b"", b"error: a value is required for '--image <FILE>' but none was supplied\n" + FOR_MORE))


VALUES = {
    "--memory <BYTES>": (b"bytes are a decimal number below 2^64, or a hexadecimal one after 0x, such as 0x100000",
                         ["", "x", "1k", "+1", "0x", "0X1", "0x+1", "0x1g", "1x1", "18446744073709551616",
                          "0x10000000000000000"]),
    "--registers <ADDRESS>": (b"an address is a decimal number below 2^64, or a hexadecimal one after 0x, such as "
                              b"0xFEB00000",
                              ["", "FEB00000", "0xFEB0000g", "18446744073709551616"]),
    "--address <A>": (b"an address is six pairs of hexadecimal digits joined by colons, such as 02:00:00:00:00:01",
                      ["", "02:00:00:00:00", "02-00-00-00-00-01"]),
    "--link <N|never>": (b"ticks are a decimal number from 1 to 65535, such as 1, or 'never'",
                         ["", "0", "65536", "Never", "0x1", "+1"]),
}
# The numbers within bounds: the least and the greatest number, the form, and invalid values.
NUMBERS = {
    "--rxa <N>": (2, 48, KILOBYTES, ["", "0", "1", "3", "47", "49", "50", "258", "18446744073709551618", "0x10", "+8"]),
    "--seed <N>": (0, 2**64 - 1, DIGITS, ["", "x", "0x7", "+7", "+", "18446744073709551616"]),
    "--missed <N>": (0, 2**32 - 1, DIGITS, ["", "x", "0x7", "+7", "-1", "4294967296"]),
}


def words(server):
    """After invalid arguments, the status is 2, and the expected text is on standard error. No request is read."""
    cases = {name: [(value, form) for value in values] for name, (form, values) in VALUES.items()}
    cases |= {name: [(value, reason(value, least, most, form)) for value in values]
              for name, (least, most, form, values) in NUMBERS.items()}
    for name, refusals in cases.items():
        option = name.split()[0]
        for value, why in refusals:
            server.check(f"words: {option} {value!r}", server.serve(b"readl 0\n", f"{option}={value}"),
                         (2, b"", refused(value, name, why)))
        server.check(f"words: {option} twice", server.serve(b"", f"{option}=2", f"{option}=2"),
                     (2, b"", f"error: the argument '{name}' cannot be used multiple times\n".encode() + USAGE))
        server.check(f"words: {option} without a value", server.serve(b"", option),
                     (2, b"", f"error: a value is required for '{name}' but none was supplied\n".encode() + FOR_MORE))
    server.check("words: a file", server.serve(b"", "a"), (2, b"", b"error: unexpected argument 'a' found\n" + USAGE))
    bad = ["--rxa=3", "--link=0", "--address=y", "--registers=z", "--memory=w"]
    server.check("words: of several bad values the first that clap refuses",
                 server.serve(b"", *bad, "--seed=x", "--missed=x"),
                 (2, b"", refused("x", "--seed <N>", b"invalid digit found in string")))
    status, out, errors = server.serve(b"", "--seed=+7", *bad)
    server.check("words: of several other bad values the first in the order of the help",
                 (status, out, errors.split(b":")[1]),
                 (2, b"", b" invalid value 'w' for '--memory <BYTES>'"))


def defaults_shown(server):
    """The help states the defaults that `options` tests."""
    told = re.findall(r"^ +(--[a-z]+) .*\[(.*)\]$", server.run("serve", "--help").stderr.decode(), re.M)
    server.check("defaults: of the help", [word for pair in told for word in pair], DEFAULTS)


def all_cases(server):
    for part in [options, images, words, defaults_shown]:
        part(server)
