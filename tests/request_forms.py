"""An independent reader of request lines, written from docs/REQUESTS.md."""

import base64
import re

from server import LONGEST

KINDS = ["txtake", "txput", "rxdata", "rxdone", "eeprom", "phy"]
WIDTHS = {"b": 1, "w": 2, "l": 4, "q": 8}
# The widths of accesses to I/O ports
PORT_WIDTHS = {letter: WIDTHS[letter] for letter in "bwl"}
MOST_BYTES = 65_536
# The most steps before an access, and the most cycles after it
MOST_STEPS = MOST_ROUNDS = 65_535
LAST_PORT = 65_535
# The requests that access bytes, besides those that access a number
READS, WRITES = ("read", "b64read"), ("write", "b64write", "memset")


class Refused(Exception):
    """A line that isn't a request, with the answer to it."""


def number_in(word, most):
    """The number that a word spells. Raises Refused if it spells none, or one above `most`."""
    if re.fullmatch("[0-9]+", word):
        digits = word.lstrip("0") or "0"
        value = int(digits) if len(digits) <= 20 else 1 << 64
    elif re.fullmatch("0x[0-9a-fA-F]+", word):
        value = int(word, 16)
    else:
        raise Refused("ERR value")
    if value >= 1 << 64 or value > most:
        raise Refused("ERR value")
    return value


def size_in(word):
    value = number_in(word, (1 << 64) - 1)
    if value > MOST_BYTES:
        raise Refused("ERR size")
    return value


def hex_in(digits):
    """The bytes of an even number of hexadecimal digits. Raises Refused for other texts."""
    if not re.fullmatch("([0-9a-fA-F]{2})*", digits):
        raise Refused("ERR value")
    return bytes.fromhex(digits)


def payload_in(word):
    if not word.startswith("0x"):
        raise Refused("ERR value")
    return hex_in(word[2:])


def base64_in(word):
    """The bytes of a word in base64 (RFC 4648), with padding. The bits that no byte uses must be 0 (RFC 4648, 3.5)."""
    if not re.fullmatch("([A-Za-z0-9+/]{4})*([A-Za-z0-9+/]{2}==|[A-Za-z0-9+/]{3}=)?", word):
        raise Refused("ERR value")
    data = base64.b64decode(word)
    if base64.b64encode(data).decode() != word:
        raise Refused("ERR value")
    return data


def one_of(*choices):
    def read(word):
        if word not in choices:
            raise Refused("ERR value")
        return word
    return read


def at_most(most):
    return lambda word: number_in(word, most)


ADDRESS = NANOSECONDS = at_most((1 << 64) - 1)


def limit_in(word):
    """The limit of `choose` that a word spells, from 1 to 10^9. Raises Refused for other words."""
    limit = number_in(word, 10 ** 9)
    if limit == 0:
        raise Refused("ERR value")
    return limit


# For each request, how the words after its name are read. `clock_step` may lack its word.
FORMS = {
    **{f"read{letter}": [ADDRESS] for letter in WIDTHS},
    **{f"write{letter}": [ADDRESS, at_most((1 << 8 * size) - 1)] for letter, size in WIDTHS.items()},
    "read": [ADDRESS, size_in], "write": [ADDRESS, size_in, payload_in], "memset": [ADDRESS, size_in, at_most(255)],
    "b64read": [ADDRESS, size_in], "b64write": [ADDRESS, size_in, base64_in], "endianness": [],
    **{f"in{letter}": [at_most(LAST_PORT)] for letter in PORT_WIDTHS},
    **{f"out{letter}": [at_most(LAST_PORT), at_most((1 << 8 * size) - 1)] for letter, size in PORT_WIDTHS.items()},
    "step": [one_of(*KINDS)], "arrive": [hex_in], "offer": [hex_in], "settle": [], "line": [], "frames": [],
    "faults": [], "enabled": [], "choose": [limit_in], "target": [ADDRESS, size_in], "rings": [],
    "interleave": [at_most(MOST_STEPS)], "pace": [at_most(MOST_ROUNDS)], "clock_step": [NANOSECONDS],
    "clock_set": [NANOSECONDS],
    "log": [one_of("on", "off", "targets")], "events": [one_of("on", "off")], "wire": [one_of("full", "free")],
    "save": [], "restore": [],
    "irq_intercept_in": [str], "irq_intercept_out": [str],
}
# The values that stand for words that may be missing
DEFAULTS = {"clock_step": [0]}


def request_in(line):
    """The name and the values of a line's request."""
    if len(line) > LONGEST:
        raise Refused("ERR long")
    try:
        text = line.decode("utf-8")
    except UnicodeDecodeError:
        raise Refused("ERR text") from None
    words = [word for word in text.replace("\t", " ").split(" ") if word]
    if not words or words[0] not in FORMS:
        raise Refused("FAIL unknown")
    name, *words = words
    if not words and name in DEFAULTS:
        return name, DEFAULTS[name]
    if len(words) != len(FORMS[name]):
        raise Refused("ERR count")
    values = [read(word) for read, word in zip(FORMS[name], words)]
    if name in ("write", "b64write") and len(values[2]) != values[1]:
        raise Refused("ERR value")
    return name, values


def access_in(name, values):
    """The address, the size and the bytes of an access; the bytes are None if it reads."""
    if name in READS + WRITES:
        address, size = values[:2]
        data = None if name in READS else bytes([values[2]]) * size if name == "memset" else values[2]
    else:
        address, size = values[0], WIDTHS[name[-1]]
        data = values[1].to_bytes(size, "little") if name.startswith("write") else None
    return address, size, data


def answer_of(name, data):
    """The answer to an access: a read has read these bytes, and a write has done its work."""
    if name == "read":
        return f"OK 0x{data.hex()}"
    if name == "b64read":
        return f"OK {base64.b64encode(data).decode()}"
    return f"OK 0x{int.from_bytes(data, 'little'):016x}" if name.startswith("read") else "OK"
