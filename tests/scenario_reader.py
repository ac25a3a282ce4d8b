"""An independent reader of scenarios and traces: the answers that `nicbench run` and `nicbench pass` have to give."""

import re
import struct

MOST_BYTES = 8192
MOST_DIGITS = 8000
MOST_RANDOM_EVENTS = 1000000
LAST_TICK_OF_LINK = 2000
MOST_FILE_NAME = 255
U8, U16, U64 = 2**8 - 1, 2**16 - 1, 2**64 - 1
WORD, COUNT, VALUE, NAME, ORDER, LONG, TEXT = ("E50 Word", "E51 Count", "E52 Value", "E53 Name", "E54 Order",
                                               "E55 Long", "E56 Text")
HEADER, MAGIC, VERSION, LINK_TYPE, RECORD, READ, OPEN = ("E60 Header", "E61 Magic", "E62 Version", "E63 LinkType",
                                                         "E64 Record", "E66 Read",
                                                         "E68 Open")
# How many words each kind of line has, without ticks and options.
WORDS = {"host": 4, "group": 3, "vlan": 3, "socket": 3, "send": 3, "recv": 3, "interrupt": 2, "join": 3, "leave": 3,
         "reset": 2, "tick": 2,
         "feed": 3, "auto": 3, "drain": 2}
SETUP = {"host", "group", "vlan", "socket"}
CALLS = {"send", "recv", "interrupt", "join", "leave", "reset"}
# The options of a host that have values, each with its default and its greatest number.
OPTIONS = {"rx": (8, U16), "tx": (8, U16), "buffers": (16, U16), "rxa": (48, U8), "link": (1, U16)}
STEPS = {"txtake", "txput", "rxdata", "rxdone", "eeprom", "phy", "deliver"}
ROOM = {"socket": 8, "group": 32, "vlan": 32}
ADDRESS = re.compile("[0-9a-fA-F]{2}(:[0-9a-fA-F]{2}){5}")
FILE_HEADER_BYTES, PACKET_HEADER_BYTES = 24, 16
MAGICS = (0xA1B2C3D4, 0xA1B23C4D)
MOST_CAPTURED = 262144
SHORTEST_FRAME, LONGEST_FRAME = 14, 1518


class Fault(Exception):
    """A line is invalid. The exception's argument is the code and the name of the fault."""


class Host:
    """What the lines of a host have set up."""

    def __init__(self, name, address, wire, options):
        self.name, self.wire = name, wire
        self.address = bytes.fromhex(address.replace(":", ""))
        self.options = options
        self.has = {kind: [] for kind in ROOM}


def lines_of(text):
    """The lines of a text, without their ends. A CR is part of an end only before an LF."""
    *ended, last = text.split(b"\n")
    return [line.removesuffix(b"\r") for line in ended] + ([last] if last else [])


def require(condition, fault):
    if not condition:
        raise Fault(fault)


def number(word, most):
    """The decimal number of a word. Raises Fault if the word is no such number, or a greater one than `most`."""
    digits = word.lstrip("0") or "0"
    require(re.fullmatch("[0-9]+", word) and len(digits) <= len(str(most)) and int(digits) <= most, VALUE)
    return int(digits)


def options_of(words):
    """The options of a host: pairs of a word and its value, which is None unless the word is one of OPTIONS."""
    found, rest = [], list(words)
    while rest:
        word = rest.pop(0)
        require(word not in OPTIONS or rest, COUNT)
        found.append((word, rest.pop(0) if word in OPTIONS else None))
    known = [word for word, _ in found if word in OPTIONS or word == "promiscuous"]
    require(len(known) == len(set(known)), COUNT)
    return found


def option_values(found):
    """The options of a host as numbers. The link is None if it is never up."""
    values = {word: default for word, (default, _) in OPTIONS.items()}
    for word, value in found:
        require(word in OPTIONS or word == "promiscuous", VALUE)
        if (word, value) == ("link", "never"):
            values["link"] = None
        elif word in OPTIONS:
            values[word] = number(value, OPTIONS[word][1])
    return values


def host_of_tick(word):
    """The host that a tick names, or None for go."""
    if word == "go":
        return None
    step, colon, host = word.partition(":")
    require(colon and step in STEPS, VALUE)
    return host


class Scenario:
    """The hosts and traces of a text up to its first faulty line. The number of this line and its fault are in `fault`,
    which is None without one.
    """

    def __init__(self, text):
        self.hosts, self.traces, self.fault, self.has_event = {}, [], None, False
        for place, line in enumerate(lines_of(text)):
            try:
                self.read(line)
            except Fault as fault:
                self.fault = (place + 1, fault.args[0])
                return

    def read(self, line):
        require(len(line) <= MOST_BYTES, LONG)
        try:
            words = [word for word in re.split("[ \t]+", line.decode("utf-8")) if word]
        except UnicodeDecodeError:
            raise Fault(TEXT) from None
        if not words or words[0].startswith("#"):
            return
        kind, ticks = words[0], []
        require(kind in WORDS, WORD)
        if kind in CALLS and "/" in words:
            slash = words.index("/")
            words, ticks = words[:slash], words[slash + 1:]
        require(len(words) == WORDS[kind] or kind == "host" and len(words) > WORDS[kind], COUNT)
        if kind == "host":
            self.read_host(*words[1:4], options_of(words[4:]))
        elif kind in SETUP:
            self.read_setup(*words)
        else:
            self.read_event(kind, words[1:], ticks)

    def read_host(self, name, address, wire, options):
        require(ADDRESS.fullmatch(address), VALUE)
        values = option_values(options)
        require(name not in self.hosts, NAME)
        require(not self.has_event, ORDER)
        self.hosts[name] = Host(name, address, wire, values)

    def read_setup(self, kind, host, value):
        """A line group, vlan or socket."""
        if kind == "group":
            require(ADDRESS.fullmatch(value), VALUE)
            value = int(value[:2], 16)
        elif kind == "vlan":
            value = number(value, U16)
        else:
            require(value == "all" or re.fullmatch("[0-9a-fA-F]{4}", value), VALUE)
        require(host in self.hosts and len(self.hosts[host].has[kind]) < ROOM[kind], NAME)
        require(not self.has_event, ORDER)
        self.hosts[host].has[kind].append(value)

    def read_event(self, kind, words, ticks):
        if kind == "send":
            require(re.fullmatch("([0-9a-fA-F]{2})*", words[1]) and len(words[1]) <= MOST_DIGITS, VALUE)
        elif kind == "recv":
            number(words[1], U64)
        elif kind in ("join", "leave"):
            require(ADDRESS.fullmatch(words[1]), VALUE)
        elif kind == "auto":
            number(words[0], MOST_RANDOM_EVENTS)
            number(words[1], U64)
        named = [] if kind in ("tick", "auto") else words[:1]
        named += [host_of_tick(word) for word in (words if kind == "tick" else ticks)]
        require(all(host is None or host in self.hosts for host in named), NAME)
        self.has_event = True
        if kind == "feed":
            self.traces.append(words[1])

    def files(self, has_wires):
        """The files of sockets, and of wires if they are asked for, that are created; and the one that can't be, or
        None.
        """
        hosts = self.hosts.values()
        names = [f"{host.name}.{place}.pcap" for host in hosts for place in range(len(host.has["socket"]))]
        names += [f"{wire}.pcap" for wire in dict.fromkeys(host.wire for host in hosts)] if has_wires else []
        made = []
        for name in names:
            if "/" in name or "\0" in name or len(name.encode()) > MOST_FILE_NAME:
                return made, name
            made.append(name.encode())
        return made, None

    def plan_fault(self):
        """The first reason to reject the hosts, or None."""
        hosts = list(self.hosts.values())
        wires, addresses = [host.wire for host in hosts], [host.address for host in hosts]
        if not all(re.fullmatch("[a-z0-9_-]{1,16}", name) for host in hosts for name in (host.name, host.wire)):
            return "E40 Name"
        if not all(2 <= wires.count(wire) <= 8 for wire in wires):
            return "E41 Ends"
        if not 2 <= len(hosts) <= 16:
            return "E42 Hosts"
        if len(set(addresses)) < len(hosts) or any(address[0] % 2 for address in addresses):
            return "E43 Address"
        if not all(map(is_configured, hosts)):
            return "E44 Config"
        links = [host.options["link"] for host in hosts]
        return "E46 Init: E14 NoLink" if any(link is None or link > LAST_TICK_OF_LINK for link in links) else None


def is_configured(host):
    """Whether the options, groups and VLANs of a host are valid."""
    rx, tx, buffers, rxa, link = (host.options[word] for word in OPTIONS)
    rings = all(count % 8 == 0 and 8 <= count <= 4096 for count in (rx, tx))
    room = rx <= buffers <= 8192 and rxa % 2 == 0 and 2 <= rxa <= 48 and link != 0
    return rings and room and all(first % 2 for first in host.has["group"]) and all(vlan <= 4095
                                                                                    for vlan in host.has["vlan"])


class TraceRead:
    """The fault of a trace, or None; and its frames, the number of its truncated packets, and whether it ends inside a
    packet.
    """

    def __init__(self, data):
        self.frames, self.skipped, self.is_cut = [], 0, False
        self.fault = self.header_fault(data) or self.packet_fault(data)

    def header_fault(self, data):
        if len(data) < FILE_HEADER_BYTES:
            return HEADER
        orders = [order for order in "<>" for magic in MAGICS if struct.pack(order + "I", magic) == data[:4]]
        if not orders:
            return MAGIC
        self.order = orders[0]
        if struct.unpack(self.order + "HH", data[4:8]) != (2, 4):
            return VERSION
        return None if struct.unpack(self.order + "I", data[20:24]) == (1,) else LINK_TYPE

    def packet_fault(self, data):
        """Reads packets until the data ends, or a packet is too long. Returns the fault, or None."""
        place = FILE_HEADER_BYTES
        while place < len(data) and not self.is_cut:
            begin = place + PACKET_HEADER_BYTES
            header = data[place:begin]
            captured, original = struct.unpack(self.order + "8xII", header.ljust(PACKET_HEADER_BYTES, b"\0"))
            place = begin + captured
            self.is_cut = place > len(data)
            if captured > MOST_CAPTURED and len(header) == PACKET_HEADER_BYTES:
                return RECORD
            if captured < original and not self.is_cut:
                self.skipped += 1
            elif not self.is_cut:
                self.frames.append(data[begin:place])
        return None

    def passed(self):
        """The line that `pass` prints without a filter, and the frames that it writes, with their numbers."""
        legal = [(place, frame) for place, frame in enumerate(self.frames)
                 if SHORTEST_FRAME <= len(frame) <= LONGEST_FRAME]
        counts = (len(self.frames), self.skipped, len(self.frames) - len(legal), len(legal),
                  "yes" if self.is_cut else "no")
        return b"read %d skipped %d illegal %d filtered 0 written %d cut %s\n" % (*counts[:4],
                                                                                  counts[4].encode()), legal
