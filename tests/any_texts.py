"""Tests scenarios and traces of any bytes: each answer of the built program is the one that scenario_reader.py
computes.
"""

import os
import random
import re
import stat

from codes import failure
from pcap_files import FILE_HEADER, packet, trace, written
from scenario_reader import (CALLS, LONGEST_FRAME, MOST_BYTES, MOST_CAPTURED, OPEN, READ, SETUP, SHORTEST_FRAME, STEPS,
                             WORDS, Scenario,
                             TraceRead)
from scenarios import ANY_WARNING, folder, refusal, word_of

FRAME = "0200000000020200000000010800"
TRACE = "t.pcap"
# A line of each kind, with each option and each tick.
BASE = f"""# three hosts, and a fourth on another wire with a fifth
host a 02:00:00:00:00:01 w rx 16 tx 24 buffers 32 rxa 8 link 2 promiscuous
host b 02:00:00:00:00:02 w link 2000
 host\tc  02:00:00:00:00:aF w\t
host d 02:00:00:00:00:04 v-1 rxa 48
host e 02:00:00:00:00:05 v-1

group b 01:00:5e:00:00:01
vlan c 4095
socket b 88b5
socket b all
socket e all\r
\t# the events\r
\r
send a {FRAME} / txtake:a go go txput:a
send d {FRAME}
tick txtake:d
tick txput:d
tick deliver:e
tick rxdata:e
tick rxdone:e
join e 01:00:5e:00:00:01 / deliver:e go
leave e 01:00:5e:00:00:01
interrupt e / eeprom:e phy:e go
reset e / deliver:e go rxdone:e
recv e 0 / go
interrupt b / deliver:b go rxdata:b rxdone:b
recv b 18446744073709551615 /
feed a {TRACE}
auto 20 7
drain b
tick go
drain e""".encode()
# Bytes that separate, end or form words, or aren't text.
SPECIAL = b"\0\t\n\x0b\x0c\r  ##//::09afFgG+-._x\x7f\x80\x85\xa0\xbf\xc0\xc3\xe2\xed\xef\xf0\xf4\xf8\xff"
# Bytes that aren't UTF-8: single bytes, cut characters, overlong forms, a surrogate, and numbers above 10FFFF.
NOT_TEXT = [b"\xff", b"\x80", b"\xc3", b"\xe2\x82", b"\xf0\x9f\x98", b"\xc0\xaf",
            b"\xe0\x80\xaf", b"\xed\xa0\x80", b"\xf4\x90\x80\x80", b"\xf8\x88\x80\x80\x80"]
# Characters that aren't ASCII. Some of them are white space, but don't separate the words of a scenario.
CHARACTERS = ["\u00e9", "\u0085", "\u00a0", "\u0661", "\u2028", "\u3000", "\ufeff", "\uffff", "\U0010ffff"]
LINE_FAULTS = {"E50 Word", "E51 Count", "E52 Value", "E53 Name", "E54 Order", "E55 Long", "E56 Text"}
# The words of random lines: a number N, and a list whose first N words are valid. NAMES and BAD_TICKS are only lists.
NAMES = ["A", "a.b", "x" * 16, "x" * 17, "/", "a/b", "#", "..", "\u00e9", "\0", "n" * 249, "n" * 248]
ADDRESSES = 5, ["02:00:00:00:00:05", "02:00:00:00:00:06", "02:00:00:00:00:07", "02:00:00:00:00:08", "fE:fF:fF:fF:fF:fF",
                "02:00:00:00:00:01", "01:00:5e:00:00:01", "02-00-00-00-00-01", "02:00:00:00:00:1", "020000000001"]
GROUPS = 2, ["01:00:5e:00:00:01", "fF:fF:fF:fF:fF:fF", "02:00:00:00:00:01", "01:00:5e:00:00"]
WIRES = 1, ["w", "v-1", "W", "#", "/", "a/b", "n" * 250, "n" * 251, "b.0"]
NUMBERS = 3, ["1", "2", "007", "0", "256", "4096", "65536", "+8", "-1", "8.", "0x8", "1000001", "\u0661", "1" * 30,
              "0" * 30 + "8", "18446744073709551615", "18446744073709551616"]
VLANS = 2, ["5", "4095", "4096", "65535", "65536", "x"]
ETHER_TYPES = 4, ["all", "0800", "88b5", "fFfF", "800", "00800", "All", "+800", "0x08"]
FRAMES = 6, [FRAME, "00", FRAME.upper(), "f" * 3036, "f" * 3038, "ff" * 4000, "ff" * 4001, "0", "0g", "-"]
BAD_TICKS = ["go:a", "Go", "txtake", ":a", "tick:a", "rxdata:", "rxdata:a:b", "phy:f", "/"]
PATHS = 4, [TRACE, f"./{TRACE}", f"outdir/../{TRACE}", "-", "/", "outdir", "missing.pcap", "s.scenario", "bad.pcap",
            "/dev/null", "\0", "x" * 300]
HOST_OPTIONS = {
    "rx": (2, ["8", "16", "12", "4104", "65536"]), "tx": (3, ["8", "4096", "64", "0", "4104", "65536"]),
    "buffers": (2, ["16", "8192", "15", "8193", "65536"]), "rxa": (3, ["2", "48", "6", "50", "3", "256"]),
    "link": (2, ["1", "2000", "2001", "0", "never", "65536", "Never"]), "promiscuous": (1, [""]),
    "other": (1, ["", "8"])}
# Lines that are made long: how they begin, and what then fills them.
LONG_LINES = [("#", "x"), ("", " "), ("send a 00", " "), ("send a ", "0"), ("interrupt a /", "\t"),
              ("interrupt a / ", "go "), ("fly ", "y"), ("# ", "\u00e9"),
              ("recv a ", "0"), ("host f 02:00:00:00:00:06 w", "\t"), ("feed a ", "x")]
COUNTS = (re.compile(rb" accepted \d+ put \d+ reached \d+ stored \d+ missed \d+ (exact|atleast) given \d+ unclaimed "
                     rb"\d+( givenup \d+ \d+ off \d+)?$"))


def fed_fault(bench, path, given):
    """The exit status and the fault of a trace that a scenario feeds, or None if the trace is valid."""
    if path == "-":
        fault = TraceRead(given).fault
        return fault and (1, fault)
    try:
        mode = os.stat(bench.path(path)).st_mode
    except (OSError, ValueError):
        return 3, f"{OPEN}: {path}"
    if stat.S_ISDIR(mode):
        return 3, READ
    if not stat.S_ISREG(mode):
        return 3, f"{OPEN}: {path}"
    fault = TraceRead(bench.get(path)).fault
    return fault and (1, fault)


def answer(bench, text, given=b"", options=()):
    """The status, the fault or None, the files in OUTDIR, and a list. Without a fault, the list contains the names of
    the hosts. If a trace is refused, the list contains its path, and after E50 the wrong word. After another fault, the
    list is empty.
    """
    scenario = Scenario(text)
    if scenario.fault:
        line, fault = scenario.fault
        told = f"line {line}: {fault}"
        return 1, told, [], [word] if (word := word_of(text, told)) else []
    for place, path in enumerate(scenario.traces):
        fault = fed_fault(bench, path, given if path not in scenario.traces[:place] else b"")
        if fault:
            return *fault, [], [path]
    files, stuck = scenario.files("--wires" in options)
    if stuck:
        return 3, f"{OPEN}: outdir/{stuck}", files, []
    fault = scenario.plan_fault()
    return (1, fault, files, []) if fault else (0, None, files, [host.encode() for host in scenario.hosts])


def held_bytes(path):
    """The files of a folder, each with its bytes; the names are bytes, too."""
    files = {}
    for name in os.listdir(os.fsencode(path)):
        with open(os.path.join(os.fsencode(path), name), "rb") as file:
            files[name] = file.read()
    return files


def runs(bench, met, name, text, given=b"", options=()):
    """Runs a scenario, compares the answer with the computed one, and adds its fault, if any, to `met`. If the scenario
    is valid, only the headers of the files are compared.
    """
    path = folder(bench)
    bench.put("s.scenario", text)
    status, fault, files, hosts = answer(bench, text, given, options)
    ran = bench.run("run", *options, "s.scenario", "outdir", given=given)
    held = held_bytes(path)
    told = [COUNTS.sub(b"", line) for line in ran.stdout.splitlines()]
    if fault:
        met.add(fault.split(": ", 1)[1] if fault.startswith("line ") else OPEN if fault.startswith(OPEN) else fault)
        wanted = (status, refusal(fault, *hosts), [], {file: b"" for file in files})
    else:
        wanted = (status, b"", hosts, {file: FILE_HEADER for file in files})
        held = {file: data[:len(FILE_HEADER)] for file, data in held.items()}
    bench.check(f"{name}: {text[-400:]!r}", (ran.returncode, ANY_WARNING.sub(b"", ran.stderr), told, held), wanted)


def cut_texts(bench, met):
    """The text BASE is cut after each of its bytes, and before the first one."""
    for size in range(len(BASE) + 1):
        runs(bench, met, f"cut after {size} bytes", BASE[:size])
    bench.check("cut: the whole text is valid", answer(bench, BASE)[:2], (0, None))
    bench.check("cut: kinds of lines", {line.split()[0] for line in BASE.decode().splitlines() if line.strip()},
                set(WORDS) | {"#"})
    faulty = [Scenario(BASE[:size]).fault or (0, "") for size in range(len(BASE))]
    bench.check("cut: only the last line is invalid, and only if it is cut",
                [size for size, (line, _) in enumerate(faulty)
                 if line not in (0, BASE[:size].count(b"\n") + 1) or line and BASE[:size].endswith(b"\n")], [])


def changed_texts(bench, met):
    """A byte of the text is replaced, inserted or dropped."""
    drawn = random.Random(1)
    for number in range(4000):
        place = drawn.randrange(len(BASE))
        byte = bytes([drawn.choice([drawn.choice(SPECIAL), drawn.choice(BASE), drawn.choice(BASE),
                                    drawn.randrange(256)])])
        kind = drawn.randrange(5)
        text = BASE[:place] + (b"" if kind == 0 else byte) + BASE[place + (kind < 3):]
        runs(bench, met, f"changed byte {number}", text)


def moved_lines(bench, met):
    """Lines are moved, dropped or repeated."""
    drawn = random.Random(2)
    for number in range(600):
        lines = BASE.split(b"\n")
        for _ in range(drawn.randrange(1, 4)):
            line = lines.pop(drawn.randrange(len(lines))) if drawn.random() < 0.7 else drawn.choice(lines)
            if drawn.random() < 0.7:
                lines.insert(drawn.randrange(len(lines) + 1), line)
        runs(bench, met, f"moved lines {number}", b"\n".join(lines))


def random_bytes(bench, met):
    """Runs texts of random bytes from several alphabets, in turn after BASE and by themselves."""
    drawn = random.Random(3)
    for alphabet in [bytes(range(256)), bytes(range(128)), SPECIAL, b"\n\r #/", b"host ab\n\t:/01"]:
        for number in range(120):
            text = bytes(drawn.choice(alphabet) for _ in range(drawn.randrange(120)))
            runs(bench, met, f"random bytes {number}", text if number % 2 else BASE + b"\n" + text)


def pick(drawn, words):
    """A word of a list, mostly one of its first `valid` words."""
    valid, words = words
    return drawn.choice(words[:valid] if drawn.random() < 0.95 else words)


def random_options(drawn):
    words = []
    for option in drawn.sample(list(HOST_OPTIONS)[:6 if drawn.random() < 0.95 else 7], drawn.choice([0, 0, 1, 2, 6])):
        words += [option, pick(drawn, HOST_OPTIONS[option])]
    return [word for word in words if word]


def random_ticks(drawn, hosts):
    ticks = (len(hosts) * len(STEPS) + 1,
             ["go", *(f"{step}:{host}" for step in sorted(STEPS) for host in hosts), *BAD_TICKS])
    return [pick(drawn, ticks) for _ in range(drawn.randrange(5))]


def random_line(drawn, kind, hosts):
    """A line of this kind. Mostly its words are valid, and have the number and the order that the kind needs."""
    host = pick(drawn, (len(hosts), hosts + NAMES))
    tables = {"group": GROUPS, "vlan": VLANS, "socket": ETHER_TYPES, "send": FRAMES, "recv": NUMBERS, "join": GROUPS,
              "leave": GROUPS, "feed": PATHS,
              "auto": NUMBERS}
    if kind == "host":
        hosts.append(pick(drawn, (3, [f"h{len(hosts)}", f"_{len(hosts)}", "f", "a", *NAMES])))
        words = [hosts[-1], pick(drawn, ADDRESSES), pick(drawn, WIRES), *random_options(drawn)]
    elif kind == "tick":
        words = (random_ticks(drawn, hosts) or ["go"])[:1]
    elif kind == "auto":
        words = [pick(drawn, NUMBERS), pick(drawn, NUMBERS)]
    else:
        words = [host, *([pick(drawn, tables[kind])] if kind in tables else [])]
    words.insert(0, kind)
    if kind in CALLS and drawn.random() < 0.5:
        words += ["/", *random_ticks(drawn, hosts)]
    if drawn.random() < 0.05:
        place = drawn.randrange(len(words))
        words[place:place + drawn.randrange(2)] = drawn.sample([*NAMES, *NUMBERS[1], *BAD_TICKS, *WORDS],
                                                               drawn.randrange(2))
    return drawn.choice([" ", " ", " ", "\t", "  "]).join(words) + drawn.choice(["", "", "", "\r", " "])


def random_lines(bench, met):
    """Runs scenarios of random lines, whose words are mostly drawn from the tables."""
    drawn = random.Random(4)
    setup, events = sorted(SETUP), sorted(set(WORDS) - SETUP)
    begin = [line.decode() for line in BASE.split(b"\n")[1:5]]
    for number in range(4000):
        lines = begin[:drawn.choice([0, 2, 2, 2, 3, 3, 4])]
        hosts = list("abcd"[:len(lines)]) or ["f"]
        lines += [random_line(drawn, drawn.choice(setup), hosts) for _ in range(drawn.randrange(5))]
        lines += [random_line(drawn, drawn.choice(events if drawn.random() < 0.98 else setup), hosts)
                  for _ in range(drawn.randrange(5))]
        given = drawn.choice([b"", trace(packet(bytes.fromhex(FRAME))), b"x" * 30])
        runs(bench, met, f"random lines {number}", "\n".join(lines).encode(), given,
             drawn.choice([(), (), ("--wires",)]))


def each_word(bench, met):
    """Runs each word of the tables in a line whose other words are valid, also with an invalid line after this line.
    Also runs calls with too few or too many words or ticks.
    """
    begin = [line.decode() for line in BASE.split(b"\n")[1:3]]
    host = "host f 02:00:00:00:00:06 w"
    lines = [f"host {name} 02:00:00:00:00:06 w\nsocket {name} all\nsocket {name} 0800" for name in NAMES]
    lines += [f"host f {address} w" for address in ADDRESSES[1]] + [f"host f 02:00:00:00:00:06 {wire}"
                                                                    for wire in WIRES[1]]
    lines += [f"{host} {option} {value}" for option, (_, values) in HOST_OPTIONS.items() for value in values]
    lines += [f"{host} {option} {values[0]} {option} {values[0]}" for option, (_, values) in HOST_OPTIONS.items()]
    lines += [f"{host} rx {rx} buffers {buffers}" for rx in (4088, 4096, 4104) for buffers in (rx - 1, rx, rx + 1)]
    lines += [f"{kind} a {group}" for kind in ("group", "join", "leave") for group in GROUPS[1]]
    lines += [f"vlan a {vlan}" for vlan in VLANS[1]] + [f"socket a {word}" for word in ETHER_TYPES[1]]
    lines += [f"send a {frame}" for frame in FRAMES[1]] + [f"recv a {number}"
                                                           for number in NUMBERS[1]] + [f"feed a {path}"
                                                                                        for path in PATHS[1]]
    lines += [f"auto {number} 1" for number in NUMBERS[1]] + [f"auto 1 {number}" for number in NUMBERS[1]]
    ticks = [*(f"{step}:{name}" for step in sorted(STEPS) for name in ("a", "b", "f", "")), *BAD_TICKS]
    lines += [f"tick {tick}" for tick in ticks] + [f"interrupt a / go {tick} go" for tick in ticks]
    for kind in CALLS:
        lines += [f"{kind} a{words} / {tick}" for words in ("", " 00", " 0 0", " ff:ff:ff:ff:ff:ff")
                  for tick in ("", "go", "go / go", "/")]
    for line in lines:
        text = "\n".join([*begin, line])
        for options in ((), ("--wires",)):
            runs(bench, met, "a word", text.encode(), b"", options)
        runs(bench, met, "a word, and a fault after it", f"{text}\nfly".encode())


def full_hosts(bench, met):
    """Runs scenarios whose hosts have the most sockets, groups or VLANs, or one less or more. Also runs plans of 0 to
    19 hosts.
    """
    for kind, value, most in [("socket", "all", 8), ("group", "01:00:5e:00:00:01", 32), ("vlan", "5", 32)]:
        for host in "ab":
            lines = BASE.split(b"\n")[1:3] + [f"{kind} {host} {value}".encode()] * (most + 1)
            for count in (most - 1, most, most + 1):
                runs(bench, met, f"{count} lines {kind}", b"\n".join(lines[:2 + count]))
    for count in range(20):
        for ends in (2, 3, 8, 9):
            text = "".join(f"host h{n} 02:00:00:00:00:{n:02x} w{n // ends}\n" for n in range(count))
            runs(bench, met, f"{count} hosts, {ends} on a wire", text.encode())


def long_lines(bench, met):
    """Runs lines of about 8,192 bytes, and of 2 and 20 times this length, with different ends of the line, and before
    an invalid line.
    """
    begin = b"\n".join(BASE.split(b"\n")[1:3]) + b"\n"
    for first, fill in LONG_LINES:
        for size in [*range(MOST_BYTES - 3, MOST_BYTES + 4), 2 * MOST_BYTES, 20 * MOST_BYTES]:
            for end in (b"", b"\n", b"\r\n", b"\r", b"\r\r\n", b"\nfly"):
                runs(bench, met, f"a line of {size} bytes", begin + (first + fill * size).encode()[:size] + end)


def other_texts(bench, met):
    """Runs BASE with bytes that aren't UTF-8, or a character that isn't ASCII, at each place of each line. Also runs
    such texts by themselves, in comments, and before and after BASE.
    """
    drawn = random.Random(5)
    lines = BASE.split(b"\n")
    for number, line in enumerate(lines):
        for place in range(len(line) + 1):
            for other in (drawn.choice(NOT_TEXT), drawn.choice(CHARACTERS).encode()):
                changed = line[:place] + other + line[place:]
                runs(bench, met, f"other text in line {number + 1}",
                     b"\n".join([*lines[:number], changed, *lines[number + 1:]]))
    for other in [*NOT_TEXT, *(character.encode() for character in CHARACTERS)]:
        for text in (other, b"#" + other, BASE + b"\n" + other, BASE + b"\n# " + other + b"\n", other + b"\n" + BASE):
            runs(bench, met, f"other text {other.hex()}", text)


def passes(bench, name, data):
    """Passes a trace, and compares the answer with the computed one. Returns the fault of the trace, or None."""
    bench.remove("out.pcap")
    bench.put("in.pcap", data)
    read = TraceRead(data)
    ran = bench.run("pass", "in.pcap", "out.pcap")
    line, frames = read.passed()
    wanted = (1, b"", failure(read.fault, "in.pcap"), None) if read.fault else (0, line, b"", written(frames))
    bench.check(f"{name}: {data[:200].hex()}", (ran.returncode, ran.stdout, ran.stderr, bench.get("out.pcap")), wanted)
    return read.fault


def traces(bench):
    """Passes traces with a frame of about the least or most bytes, a trace of which each byte is replaced in turn, and
    random traces.
    """
    drawn = random.Random(6)
    data = trace(packet(bytes.fromhex(FRAME)), packet(bytes(range(70)), time=1))
    met = {passes(bench, "a trace", data)}
    for length in (0, SHORTEST_FRAME - 1, SHORTEST_FRAME, 59, 60, 61, LONGEST_FRAME, LONGEST_FRAME + 1, MOST_CAPTURED,
                   MOST_CAPTURED + 1):
        for original in (0, length, length + 1):
            met.add(passes(bench, f"{length} bytes of {original}",
                           trace(packet(bytes(length), original), packet(bytes(60)))))
    for place in range(len(data)):
        for byte in {0, 1, 4, 0x7F, 0x80, 0xFF, data[place] ^ 1, data[place] + 1 & 0xFF,
                     drawn.randrange(256)} - {data[place]}:
            met.add(passes(bench, f"byte {place} of a trace", data[:place] + bytes([byte]) + data[place + 1:]))
    for number in range(300):
        tail = bytes(drawn.choice([0, 0, 0, 1, 14, 60, drawn.randrange(256)]) for _ in range(drawn.randrange(120)))
        met.add(passes(bench, f"random trace {number}", (FILE_HEADER if number % 3 else b"") + tail))
        other = bytearray(data)
        for _ in range(drawn.randrange(2, 6)):
            other[drawn.randrange(len(data))] = drawn.randrange(256)
        met.add(passes(bench, f"random bytes in a trace {number}", bytes(other)))
    bench.check("traces: each fault was met", met,
                {None, "E60 Header", "E61 Magic", "E62 Version", "E63 LinkType", "E64 Record"})


def all_cases(bench):
    met = set()
    bench.put(TRACE, trace(packet(bytes.fromhex(FRAME)), packet(bytes(range(80)))))
    bench.put("bad.pcap", FILE_HEADER + b"\xff" * 16)
    for part in [cut_texts, changed_texts, moved_lines, random_bytes, random_lines, each_word, full_hosts, long_lines,
                 other_texts]:
        part(bench, met)
    bench.check("texts: each fault was met", met, LINE_FAULTS | {
        "E40 Name", "E41 Ends", "E42 Hosts", "E43 Address", "E44 Config", "E46 Init: E14 NoLink", "E60 Header",
        "E61 Magic", "E64 Record", READ, OPEN})
    traces(bench)
