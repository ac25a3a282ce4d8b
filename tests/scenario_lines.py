"""Tests valid and invalid lines of scenarios for `nicbench run`."""

from scenarios import TWO_HOSTS, refused

# Lines that follow two hosts, each with the fault of the last line, or None if all lines are valid.
LINES = [
    # words
    ("", None), (" \t ", None), ("# host", None), (" \t#", None), ("#\n\n#\n", None), ("hosts", "E50 Word"),
    ("Host c 02:00:00:00:00:03 w", "E50 Word"), ("/", "E50 Word"), ("\ufeff# no comment", "E50 Word"),
    ("\x0ctick go", "E50 Word"),
    # hosts
    ("host c 02:00:00:00:00:03 w", None), ("\thost  c\t02:00:00:00:00:03 w ", None),
    ("host / 02:00:00:00:00:03 /", None), ("host \u00e9 02:00:00:00:00:03 #", None),
    ("host c fF:fF:fF:fF:fF:fF w", None),
    ("host c 02:00:00:00:00:03 w rxa 8 link never promiscuous tx 16 buffers 32 rx 24", None),
    ("host c 02:00:00:00:00:03 w rxa 50 link 0 rx 1", None), ("host c 02:00:00:00:00:03 w rx 00000000008", None),
    ("host c 02:00:00:00:00:03 w link 65535 rxa 255", None), ("host", "E51 Count"),
    ("host c 02:00:00:00:00:03", "E51 Count"), ("host c w 02:00:00:00:00:03", "E52 Value"),
    ("host c 02:00:00:00:00:03 w rx", "E51 Count"), ("host c 02:00:00:00:00:03 w rx 8 rx 8", "E51 Count"),
    ("host c 02:00:00:00:00:03 w rx x rx 8", "E51 Count"),
    ("host c 02:00:00:00:00:03 w promiscuous promiscuous", "E51 Count"),
    ("host c 02:00:00:00:00:03 w other tx", "E51 Count"), ("host a x w rx", "E51 Count"),
    ("host c 02:00:00:00:00:03 w other", "E52 Value"), ("host c 02:00:00:00:00:03 w other other", "E52 Value"),
    ("host c 02:00:00:00:00:03 w rx rx 8", "E52 Value"), ("host c 02:00:00:00:00:03 w rx +8", "E52 Value"),
    ("host c 02:00:00:00:00:03 w rx 65536", "E52 Value"), ("host c 02:00:00:00:00:03 w tx 65536", "E52 Value"),
    ("host c 02:00:00:00:00:03 w buffers 65536", "E52 Value"), ("host c 02:00:00:00:00:03 w link 65536", "E52 Value"),
    ("host c 02:00:00:00:00:03 w link Never", "E52 Value"), ("host c 02:00:00:00:00:03 w rxa 256", "E52 Value"),
    ("host c 02:00:00:00:00:0 w", "E52 Value"), ("host c 02-00-00-00-00-03 w", "E52 Value"),
    ("host a x w", "E52 Value"), ("host a 02:00:00:00:00:03 w", "E53 Name"),
    ("tick go\nhost a 02:00:00:00:00:03 w", "E53 Name"),
    ("tick go\nhost c 02:00:00:00:00:03 w", "E54 Order"),
    # what hosts get
    ("group a 01:00:5E:00:00:01", None), ("group a 02:00:00:00:00:00", None), ("group a", "E51 Count"),
    ("group c 01:00:5e:00:00", "E52 Value"), ("group c 01:00:5e:00:00:01", "E53 Name"),
    ("tick go\ngroup a 01:00:5e:00:00:01", "E54 Order"), ("vlan a 5", None), ("vlan a 4096", None),
    ("vlan a 5 5", "E51 Count"), ("vlan a 65536", "E52 Value"), ("vlan c 5", "E53 Name"),
    ("tick go\nvlan a 5", "E54 Order"), ("socket a 0800", None), ("socket a aBcD", None), ("socket a all", None),
    ("socket a", "E51 Count"), ("socket a 800", "E52 Value"), ("socket a 00800", "E52 Value"),
    ("socket a +800", "E52 Value"), ("socket a All", "E52 Value"), ("socket c all", "E53 Name"),
    ("auto 0 0\nsocket a all", "E54 Order"),
    # calls
    ("send a 0aF0 / go txput:b go", None), ("send a 00 /", None), ("send a / go", "E51 Count"),
    ("send a 00 00", "E51 Count"), ("send a 000", "E52 Value"), ("send a 0g", "E52 Value"),
    ("send a 00 / go / go", "E52 Value"), ("send a 00 / txputs:b", "E52 Value"), ("send c 00", "E53 Name"),
    ("send a 00 / txput:c", "E53 Name"), ("send a 00 / txput:c txput", "E52 Value"),
    ("recv a 18446744073709551615 / deliver:a", None), ("recv a 18446744073709551616", "E52 Value"),
    ("recv a /", "E51 Count"), ("recv c 0", "E53 Name"), ("interrupt a / phy:a eeprom:b", None),
    ("interrupt a 0", "E51 Count"), ("interrupt a / Go", "E52 Value"), ("interrupt c", "E53 Name"), ("reset a", None),
    ("reset b / deliver:b go go txput:b go", None), ("reset", "E51 Count"), ("reset a b", "E51 Count"),
    ("reset c", "E53 Name"), ("reset a / go:a", "E52 Value"), ("Reset a", "E50 Word"),
    ("reset a\nsocket a all", "E54 Order"), ("join a 01:00:5E:00:00:01 / go deliver:b", None),
    ("leave a fF:fF:fF:fF:fF:fF", None), ("join a 02:00:00:00:00:00 /", None), ("join", "E51 Count"),
    ("join a / 01:00:5e:00:00:01", "E51 Count"), ("leave a 01:00:5e:00:00:01 go", "E51 Count"),
    ("join a 01:00:5e:00:00", "E52 Value"), ("leave a all", "E52 Value"),
    ("join a 01:00:5e:00:00:01 / go / go", "E52 Value"), ("leave a 01:00:5e:00:00:01 / run:a", "E52 Value"),
    ("join c 01:00:5e:00:00:0", "E52 Value"), ("join c 01:00:5e:00:00:01", "E53 Name"),
    ("leave a 01:00:5e:00:00:01 / txput:c", "E53 Name"),
    ("leave a 01:00:5e:00:00:01\ngroup a 01:00:5e:00:00:01", "E54 Order"), ("Join a 01:00:5e:00:00:01", "E50 Word"),
    # other events
    ("tick go", None), ("tick", "E51 Count"), ("tick / go", "E51 Count"), ("tick /", "E52 Value"),
    ("tick rxdata", "E52 Value"), ("tick rxdata:", "E53 Name"), ("tick rxdata:a:b", "E53 Name"),
    ("feed a t.pcap", None), ("feed a /", None), ("feed a", "E51 Count"), ("feed c t.pcap", "E53 Name"),
    ("auto 1000000 18446744073709551615", None), ("auto 1", "E51 Count"), ("auto 1000001 0", "E52 Value"),
    ("auto 4294967296 0", "E52 Value"), ("auto 0 18446744073709551616", "E52 Value"),
    # drains
    ("drain a", None), ("drain b\ndrain\tb\ntick go", None), ("drain", "E51 Count"), ("drain b x", "E51 Count"),
    ("drain b / go", "E51 Count"), ("drain nobody", "E53 Name"), ("drain /", "E53 Name"),
    ("drain a\nhost c 02:00:00:00:00:03 w", "E54 Order"),
]
COMMENT = b"#" + b"x" * 8191
# Whole texts without hosts, each with its fault. If all lines are valid, the fault is that of a plan without hosts.
TEXTS = [
    *((text, "E42 Hosts") for text in [b"", b"\n", b"\r\n", b"auto 0 0\r\n", b"auto 0 0", b"#\r\r\n\n", COMMENT,
                                       COMMENT + b"\n", COMMENT + b"\r\n"]),
    *((COMMENT + b"x" + end, "line 1: E55 Long") for end in [b"", b"\n", b"\r\n"]),
    # Before a line feed, only one carriage return is dropped.
    (b"\nauto 0 0\r", "line 2: E52 Value"), (b"\r\nauto 0 0\r\r\n", "line 2: E52 Value"),
    # A fault in an earlier line comes first.
    (b"\n# \xff\nno", "line 2: E56 Text"), (b"no\n\xff", "line 1: E50 Word"),
]


def all_cases(bench):
    # After valid lines comes an unknown word, which is refused.
    most = ["socket a all\n" * 8, "group a 01:00:5e:00:00:01\n" * 32, "vlan a 5\n" * 32, f"send a {'00' * 4000}\n"]
    for lines, fault in [*LINES, *((lines[:-1], None) for lines in most)]:
        text = TWO_HOSTS.decode() + lines + ("" if fault else "\nfly")
        refused(bench, f"line {lines[:60]!r}", f"{text}\n".encode(),
                f"line {text.count(chr(10)) + 1}: {fault or 'E50 Word'}")
    for text, fault in TEXTS:
        refused(bench, f"text {text[:60]!r}", text, fault)
