"""Returns the text that the program prints on standard error if it fails, and checks the table of codes in its source.

tests/helps.py contains the same meanings word for word, as the help prints them.
"""

import unicodedata
from typing import Iterator, Optional

from harness import TOP, Program
from page_maker.codes import Code, read_codes

TABLE = {f"{row.code} {row.name}": row for row in read_codes(TOP)}
# The codes of an input that is refused or can't be read, and those of another path. A second line is the meaning, with
# the path in place of a word.
OF_INPUT = ("E60", "E61", "E62", "E63", "E64", "E66")
OF_PATH = {"E68": "PATH", "E73": "FILE"}
ESCAPES = {"\0": "\\0", "\t": "\\t", "\n": "\\n", "\r": "\\r", '"': '\\"', "\\": "\\\\"}


def code_of(fault: str) -> Code:
    """The row of the table for the text of a fault, such as `line 3: E51 Count` or `E68 Open: missing.pcap`."""
    label = " ".join(fault.removeprefix("line ").split(": ")[1 if fault.startswith("line ") else 0].split()[:2])
    return TABLE[label]


def quoted(path: str) -> str:
    """A path as it is printed: characters that can't be printed, or that change the one before, are escaped."""
    return '"' + "".join(ESCAPES.get(char) or (
        char if char.isprintable() and unicodedata.category(char) not in ("Mn", "Me") else f"\\u{{{ord(char):x}}}")
        for char in path) + '"'


def failure(fault: str, path: Optional[str] = None) -> bytes:
    """What the program prints on standard error for a fault. If the fault is one of an input, and its path is given, a
    second line names the path. If it is E50, and the wrong word is given as `path`, a second line names the word. The
    path of E68 or E73 is given after the name, as in `E68 Open: missing.pcap`.
    """
    row, line, explanation = code_of(fault), fault, ""
    if row.code in OF_PATH and ": " in fault:
        line, named = fault.split(": ", 1)
        explanation = f"nicbench: {row.text.replace(OF_PATH[row.code], quoted(named))}\n"
    elif path is not None and row.code == "E50":
        explanation = f"nicbench: the word is {quoted(path)}\n"
    elif path is not None and row.code in OF_INPUT:
        explanation = f"nicbench: {row.text.replace('IN', quoted(path))}\n"
    return f"nicbench: {line}\n{explanation}".encode()


def second_lines(bench: Program) -> None:
    """If an input is refused, a second line names it, also if a run feeds several. For a pcapng file, this line
    contains a command that can be copied. No path makes another line. The helps list exactly the codes of the table.
    """
    bench.put("old.pcapng", b"\x0a\x0d\x0d\x0a" + bytes(100))
    told = (b"nicbench: E61 Magic\n"
            b'nicbench: "old.pcapng" isn\'t a pcap file. Convert a pcapng file: tools/to_pcap "old.pcapng" OUT\n')
    bench.ends("a second line: pass", ["pass", "old.pcapng", "out.pcap"], 1, b"", told)
    bench.ends("a second line: show", ["show", "./old.pcapng"], 1, b"", told.replace(b"old.", b"./old."))
    bench.ends("a second line: no file", ["pass", "none.pcap", "out.pcap"], 3, b"", b"nicbench: E68 Open\n"
               b'nicbench: "none.pcap" couldn\'t be opened or created, or is a device. Check the path and permissions; '
               b"OUTDIR must exist. Copy a part of a device to a file: head -c SIZE DEVICE\n")
    odd = 'a\nnicbench: E61 Magic\r\x1b[1m "\\IN\u00e9\u0085\u2028\u0301.pcap'
    shown = '"a\\nnicbench: E61 Magic\\r\\u{1b}[1m \\"\\\\IN\u00e9\\u{85}\\u{2028}\\u{301}.pcap"'
    bench.check("a second line: an odd path is quoted", quoted(odd), shown)
    bench.ends("a second line: an odd path, no file", ["show", odd], 3, b"", failure(f"E68 Open: {odd}"))
    bench.put(odd, b"")
    bench.ends("a second line: an odd path", ["show", odd], 1, b"", failure("E60 Header", odd))
    bench.put("good.pcap", bytes.fromhex("d4c3b2a1020004000000000000000000ffff000001000000"))
    bench.put("feeds.scenario", b"host a 02:00:00:00:00:01 w\nhost b 02:00:00:00:00:02 w\n"
              b"feed a good.pcap\nfeed b old.pcapng\nfeed a good.pcap\n")
    bench.ends("a second line: the second of three feeds", ["run", "feeds.scenario", "."], 1, b"",
               told + b"nicbench: existing files in OUTDIR are unchanged\n")
    bench.check("codes: each is one of the table", sorted(faults_of_helps()), sorted(TABLE))


def faults_of_helps() -> Iterator[str]:
    """Yields the codes with names that the helps of the program and of `run` list."""
    from helps import HELP, RUN_HELP
    for line in (HELP + RUN_HELP).decode().splitlines():
        words = line.split()
        if line.startswith("  E") and len(words) > 2 and words[0][1:].isdigit() and line[15:16] == " " != line[16:17]:
            yield f"{words[0]} {words[1]}"
