"""Man pages of section 3, from the comments of the C headers."""

import os
import re
import time

from packing.help_texts import roff

HEADERS = "bindings/c/nic82540em.h", "bindings/c/explore/nic82540em_explore.h"
# A comment that begins a line, and the lines of code that follow it
BLOCK = re.compile(r"^/\*((?:[^*]|\*(?!/))*)\*/\n((?:(?!/\*|#ifdef|#endif)[^\n]+\n)*)", re.M)
PARAGRAPH = re.compile(r"\n[ ]*\n")


def plain(comment):
    """The text of a comment without its margin."""
    return re.sub(r"^ ?\* ?", "", comment.strip(), flags=re.M).strip()


def parts_of(header):
    """The text at the top of a header, and its blocks: a comment, and the declarations that follow it."""
    start = header.index('extern "C" {')
    body = header[start:header.index("#ifdef __cplusplus\n}")]
    blocks = [(plain(comment), code.strip("\n")) for comment, code in BLOCK.findall(body)]
    return plain(re.match(r"/\*(.*?)\*/", header, re.S)[1]), blocks


def calls_of(header):
    """The names of the calls that a header declares, in its order."""
    found = []
    for _, code in parts_of(header)[1]:
        found += re.findall(r"^(?!struct nic\w+ {|enum|#|extern).*?\b((?:nic82540em|x)_\w+)\(", code, re.M)
    return list(dict.fromkeys(found))


def filled(text):
    """Lines of roff for a text. Lists and examples, which are indented, keep their lines."""
    for block in PARAGRAPH.split(text):
        lines = block.split("\n")
        at = next((n for n, line in enumerate(lines) if line.startswith("  ")), len(lines))
        yield ".PP"
        yield from map(roff, lines[:at])
        if at < len(lines):
            yield from [".PP", ".nf", *map(roff, lines[at:]), ".fi"]


def page(path, version, moment):
    """The man page of the header at this path. `moment` is its date, in seconds since 1970."""
    with open(path, encoding="utf-8") as file:
        top, blocks = parts_of(file.read())
    name = os.path.splitext(os.path.basename(path))[0]
    summary, _, rest = top.partition(".\n")
    date = time.strftime("%Y-%m-%d", time.gmtime(moment))
    lines = [f'.TH {name.upper()} 3 "{date}" "nicbench {version}" "nicbench"',
             ".SH NAME", f"{roff(name)} \\- {roff(' '.join(summary.split()))}",
             ".SH SYNOPSIS", ".nf", f".B #include <{roff(name)}.h>", ".PP",
             roff(f"cc test.c $(pkg-config --cflags --libs {name})"), ".fi",
             ".SH DESCRIPTION", *filled(rest.strip()), ".SH CALLS AND TYPES"]
    for comment, code in blocks:
        if code:
            lines += [".PP", ".nf", "\\fB", *map(roff, code.split("\n")), "\\fR", ".fi", ".RS 4",
                      *filled(comment), ".RE"]
        else:
            lines += filled(comment)
    others = {"nic82540em": "nic82540em_explore", "nic82540em_explore": "nic82540em"}
    lines += [".SH SEE ALSO", ".BR nicbench (1),", f".BR {others[name]} (3)", ".PP",
              roff("The folder docs of nicbench: LIBRARY.md, ADAPTER.md and RACES.md.")]
    return "\n".join(lines) + "\n"


def man_pages(top, version, moment):
    """The man pages of the headers in the repository `top` by file name, and the other names of these pages: one for
    each call.
    """
    pages, names = {}, {}
    for header in HEADERS:
        path = os.path.join(top, header)
        header = os.path.splitext(os.path.basename(header))[0]
        pages[f"{header}.3"] = page(path, version, moment)
        with open(path, encoding="utf-8") as file:
            names.update({f"{call}.3": f"{header}.3" for call in calls_of(file.read())
                          if call.startswith("nic82540em_") and f"{call}.3" not in pages})
    names.pop("nic82540em_explore.3", None)
    return pages, names
