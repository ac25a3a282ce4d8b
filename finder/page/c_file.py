"""Makes the template of pages as a C file, bindings/c/explore/page.c: the explorer writes pages without other files.

usage: python3 -m finder.page.c_file, in the repository's folder
"""

from __future__ import annotations

import os
from typing import Iterator

from finder.page.write import FOLDER, template

NAMES = "xi_page_head", "xi_page_middle", "xi_page_end"
WIDTH = 120
BEGIN = """\
/* Made by `python3 -m finder.page.c_file` from finder/page: change the files there. The page has a title after
 * `xi_page_head`, and the log of a run after `xi_page_middle`. */
#include "inside.h"
"""


def escaped(text: str) -> Iterator[str]:
    """Yields the bytes of a text as they are in a string of C. No two question marks are side by side, because they
    could begin a trigraph.
    """
    before = 0
    for byte in text.encode():
        if byte == ord("?") and before == byte:
            yield "\\?"
        elif chr(byte) in '\\"':
            yield f"\\{chr(byte)}"
        elif byte == ord("\n"):
            yield "\\n"
        else:
            yield chr(byte) if 32 <= byte < 127 else f"\\{byte:03o}"
        before = byte


def lines_of(text: str) -> Iterator[str]:
    """Yields the lines of a string of C."""
    line = ""
    for part in escaped(text):
        if len(line) + len(part) > WIDTH - 3:
            yield f'"{line}"'
            line = ""
        line += part
    yield f'"{line}";'


def c_file() -> str:
    """The text of the C file."""
    arrays = (f"\nconst char {name}[] =\n" + "\n".join(lines_of(text)) + "\n"
              for name, text in zip(NAMES, template()))
    return f"{BEGIN}{''.join(arrays)}"


if __name__ == "__main__":
    with open(os.path.join(FOLDER, "..", "..", "bindings", "c", "explore", "page.c"), "w", encoding="utf-8") as file:
        file.write(c_file())
