"""Edits of U-Boot's driver e1000 that are made when it is built: the bugs of machines/bugs, and one more.

Each edit changes e1000.c at places that it finds by names.
"""

from __future__ import annotations

import os
from typing import Callable

import uboot_bugs
from c_source import Source

MAIN = os.path.basename(uboot_bugs.MAIN)


def kept_tail(source: Source) -> None:
    """The driver keeps its place in the receive ring when the interface is started again."""
    source.remove("e1000_configure_rx", r"\brx_tail\s*=\s*0\s*;")


EDITS: dict[str, Callable[[Source], None]] = {**uboot_bugs.BUGS, "kept-tail": kept_tail}
