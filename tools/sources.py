"""The sources of the program and of the C library: crates, files, their checksum, and the version."""

from __future__ import annotations

import hashlib
import os
import re
from typing import Iterable, Iterator, Optional

TOP = os.path.dirname(os.path.dirname(os.path.realpath(__file__)))
CRATES = os.path.join(TOP, "crates")
BUILD = os.path.join(TOP, ".build")
PROGRAM = "nicbench"
LIBRARY = "nic82540em"
SEARCH = "search"
# The processor on which the toolchain runs
HOST = "x86_64"
# The source file that defines the version, as a constant.
VERSIONED = os.path.join(CRATES, "command_line", "src", "help.rt")
# Folders of a crate that no build reads.
UNREAD = ("out", "must-fail")


def crates(of: str = PROGRAM) -> dict[str, str]:
    """The crate `of` and all crates below it, each with its line of crates.txt. A crate comes after those that it uses.
    """
    with open(os.path.join(TOP, "crates.txt")) as file:
        lines = [line for line in file if ":" in line and not line.startswith("#")]
    known = {line.split(":")[0].split()[0]: line for line in lines}
    found: dict[str, str] = {}

    def visit(name: str) -> None:
        if name not in known or name in found:
            return
        for other in known[name].split(":")[1].split():
            visit(other)
        found[name] = known[name]

    visit(of)
    return found


def shared() -> list[str]:
    """The crates that both the program and the library depend on. A crate comes after those that it uses."""
    return [name for name in crates() if name in crates(LIBRARY)]


def files_of(crate: str) -> Iterator[str]:
    """Yields the paths of the files of a crate that a build reads, in order."""
    for folder, folders, names in os.walk(os.path.join(CRATES, crate)):
        folders[:] = sorted(name for name in folders if name not in UNREAD)
        yield from (os.path.join(folder, name) for name in sorted(names) if name != "README.md")


def all_files(names: Iterable[str]) -> list[str]:
    """All files that a build of these crates reads."""
    return [os.path.join(TOP, "crates.txt"), *(file for crate in names for file in files_of(crate))]


def checksum(names: Iterable[str]) -> str:
    """The checksum of all files that a build of these crates reads."""
    total = hashlib.sha256()
    for path in all_files(names):
        with open(path, "rb") as file:
            total.update(f"{os.path.relpath(path, TOP)}\0{hashlib.sha256(file.read()).hexdigest()}\n".encode())
    return total.hexdigest()


def version() -> str:
    """The program's version, as its sources state it."""
    with open(VERSIONED) as file:
        found = re.search(r'^pub\(crate\) const VERSION: &str = "(\d+\.\d+\.\d+)";$', file.read(), re.M)
    assert found, f"{VERSIONED} has no version"
    return found[1]


def released(changelog: str) -> Optional[str]:
    """The newest release in the text of CHANGELOG.md, or None if there is none yet."""
    found = re.search(r"^## \[(\d+\.\d+\.\d+)\]", changelog, re.M)
    return found[1] if found else None
