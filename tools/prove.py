"""Proves and builds the program, by `rt ci` over a copy of the crates that it depends on, without tests and must-fail
edits.

`rt` keeps what a run proves for the next run, also if the run is interrupted. The copy is removed at the end: `rt ci`
refuses a repository that has another one in it. The proved crates that the C library uses are kept for `tools/library`.
"""

from __future__ import annotations

import os
import re
import shutil
import subprocess
import tarfile
import time
from typing import Callable, Iterable

import sources

WORK = os.path.join(sources.BUILD, "proved")
LOG = os.path.join(sources.BUILD, "proved.log")
# The libraries of the proved crates that the C library uses. They are packed, since `rt ci` refuses a repository with
# their files in another folder.
KEPT = os.path.join(sources.BUILD, "proved-crates.tar")
# The most seconds between two lines of progress.
QUIET_SECONDS = 30


class ProofFailed(Exception):
    """There is no proved program; the text states the reason."""


def text_of(path: str) -> str:
    """The text of a file without blanks and line ends around it, or an empty text if the file can't be read."""
    try:
        with open(path) as file:
            return file.read().strip()
    except OSError:
        return ""


def write(path: str, text: str) -> None:
    with open(path, "w") as file:
        file.write(f"{text}\n")


def stamp(rt: str, crates: Iterable[str]) -> str:
    """Returns what a proof depends on, as a text: the checksum of the crates' sources, and the version of the
    toolchain.
    """
    version = subprocess.run([rt, "version"], stdout=subprocess.PIPE, text=True, check=True).stdout.strip()
    return f"{sources.checksum(crates)} {version}"


def rlib(crate: str) -> str:
    """The path of the library of a proved crate, in the copy."""
    return os.path.join(WORK, "crates", crate, "out", "rlib", f"{crate}.rlib")


def keep_crates(rt: str, crates: Iterable[str]) -> None:
    """Packs the libraries of proved crates into KEPT, and notes from which sources they were proved."""
    write(f"{KEPT}.sources", "")
    with tarfile.open(KEPT, "w") as archive:
        for crate in crates:
            archive.add(rlib(crate), f"{crate}/{crate}.rlib")
    write(f"{KEPT}.sources", stamp(rt, crates))


def is_kept(rt: str, crates: Iterable[str]) -> bool:
    """Whether these crates were kept, as proved from the present sources."""
    return os.path.exists(KEPT) and text_of(f"{KEPT}.sources") == stamp(rt, crates)


def copy_sources(crates: dict[str, str]) -> None:
    """Makes a repository with only these crates in the folder WORK."""
    shutil.rmtree(WORK, ignore_errors=True)
    for crate in crates:
        shutil.copytree(os.path.join(sources.CRATES, crate), os.path.join(WORK, "crates", crate),
                        ignore=shutil.ignore_patterns(*sources.UNREAD))
    with open(os.path.join(WORK, "crates.txt"), "w") as file:
        file.writelines(crates.values())
    shutil.copy(os.path.join(sources.TOP, "HANDLES"), WORK)
    # `rt` takes the nearest folder with a `.git` for the top of the repository.
    os.makedirs(os.path.join(WORK, ".git"))


class Progress:
    """Prints each crate when `rt` reports that it is proved now, or was before. Also prints a line after each half
    minute without one. Each line states the number of proved crates and the time since the start.
    """

    def __init__(self, crates: dict[str, str], tell: Callable[[str], None]) -> None:
        self.count, self.tell, self.done = len(crates), tell, 0
        self.begun = self.told = time.monotonic()

    def minutes(self) -> str:
        seconds = int(time.monotonic() - self.begun)
        return f"{seconds // 60} min {seconds % 60} s"

    def say(self, news: str) -> None:
        self.told = time.monotonic()
        self.tell(f"{news}{self.done} of {self.count} crates proved after {self.minutes()}")

    def line(self, text: str) -> None:
        found = re.match(r"rt: (\w+) (proved$|is kept: )", text)
        if found:
            self.done += 1
            self.say(f"{found[1]}; ")

    def tick(self) -> None:
        if time.monotonic() - self.told > QUIET_SECONDS:
            self.say("")


def follow(process: subprocess.Popen[bytes], progress: Progress, path: str) -> int:
    """Shows the progress of a running proof until it ends. Returns its exit status."""
    read = 0
    while True:
        ended = process.poll() is not None
        with open(path, errors="replace") as log:
            log.seek(read)
            for line in iter(log.readline, ""):
                if line.endswith("\n"):
                    read = log.tell()
                    progress.line(line)
        if ended:
            return process.returncode
        progress.tick()
        time.sleep(0.2)


def last_lines(path: str = LOG) -> str:
    with open(path, errors="replace") as log:
        return "".join(log.readlines()[-20:])


def prove(rt: str, progress: Progress, path: str = LOG) -> int:
    """Runs `rt ci` over the copy, and returns its exit status. The file `path` gets what it prints."""
    with open(path, "wb") as log:
        process = subprocess.Popen([rt, "ci"], cwd=WORK, stdin=subprocess.DEVNULL, stdout=log, stderr=subprocess.STDOUT)
    try:
        return follow(process, progress, path)
    except BaseException:
        process.terminate()
        process.wait()
        raise


def build(rt: str, crates: dict[str, str], tell: Callable[[str], None], keep: Callable[[str], None]) -> None:
    """Proves and builds the program. Calls `keep` with the path of the program; `keep` must copy it. Raises ProofFailed
    if there is no proved program.
    """
    progress = Progress(crates, tell)
    try:
        copy_sources(crates)
        status = prove(rt, progress)
        program = os.path.join(WORK, "crates", sources.PROGRAM, "out", sources.PROGRAM)
        if status != 0 or not os.access(program, os.X_OK):
            raise ProofFailed(f"{last_lines()}the program was not proved; all that was printed is in {LOG}")
        keep(program)
        if all(map(os.path.isdir, map(rlib, sources.shared()))):
            keep_crates(rt, sources.shared())
    finally:
        shutil.rmtree(WORK, ignore_errors=True)
    tell(f"proved and built in {progress.minutes()}")
