"""Builds the program of tools/races unless it is built, and runs it with WORDS in the caller's folder.

usage: python3 -B tools/build_races.py [WORDS..]; `tools/races` calls it

The program is linked with the library of the present sources (tools/library). This is the proved one if it is kept, or
else a quick one, which has run-time checks in place of the proof. Without an `rt` on the PATH, the library is that of
the folder dist. RACES_LIBRARY may name a FOLDER in which tools/library has written a library. This one is taken if it
is newer than all sources. The exit status is the program's. It is 70 if no program could be built.
"""

from __future__ import annotations

import fcntl
import os
import shutil
import subprocess
import sys

import library_proof
import sources

FOLDER = os.path.join(sources.BUILD, "races")
PROGRAM, STATE, STAMP = (os.path.join(FOLDER, name) for name in ("races", "state", "library.sources"))
OWN_LIBRARY = os.path.join(FOLDER, "library")
ARCHIVE = os.path.join("lib", "libnic82540em_explore.a")
BINDINGS = os.path.join(sources.TOP, "bindings", "c")
NO_PROGRAM = 70


def tell(text: str) -> None:
    print(f"races: {text}", file=sys.stderr, flush=True)


def stop(text: str) -> None:
    """Prints a text, and ends with the status for no program (NO_PROGRAM)."""
    tell(text)
    sys.exit(NO_PROGRAM)


def state() -> bytes:
    """The state of the sources, as tools/races compares it."""
    script = os.path.join(sources.TOP, "tools", "source_state.sh")
    words = ["sh", "-c", '. "$1"; races_state "$2"', "sh", script, sources.TOP]
    return subprocess.run(words, capture_output=True).stdout


def crates() -> dict[str, str]:
    return {**sources.crates(sources.LIBRARY), **sources.crates(sources.SEARCH)}


def is_newer(folder: str) -> bool:
    """Whether this folder has a library that is newer than all sources."""
    archive = os.path.join(folder, ARCHIVE)
    newest = max(map(os.path.getmtime, sources.all_files(crates())))
    return os.path.exists(archive) and os.path.getmtime(archive) > newest


def is_kept(checksum: str) -> bool:
    """Whether an earlier call has written the library of these sources into OWN_LIBRARY."""
    if not os.path.exists(os.path.join(OWN_LIBRARY, ARCHIVE)) or not os.path.exists(STAMP):
        return False
    with open(STAMP) as file:
        return file.read() == checksum


def build_library() -> None:
    rt, known = os.environ.get("RT", "rt"), sources.LIBRARY
    archive = library_proof.kept(known, sources.HOST)
    is_proved = bool(shutil.which(rt)) and library_proof.is_kept(rt, sources.crates(known), archive)
    is_quick = bool(shutil.which(rt)) and not is_proved
    words = [os.path.join(sources.TOP, "tools", "library"), *["--quick"] * is_quick, OWN_LIBRARY]
    if subprocess.run(words, stdout=subprocess.DEVNULL).returncode != 0:
        stop("the library of the present sources can't be built")


def library() -> str:
    """The folder of the library of the present sources."""
    given = os.environ.get("RACES_LIBRARY", "")
    if given and is_newer(given):
        return given
    checksum = sources.checksum(crates())
    if not is_kept(checksum):
        shutil.rmtree(OWN_LIBRARY, ignore_errors=True)
        build_library()
        with open(STAMP, "w") as file:
            file.write(checksum)
    return OWN_LIBRARY


def build() -> None:
    """Builds the program. If another call builds it, waits until that build ends."""
    os.makedirs(FOLDER, exist_ok=True)
    with open(os.path.join(FOLDER, "lock"), "w") as lock:
        try:
            fcntl.flock(lock, fcntl.LOCK_EX | fcntl.LOCK_NB)
        except BlockingIOError:
            tell("another call builds the program: waiting for it")
            fcntl.flock(lock, fcntl.LOCK_EX)
        # The state is read first. If a file changes before the end, the next call finds another state.
        found = state()
        if os.access(PROGRAM, os.X_OK) and os.path.exists(STATE):
            with open(STATE, "rb") as file:
                if file.read() == found:
                    return
        ran = subprocess.run([os.path.join(BINDINGS, "races", "build"), library(), PROGRAM], stdout=subprocess.PIPE,
                             stderr=subprocess.STDOUT, text=True, errors="replace")
        if ran.returncode != 0:
            stop(f"the program can't be compiled:\n{ran.stdout[-2000:]}")
        with open(STATE, "wb") as file:
            file.write(found)


try:
    build()
except (library_proof.LibraryFailed, OSError) as failure:
    stop(str(failure))
except KeyboardInterrupt:
    stop("the build was interrupted; the next call begins again")
os.execv(PROGRAM, [PROGRAM, *sys.argv[1:]])
