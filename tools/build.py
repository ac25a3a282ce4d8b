"""Builds nicbench unless it is built, and runs it with WORDS in the caller's folder.

usage: python3 tools/build.py [--build | --prove | --release] [WORDS..]; `./nicbench` calls it

`--prove` builds the proved program. `--build`, and a call without these words, make a quick build of the same sources
if there is no program of them. A quick build has no proof, but run-time checks. If it fails, the proved program is
built. A second call during a build waits for the build. The environment variable RT may name another `rt`. BUILT may
name a program that `rt ci` has proved and built. It is taken in place of a build if it is newer than all sources.

Without an `rt` on the PATH, the system's C compiler builds the proved program from the folder dist. This needs the
sources from which dist was written. `--release` builds and runs the program of dist, whatever has changed since.

With one of these options and no WORDS, the program isn't run, and the exit status is 0. Otherwise the exit status is
the program's. It is always 70 if no program could be built.
"""

from __future__ import annotations

import fcntl
import os
import shutil
import subprocess
import sys

import dist
import prove
import quick
import sources

# The program that was taken last, for scripts that call it many times: a second name of one of the two builds. It is a
# hard link, since `rt ci` refuses a repository with a symbolic link in it.
NAMED = os.path.join(sources.BUILD, sources.PROGRAM)
PROVED = os.path.join(sources.BUILD, "program", sources.PROGRAM)
QUICK = os.path.join(sources.BUILD, "quick", sources.PROGRAM)
# The program of dist. Its stamp is the checksum of the sources, or that of the packed release if they have changed.
RELEASE = os.path.join(sources.BUILD, "release", sources.PROGRAM)
# The state of the sources from which NAMED was built. `./nicbench` compares it, and then needs no checksum.
STATE = os.path.join(sources.BUILD, "state")
RT = os.environ.get("RT", "rt")
HOW_LONG = "about 20 minutes on four processors, and longer on two or if the machine has other work"
NO_PROGRAM = 70


def tell(text: str) -> None:
    print(f"nicbench: {text}", file=sys.stderr, flush=True)


def stop(text: str) -> None:
    """Prints a text, and ends with the status for no program (NO_PROGRAM)."""
    tell(text)
    sys.exit(NO_PROGRAM)


def is_built(program: str, checksum: str) -> bool:
    """Whether there is a program at this path that was built from the sources with this checksum."""
    stamp = f"{program}.sources"
    if not os.access(program, os.X_OK) or not os.path.exists(stamp):
        return False
    with open(stamp) as file:
        return file.read().strip() == checksum


def stamp(program: str, checksum: str) -> None:
    """Notes the checksum of the sources from which a program was built."""
    with open(f"{program}.sources", "w") as file:
        file.write(f"{checksum}\n")


def keep(built: str, checksum: str) -> None:
    """Copies a proved program to PROVED, and notes the checksum of its sources."""
    os.makedirs(os.path.dirname(PROVED), exist_ok=True)
    shutil.copy2(built, f"{PROVED}.new")
    os.replace(f"{PROVED}.new", PROVED)
    stamp(PROVED, checksum)


def is_newer(program: str, crates: dict[str, str]) -> bool:
    """Whether there is a program at this path that is newer than all files that a build of these crates reads."""
    newest = max(map(os.path.getmtime, sources.all_files(crates)))
    return os.access(program, os.X_OK) and os.path.getmtime(program) > newest


def build_proved(crates: dict[str, str], checksum: str) -> None:
    tell(f"proving and building {len(crates)} crates: {HOW_LONG}")
    for path in (PROVED, f"{PROVED}.sources"):
        if os.path.exists(path):
            os.remove(path)
    try:
        prove.build(RT, crates, tell, lambda built: keep(built, checksum))
    except prove.ProofFailed as error:
        stop(str(error))


def build_quick(crates: dict[str, str], checksum: str) -> None:
    """Makes the quick build. If the quick build fails, makes the proved program."""
    tell("making a quick build without proof: about three minutes on an idle machine")
    try:
        quick.build(shutil.which(RT) or RT, QUICK, quick.Steps(tell, len(crates), 3))
    except quick.QuickBuildFailed as error:
        tell(f"there is no quick build: {error}")
        build_proved(crates, checksum)
        return
    stamp(QUICK, checksum)
    tell("this build is not proved: `./nicbench --prove` makes the proved one")


def build_release(checksum: str, is_wanted: bool) -> None:
    """Builds the program of dist, if the sources haven't changed since or if the release is wanted as it is."""
    try:
        files = dist.release(sources.PROGRAM, is_wanted, "./nicbench --release")
        mark = dist.digest(sources.PROGRAM) if dist.changed(sources.PROGRAM, files) else checksum
        if not is_built(RELEASE, mark):
            tell(f"compiling the proved program of {dist.named(files)}: some seconds")
            dist.build_program(files, RELEASE)
            stamp(RELEASE, mark)
    except (dist.NoRelease, OSError) as error:
        stop(f"there is no `{RT}`, the command of the Rattle toolchain, to build the program, and {error}"
             if not is_wanted else str(error))


def is_there(with_proof: bool, checksum: str) -> bool:
    return is_built(PROVED, checksum) or (not with_proof and any(is_built(it, checksum) for it in (RELEASE, QUICK)))


def build(with_proof: bool, crates: dict[str, str], checksum: str) -> None:
    """Builds the program, or takes the program that BUILT names if it is newer than all sources. If another call
    builds, waits until that build ends. If the wanted program is there then, does nothing else.
    """
    has_toolchain = shutil.which(RT) is not None
    if with_proof and not has_toolchain:
        stop(f"`{RT}` isn't on the PATH: it is the command of the Rattle toolchain")
    with open(os.path.join(sources.BUILD, "lock"), "w") as lock:
        try:
            fcntl.flock(lock, fcntl.LOCK_EX | fcntl.LOCK_NB)
        except BlockingIOError:
            tell("another call builds the program: waiting for it")
            fcntl.flock(lock, fcntl.LOCK_EX)
        if is_there(with_proof, checksum):
            return
        given = os.environ.get("BUILT", "")
        if is_newer(given, crates):
            tell(f"taking {given}, which is newer than all sources")
            keep(given, checksum)
        elif not has_toolchain:
            build_release(checksum, False)
        elif with_proof:
            build_proved(crates, checksum)
        else:
            build_quick(crates, checksum)


def give_name(program: str) -> None:
    """Makes NAMED a second name of this program."""
    if not os.path.exists(NAMED) or not os.path.samefile(NAMED, program):
        new = f"{NAMED}.{os.getpid()}"
        os.link(program, new)
        os.replace(new, NAMED)


def state() -> bytes:
    """Returns the state of the sources, or no bytes if there is no `find` that prints it."""
    script = os.path.join(sources.TOP, "tools", "source_state.sh")
    words = ["sh", "-c", '. "$1"; source_state "$2"', "sh", script, sources.TOP]
    return subprocess.run(words, capture_output=True).stdout


def note_state(found: bytes) -> None:
    """Notes the state in the file STATE, if the folder can be written."""
    new = f"{STATE}.{os.getpid()}"
    try:
        with open(new, "wb") as file:
            file.write(found)
        os.replace(new, STATE)
    except OSError:
        pass


def main() -> None:
    words = sys.argv[1:]
    builds, with_proof = words[:1] in (["--build"], ["--prove"], ["--release"]), words[:1] == ["--prove"]
    is_release, words = words[:1] == ["--release"], words[1:] if builds else words
    crates = sources.crates()
    os.makedirs(sources.BUILD, exist_ok=True)
    # The state is read first. If a file changes before the checksum is made, the next call finds another state.
    found, checksum = state(), sources.checksum(crates)
    if is_release:
        build_release(checksum, True)
    elif not is_there(with_proof, checksum):
        build(with_proof, crates, checksum)
    proved = next((it for it in (PROVED, RELEASE) if is_built(it, checksum)), QUICK)
    program = RELEASE if is_release else proved
    # The program of an older release isn't that of these sources. Then the state is empty, which fits no sources.
    note_state(b"")
    give_name(program)
    note_state(found if is_built(program, checksum) else b"")
    if builds and not words:
        return
    os.execv(program, [program, *words])


try:
    main()
except KeyboardInterrupt:
    stop("the build was interrupted; the next call continues after what is done")
