"""Proves the C library, and builds its archive. What was proved from the same sources before isn't proved again.

An archive that an earlier call has built from the same sources is taken. Otherwise the script looks for the proved
crates below the library:
- crates/NAME/out, where `rt check` and `rt lib` keep their work: `rt lib` knows by its stamps what has changed;
- crates/NAME/out, from `rt ci`, without stamps: `./test` notes the sources, and when its `rt ci` ran;
- .build/proved-crates.tar, in which `./nicbench --prove` stores the crates that the program shares with the library.
With crates from one of the last two places, the toolchain's `rattle` proves the missing ones and the library. If
nothing is found or fits, `rt ci` proves all crates in a copy.

The compiler's assembly of an archive is kept with it, for `tools/amalgamation`.

usage: python3 tools/library_proof.py begin | passed; `./test` notes that its `rt ci` begins, and that it has passed
"""

from __future__ import annotations

import json
import os
import shutil
import subprocess
import sys
import tarfile
import tempfile
import time
from typing import Callable, Optional

import assembly
import prove
import sources
from quick import kit_of

KEPT = os.path.join(sources.BUILD, "proved-library")
# What `tools/library --quick` has built last, as an object
QUICK = os.path.join(sources.BUILD, "quick-library.o")
# The processors for which the toolchain builds a library, as it names them
TARGETS = {"x86_64": "x86_64-unknown-linux-gnu", "aarch64": "aarch64-unknown-linux-gnu"}
LOG = os.path.join(sources.BUILD, "library-proved.log")
# What `./test` notes of its `rt ci`: the stamp of the library's sources, and when the run began and ended
GATE = os.path.join(sources.BUILD, "ci-proved")


class LibraryFailed(Exception):
    """There is no library; the text states the reason."""


def run(*words: str, cwd: Optional[str] = None) -> str:
    """Runs a command. Returns its output. Raises LibraryFailed if the command can't start, or if it fails. After a
    failure, the text ends with the end of the output.
    """
    try:
        ran = subprocess.run(words, cwd=cwd, stdin=subprocess.DEVNULL, stdout=subprocess.PIPE, stderr=subprocess.STDOUT,
                             text=True, errors="replace")
    except OSError as error:
        raise LibraryFailed(f"{words[0]}: {error.strerror}") from error
    if ran.returncode != 0:
        raise LibraryFailed(f"`{words[0]}` failed:\n{ran.stdout[-2000:]}")
    return ran.stdout


def below(line: str) -> list[str]:
    """Returns the names of what the crate of this line of crates.txt uses: crates, and libraries of the toolchain."""
    return line.split(":")[1].split()


def out(name: str, *path: str) -> str:
    """The path of a file that `rt` makes for a crate in this repository."""
    return os.path.join(sources.CRATES, name, "out", *path)


def build_by_rt(rt: str, name: str, crates: dict[str, str], archive: str, target: str) -> None:
    """Lets `rt lib` prove a static library and the crates below it. Then builds the archive for the target, over what
    `rt lib` has kept of this proof.
    """
    run(rt, "lib", cwd=os.path.join(sources.CRATES, name))
    rlibs = {other: out(other, "rlib", f"{other}.rlib") for other in crates if other != name}
    folder = os.path.join(sources.CRATES, name)
    compile_crate(rt, name, crates, rlibs, archive, folder, target, out(name, "incremental"))


def by_rt(rt: str, crates: dict[str, str], archive: str, target: str, tell: Callable[[str], None]) -> bool:
    """Lets `rt lib` build the archive, if it has kept all crates below the library. Returns whether the archive was
    built.
    """
    if not all(os.path.exists(out(name, "rlib", "stamp")) for name in crates if name != sources.LIBRARY):
        return False
    tell("`rt lib` builds the library over what `rt` has kept in crates/*/out")
    try:
        build_by_rt(rt, sources.LIBRARY, crates, archive, target)
    except (LibraryFailed, OSError) as error:
        tell(f"`rt lib` has built no library: {error}")
        return False
    return True


def note_begin(rt: str) -> None:
    """Notes the stamp of the library's sources, and when `rt ci` begins in this repository."""
    stamp = prove.stamp(rt, sources.crates(sources.LIBRARY))
    prove.write(f"{GATE}.begun", json.dumps({"stamp": stamp, "begun": time.time()}))


def note_passed() -> None:
    """Notes that the `rt ci` of `note_begin` has passed, and when."""
    prove.write(GATE, json.dumps({**json.loads(prove.text_of(f"{GATE}.begun")), "ended": time.time()}))


def proved_here(rt: str, crates: dict[str, str]) -> dict[str, str]:
    """Returns the paths of the libraries in crates/*/out that the noted `rt ci` made, by crate. There are none if that
    run has proved other sources. A library is left out if a library below it is left out.
    """
    noted, found = json.loads(prove.text_of(GATE) or "{}"), {}
    if noted.get("stamp") != prove.stamp(rt, crates):
        return {}
    for name, line in crates.items():
        path = out(name, "rlib", f"{name}.rlib")
        made = os.path.join(path, "format")
        is_whole = all(other in found for other in below(line) if other in crates)
        # libraries of other runs may be there, older or newer ones
        if is_whole and os.path.exists(made) and noted["begun"] < os.path.getmtime(made) < noted["ended"]:
            found[name] = path
    return found


def proved_with_program(rt: str, folder: str) -> dict[str, str]:
    """Unpacks into a folder the libraries that `./nicbench --prove` kept. Returns their paths by crate. There are none
    if they were proved from other sources.
    """
    names = sources.shared()
    if not prove.is_kept(rt, names):
        return {}
    with tarfile.open(prove.KEPT) as archive:
        archive.extractall(folder)
    return {name: os.path.join(folder, name, f"{name}.rlib") for name in names}


def compile_crate(rt: str, name: str, crates: dict[str, str], rlibs: dict[str, str], path: str, folder: str,
                  target: str = sources.HOST, kept: str = "") -> None:
    """Proves and builds a crate over the libraries of the crates below it, at `path`. A static library becomes an
    archive, with its assembly next to it; another crate becomes a folder. `kept` is the folder in which `rt` keeps its
    work on this crate.
    """
    kit = kit_of(shutil.which(rt) or rt)
    words = [os.path.join(kit, "bin", "rattle"), "build", "--crate-name", name, "src/lib.rt"]
    words += [*uses(kit, crates[name], rlibs), "--jobs", "2"]
    if "staticlib" not in crates[name].split(":")[0]:
        run(*words, "--statements", "-o", path, cwd=folder)
        return
    words += ["--crate-type", "staticlib", *target_words(target)]
    words += ["--incremental", kept] * os.path.isdir(kept)
    with tempfile.TemporaryDirectory() as work:
        try:
            keeper = assembly.Keeper(kit, work)
        except OSError as error:
            raise LibraryFailed(f"the toolchain of {rt} isn't laid out as expected: {error}") from error
        run(*words, "--toolchain", keeper.toolchain, "-o", path, cwd=folder)
        keeper.keep(path)


def target_words(target: str) -> list[str]:
    """The option of `rattle` for a processor."""
    return [] if target == sources.HOST else ["--target", TARGETS[target]]


def uses(kit: str, line: str, rlibs: dict[str, str]) -> list[str]:
    """The options of `rattle` for what the crate of this line of crates.txt uses: libraries, and the logic."""
    words = []
    for other in ("std", *below(line)):
        words += ["--extern", f"{other}={rlibs.get(other) or os.path.join(kit, 'rlibs', f'{other}.rlib')}"]
    for rlib in rlibs.values():
        words += ["-L", f"dependency={os.path.dirname(rlib)}"]
    return [*words, "-L", f"dependency={os.path.join(kit, 'rlibs')}",
            "--logic-built", os.path.join(kit, "logic_built"),
            "--antt-project", os.path.join(kit, "rattle", "logic", "antt-project.json")]


def over(rt: str, crates: dict[str, str], found: dict[str, str], archive: str, work: str, target: str,
         tell: Callable[[str], None]) -> None:
    """Proves the crates that weren't found, and writes their libraries into the folder `work`. Then builds the archive
    over the libraries of all crates.
    """
    missing = [name for name in crates if name not in found and name != sources.LIBRARY]
    tell(f"{len(found)} of {len(crates)} crates are proved; proving {' '.join([*missing, sources.LIBRARY])}")
    rlibs = dict(found)
    for name in (*missing, sources.LIBRARY):
        is_library = name == sources.LIBRARY
        path = archive if is_library else os.path.join(work, name, f"{name}.rlib")
        os.makedirs(os.path.dirname(path), exist_ok=True)
        compile_crate(rt, name, crates, rlibs, path, os.path.join(sources.CRATES, name), target)
        if not is_library:
            rlibs[name] = path


def from_nothing(rt: str, crates: dict[str, str], archive: str, target: str, tell: Callable[[str], None]) -> None:
    """Proves all crates in a copy, builds the archive over them, and removes the copy."""
    tell(f"proving {len(crates)} crates")
    try:
        prove.copy_sources(crates)
        if prove.prove(rt, prove.Progress(crates, tell), LOG) != 0:
            raise LibraryFailed(f"{prove.last_lines(LOG)}the library was not proved; all that was printed is in {LOG}")
        rlibs = {name: prove.rlib(name) for name in crates if name != sources.LIBRARY}
        folder = os.path.join(prove.WORK, "crates", sources.LIBRARY)
        compile_crate(rt, sources.LIBRARY, crates, rlibs, archive, folder, target)
    finally:
        shutil.rmtree(prove.WORK, ignore_errors=True)


def from_proved(rt: str, crates: dict[str, str], archive: str, target: str, tell: Callable[[str], None]) -> bool:
    """Builds the archive over crates that were proved before, if there are any and they fit. Returns whether the
    archive was built.
    """
    if by_rt(rt, crates, archive, target, tell):
        return True
    for find in (lambda _: proved_here(rt, crates), lambda work: proved_with_program(rt, work)):
        with tempfile.TemporaryDirectory() as work:
            found = find(work)
            if not found:
                continue
            try:
                over(rt, crates, found, archive, work, target, tell)
                return True
            except LibraryFailed as error:
                tell(f"the proved crates don't fit: {error}")
    return False


def kept(name: str, target: str) -> str:
    """The path at which the archive of a static library is kept for a target."""
    return os.path.join(KEPT, *([] if target == sources.HOST else [target]), f"lib{name}.a")


def is_kept(rt: str, crates: dict[str, str], archive: str) -> bool:
    return os.path.exists(archive) and prove.text_of(f"{archive}.sources") == prove.stamp(rt, crates)


def note_sources(rt: str, crates: dict[str, str], archive: str) -> None:
    """Notes the stamp of the sources from which a kept archive was proved."""
    prove.write(f"{archive}.sources", prove.stamp(rt, crates))


def search(rt: str, target: str, tell: Callable[[str], None]) -> str:
    """Proves the explorer's search, unless an archive of it from these sources is kept. The search is a small crate,
    which uses no other crate of the repository. Returns the path of its archive.
    """
    crates, archive = sources.crates(sources.SEARCH), kept(sources.SEARCH, target)
    if not is_kept(rt, crates, archive):
        tell("proving the explorer's search")
        os.makedirs(os.path.dirname(archive), exist_ok=True)
        build_by_rt(rt, sources.SEARCH, crates, archive, target)
        note_sources(rt, crates, archive)
    return archive


def build(rt: str, archive: str, target: str, tell: Callable[[str], None]) -> None:
    """Makes the proved archive as the file `archive`, and keeps a copy for later calls."""
    crates, known = sources.crates(sources.LIBRARY), kept(sources.LIBRARY, target)
    if is_kept(rt, crates, known):
        tell("taking the archive that was proved from these sources")
        shutil.copyfile(known, archive)
        return
    if not from_proved(rt, crates, archive, target, tell):
        from_nothing(rt, crates, archive, target, tell)
    os.makedirs(os.path.dirname(known), exist_ok=True)
    for made, copy in ((archive, known), (assembly.path_of(archive), assembly.path_of(known))):
        shutil.copyfile(made, copy)
    note_sources(rt, crates, known)


def keep_quick(crates: dict[str, str], made: str) -> None:
    """Keeps an object of the library that was built without proof, and its assembly, for `tools/amalgamation`."""
    os.makedirs(os.path.dirname(QUICK), exist_ok=True)
    shutil.copyfile(assembly.path_of(made), assembly.path_of(QUICK))
    shutil.copyfile(made, QUICK)
    prove.write(f"{QUICK}.sources", sources.checksum(crates))


def assembled(rt: str, name: str, target: str, tell: Callable[[str], None]) -> str:
    """Makes the proved archive of a static library, unless it is kept with its assembly. Returns the path of the kept
    archive; its assembly is next to it.
    """
    known = kept(name, target)
    if not os.path.exists(assembly.path_of(known)) and os.path.exists(f"{known}.sources"):
        os.remove(f"{known}.sources")
    if name == sources.SEARCH:
        return search(rt, target, tell)
    with tempfile.TemporaryDirectory() as work:
        build(rt, os.path.join(work, os.path.basename(known)), target, tell)
    return known


if __name__ == "__main__":
    if sys.argv[1:] not in (["begin"], ["passed"]):
        sys.exit(__doc__)
    if sys.argv[1] == "begin":
        note_begin(os.environ.get("RT", "rt"))
    else:
        note_passed()
