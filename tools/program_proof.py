"""Makes the object of the proved program once more for each processor, with its assembly, for `tools/amalgamation`.

`rt ci` takes what it has proved before on this machine from the same sources. The object for this machine's processor
is linked, and must become the program that `rt ci` has proved and built, byte for byte. For another processor, the
toolchain compiles the same proved code, but has no C library to link.
"""

from __future__ import annotations

import filecmp
import os
import shutil
import tempfile
from typing import Callable, Iterable

import assembly
import library_proof
import prove
import sources
from quick import kit_of

KEPT = os.path.join(sources.BUILD, "proved-program")
LOG = os.path.join(sources.BUILD, "program-proved.log")


def kept(target: str) -> str:
    """The path at which the object for a processor is kept, with its assembly next to it."""
    return os.path.join(KEPT, *([] if target == sources.HOST else [target]), f"{sources.PROGRAM}.o")


def is_kept(target: str, stamp: str) -> bool:
    """Whether the object for a processor was made of the sources and by the toolchain with this stamp."""
    return prove.text_of(f"{kept(target)}.sources") == stamp and os.path.exists(assembly.path_of(kept(target)))


def check_linked(kit: str, made: str, proved: str, work: str) -> None:
    """Raises ProofFailed unless the object, linked, is the program at the path `proved`."""
    linked = os.path.join(work, sources.PROGRAM)
    library_proof.run(os.path.join(kit, "bin", "rattle-link"), "--target", library_proof.TARGETS[sources.HOST],
                      "--toolchain", os.path.join(kit, "toolchain"), "-o", linked, made,
                      *(os.path.join(kit, "c", library) for library in ("libos_c.a", "liblibc_c.a")))
    if not filecmp.cmp(linked, proved, shallow=False):
        raise prove.ProofFailed("the program that was compiled again isn't the one that `rt ci` has built")


def compile_program(rt: str, crates: dict[str, str], target: str, made: str, work: str) -> None:
    """Compiles the proved program for a processor, over the crates in the copy, with its assembly next to the object
    `made`. Raises ProofFailed if it is for this machine, and isn't the program of `rt ci`.
    """
    name, kit = sources.PROGRAM, kit_of(shutil.which(rt) or rt)
    keeper = assembly.Keeper(kit, os.path.join(work, "keeper"))
    rlibs = {other: prove.rlib(other) for other in crates if other != name}
    folder = os.path.join(prove.WORK, "crates", name)
    library_proof.run(os.path.join(kit, "bin", "rattle"), "build", "--crate-name", name, "src/main.rt",
                      *library_proof.uses(kit, crates[name], rlibs), "--jobs", "2", "--backend", "llvm",
                      *library_proof.target_words(target), "--toolchain", keeper.toolchain, "-o", made, cwd=folder)
    keeper.keep(made)
    if target == sources.HOST:
        check_linked(kit, made, os.path.join(folder, "out", name), work)


def keep(rt: str, crates: dict[str, str], target: str) -> None:
    """Compiles the program for a processor, and keeps the object with its assembly."""
    with tempfile.TemporaryDirectory() as work:
        made, known = os.path.join(work, f"{sources.PROGRAM}.o"), kept(target)
        compile_program(rt, crates, target, made, work)
        os.makedirs(os.path.dirname(known), exist_ok=True)
        prove.write(f"{known}.sources", "")
        for path, copy in ((made, known), (assembly.path_of(made), assembly.path_of(known))):
            shutil.copyfile(path, copy)


def assembled(rt: str, targets: Iterable[str], tell: Callable[[str], None]) -> dict[str, str]:
    """Returns the path of the object of the proved program by processor; its assembly is next to it. Makes those that
    aren't kept.
    """
    crates = sources.crates()
    stamp = prove.stamp(rt, crates)
    missing = [target for target in targets if not is_kept(target, stamp)]
    if not missing:
        return {target: kept(target) for target in targets}
    tell(f"taking the proofs of {len(crates)} crates, and proving what isn't proved")
    try:
        prove.copy_sources(crates)
        if prove.prove(rt, prove.Progress(crates, tell), LOG) != 0:
            raise prove.ProofFailed(f"{prove.last_lines(LOG)}the program was not proved; all that was printed is in "
                                    f"{LOG}")
        for target in missing:
            tell(f"compiling the program for {target}")
            keep(rt, crates, target)
    finally:
        shutil.rmtree(prove.WORK, ignore_errors=True)
    for target in missing:
        prove.write(f"{kept(target)}.sources", stamp)
    return {target: kept(target) for target in targets}
