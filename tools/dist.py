"""The folder dist: the last release for everybody who has a C compiler, as tools/amalgamation --dist has written it.

usage: python3 tools/dist.py, which prints for each part of dist whether the sources have changed since
       python3 tools/dist.py unpack PART FOLDER, which writes the files of a part (nic82540em, nicbench)

This needs no toolchain. If no source has changed since, all files but the assembly must be those that the present
sources give; otherwise the exit status is 1. That sources have changed is no fault.
"""

from __future__ import annotations

import hashlib
import io
import os
import re
import shutil
import subprocess
import sys
import tarfile
import tempfile
from typing import Callable, Optional

sys.path.insert(0, os.path.dirname(os.path.abspath(__file__)))
import shared_object  # noqa: E402
import sources  # noqa: E402
from amalgamating import contents  # noqa: E402
from packing import archive  # noqa: E402

FOLDER = os.path.join(sources.TOP, "dist")
SOURCES_OF = {sources.LIBRARY: contents.library_sources, sources.PROGRAM: contents.program_sources}


class NoRelease(Exception):
    """There is nothing to build from; the text states the reason."""


def packed(part: str) -> str:
    return os.path.join(FOLDER, f"{part}.tar.xz")


def is_there(part: str) -> bool:
    return os.path.exists(packed(part))


def write(tree: Optional[archive.Tree], part: str, moment: int) -> None:
    """Writes a part of dist, or removes it if there is no tree."""
    import lzma

    if tree is None:
        if is_there(part):
            os.remove(packed(part))
        return
    data = lzma.compress(archive.tar_bytes(tree, part, moment), preset=9 | lzma.PRESET_EXTREME)
    os.makedirs(FOLDER, exist_ok=True)
    with open(f"{packed(part)}.new", "wb") as file:
        file.write(data)
    os.replace(f"{packed(part)}.new", packed(part))


def unpacked(data: bytes) -> bytes:
    """The bytes that were packed by xz. A Python without its module needs the command."""
    try:
        import lzma
    except ImportError:
        try:
            return subprocess.run(["xz", "-dc"], input=data, stdout=subprocess.PIPE, check=True).stdout
        except (OSError, subprocess.CalledProcessError) as error:
            raise NoRelease("this Python has no module lzma: install xz (xz-utils in Debian)") from error
    try:
        return lzma.decompress(data)
    except lzma.LZMAError as error:
        raise NoRelease(f"dist isn't whole: {error}") from error


def files_of(part: str) -> dict[str, str]:
    """The files of a part of dist, by their paths."""
    with open(packed(part), "rb") as file:
        data = unpacked(file.read())
    found = {}
    with tarfile.open(fileobj=io.BytesIO(data)) as tar:
        for member in tar:
            inner = tar.extractfile(member)
            assert inner is not None
            found[os.path.relpath(member.name, part)] = inner.read().decode()
    return found


def versions(files: dict[str, str]) -> dict[str, str]:
    """The lines of the file VERSION: a name, and what follows it."""
    return {name: rest for name, _, rest in (line.partition(" ") for line in files["VERSION"].splitlines())}


def sums(text: str) -> dict[str, str]:
    """The checksums of a list of sources, by their paths."""
    return {path: checksum for checksum, path in (line.split(" ", 1) for line in text.splitlines())}


def named(files: dict[str, str]) -> str:
    """The release in dist, as a text."""
    return f"the release {versions(files)['version']} in dist"


def changed(part: str, files: dict[str, str]) -> list[str]:
    """The paths of the sources that have changed since a part of dist was written."""
    before, now = sums(files[contents.SOURCES]), sums(contents.list_of(SOURCES_OF[part]()))
    return sorted(path for path in {*before, *now} if before.get(path) != now.get(path))


def since(part: str, files: dict[str, str]) -> str:
    """How many files have changed since, as a text, or an empty text if none has."""
    count = len(changed(part, files))
    changes = f"{count} file{'s' if count > 1 else ''} changed"
    return f"{changes} since {named(files)}" if count else ""


def release(part: str, is_wanted: bool, remedy: str) -> dict[str, str]:
    """The files of a part of dist, if the sources haven't changed since, or if the release is wanted as it is. Raises
    NoRelease if they have changed, with the command that takes the release.
    """
    if not is_there(part):
        raise NoRelease(f"there is no {os.path.relpath(packed(part), sources.TOP)}")
    files = files_of(part)
    text = "" if is_wanted else since(part, files)
    if text:
        raise NoRelease(f"{text}: `{remedy}` takes the release")
    return files


def run(*words: str, cwd: str, **env: str) -> None:
    ran = subprocess.run(words, cwd=cwd, env={**os.environ, **env}, stdin=subprocess.DEVNULL, stdout=subprocess.PIPE,
                         stderr=subprocess.STDOUT, text=True, errors="replace")
    if ran.returncode != 0:
        raise NoRelease(f"`{' '.join(words)}` failed:\n{ran.stdout[-2000:]}")


def unpack(files: dict[str, str], folder: str) -> list[str]:
    """Writes files into a folder. Returns the paths of those of assembly."""
    for path, text in files.items():
        target = os.path.join(folder, path)
        os.makedirs(os.path.dirname(target), exist_ok=True)
        with open(target, "w", encoding="utf-8") as file:
            file.write(text)
    return sorted(path for path in files if path.endswith(".S"))


def build_program(files: dict[str, str], target: str) -> None:
    """Builds the program as the file `target`, by the system's C compiler, or the one that CC names."""
    os.makedirs(os.path.dirname(target), exist_ok=True)
    with tempfile.TemporaryDirectory() as work:
        code = unpack(files, work)
        run(os.environ.get("CC") or "cc", "-O2", "-o", f"{target}.new", "nicbench_runtime.c", "nicbench_heap.c", *code,
            cwd=work)
        shutil.move(os.path.join(work, f"{target}.new"), f"{target}.new")
    os.replace(f"{target}.new", target)


def build_library(files: dict[str, str], work: str, root: str, compiler: str, archiver: str) -> None:
    """Unpacks a release into the folder `work`. Builds its library and its explorer in the folder `root`."""
    code = unpack(files, work)
    lib, bindings = os.path.join(root, "lib"), os.path.join(work, "bindings", "c")
    for path in (*code, os.path.join(bindings, "heap.c")):
        run(compiler, "-O2", "-fPIC", "-c", path, cwd=work)
    objects = [f"{os.path.splitext(path)[0]}.o" for path in code]
    library = [*(name for name in objects if name.startswith(sources.LIBRARY)), "heap.o"]
    made = {f"lib{sources.LIBRARY}.a": library,
            f"lib{sources.SEARCH}.a": [name for name in objects if sources.SEARCH in name]}
    for name, parts in made.items():
        run(archiver, "rcsD", name, *parts, cwd=work)
    header, version = f"{sources.LIBRARY}.h", versions(files)["version"]
    run(compiler, "-shared", f"-Wl,-soname,{shared_object.soname(version)}", "-o", shared_object.NAME, *library,
        cwd=work)
    shared_object.install(os.path.join(work, shared_object.NAME), lib, version)
    for path, folder in ((f"lib{sources.LIBRARY}.a", lib), (header, os.path.join(root, "include"))):
        target = os.path.join(folder, path)
        shutil.copyfile(os.path.join(work, path), f"{target}.new")
        os.replace(f"{target}.new", target)
    run("sh", os.path.join(bindings, "explore", "build"), root, os.path.join(work, f"lib{sources.SEARCH}.a"), cwd=work,
        CC=compiler, AR=archiver)


def digest(part: str) -> str:
    """The checksum of a part of dist."""
    with open(packed(part), "rb") as file:
        return hashlib.sha256(file.read()).hexdigest()


def faults(part: str, files: dict[str, str]) -> list[str]:
    """The files of a part of dist that the present sources don't give, though no source has changed since. An unproved
    amalgamation has no place in dist.
    """
    said = versions(files)["version"], files["VERSION"]
    library = {**contents.copies(*said), **contents.apart()}
    wanted = library if part == sources.LIBRARY else contents.program_copies(*said)
    found = {path: text for path, text in files.items() if not path.endswith(".S")}
    if "NOT" in versions(files):
        found["VERSION"] = "NOT PROVED"
    return sorted(path for path in {*found, *wanted} if found.get(path) != wanted.get(path))


def check(tell: Callable[[str], None]) -> bool:
    """Checks all parts of dist. Returns whether there is a fault."""
    is_wrong = False
    for part in filter(is_there, SOURCES_OF):
        files = files_of(part)
        text = since(part, files)
        wrong = [] if text else faults(part, files)
        for path in wrong:
            tell(f"dist: {part}: {path} isn't what these sources give")
        is_wrong = is_wrong or bool(wrong)
        if not wrong:
            tell(f"dist: {part}: {text or 'of these sources'}")
    return is_wrong


if __name__ == "__main__":
    try:
        if sys.argv[1:2] == ["unpack"] and len(sys.argv) == 4 and sys.argv[2] in SOURCES_OF:
            unpack(release(sys.argv[2], True, ""), sys.argv[3])
        elif sys.argv[1:]:
            sys.exit(__doc__)
        else:
            sys.exit(check(print))
    except NoRelease as reason:
        sys.exit(str(reason))
