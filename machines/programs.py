"""Compiles programs, such as the board, the plugin and the test program, unless they are newer than their sources."""

from __future__ import annotations

import glob
import os
import subprocess
from typing import Optional

HERE = os.path.dirname(os.path.abspath(__file__))
FLAGS = ["-std=gnu11", "-O2", "-Wall", "-Wextra", "-D_GNU_SOURCE"]
LIBRARY = "libnic82540em.a"


class BuildFailed(Exception):
    """A compiler failed; the text is what it printed."""


def sources_in(folder: str) -> list[str]:
    return sorted(glob.glob(os.path.join(HERE, folder, "*.c")))


def headers_of(sources: list[str]) -> list[str]:
    """The headers that some sources may include: those in their folders, and those that are shared."""
    folders = {os.path.dirname(source) for source in sources} | {os.path.join(HERE, "shared")}
    return [path for folder in sorted(folders) for path in glob.glob(os.path.join(folder, "*.h"))]


def is_newer(target: str, sources: list[str]) -> bool:
    """Whether a program is newer than all that it is made of."""
    return os.path.exists(target) and all(os.path.getmtime(one) < os.path.getmtime(target) for one in sources)


def compile_program(target: str, sources: list[str], *words: str) -> str:
    archives = [word for word in words if word.endswith(".a")]
    if is_newer(target, [*sources, *headers_of(sources), *archives, os.path.abspath(__file__)]):
        return target
    os.makedirs(os.path.dirname(target), exist_ok=True)
    ran = subprocess.run(["gcc", *FLAGS, "-o", f"{target}.new", *sources, *words], capture_output=True, text=True)
    if ran.returncode != 0:
        raise BuildFailed(f"{os.path.basename(target)}: gcc failed:\n{ran.stderr[-2000:]}")
    os.replace(f"{target}.new", target)
    return target


def board(cache: str, library: Optional[str], *flags: str) -> str:
    """Compiles the board with the adapter of a library (the folder that `tools/library` wrote), or of `nicbench serve`
    (None). Returns the path of the program.
    """
    wanted, other = ("adapter_library.c", "adapter_serve.c") if library else ("adapter_serve.c", "adapter_library.c")
    sources = [source for source in sources_in("board") if os.path.basename(source) != other]
    words = ["-I", os.path.join(library, "include"), os.path.join(library, "lib", LIBRARY)] if library else []
    return compile_program(os.path.join(cache, "bin", f"board_{wanted[8:-2]}"), sources, *words, *flags)


def plugin(cache: str) -> str:
    return compile_program(os.path.join(cache, "bin", "accesses.so"), sources_in("plugin"), "-shared", "-fPIC")


def traffic(cache: str) -> str:
    return compile_program(os.path.join(cache, "bin", "traffic"), sources_in("guest"), "-static")
