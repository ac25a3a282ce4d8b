"""The shared library: the name by which the loader finds it, and the name for the linker, which leads to it."""

from __future__ import annotations

import os
import shutil

import sources

# The name for the linker, and for programs that load the library themselves
NAME = f"lib{sources.LIBRARY}.so"


def soname(version: str) -> str:
    """The name for the loader. Before version 1.0, a minor version may change the calls."""
    major, minor, _ = version.split(".")
    return f"{NAME}.{major}.{minor}" if major == "0" else f"{NAME}.{major}"


def install(made: str, folder: str, version: str) -> None:
    """Copies a shared library into a folder. There, the name for the linker is a symbolic link. In the repository it is
    a hard link, since `rt ci` refuses a repository with symbolic links.
    """
    file, link = (os.path.join(folder, name) for name in (soname(version), NAME))
    shutil.copyfile(made, f"{file}.new")
    os.replace(f"{file}.new", file)
    if os.path.lexists(f"{link}.new"):
        os.remove(f"{link}.new")
    if os.path.realpath(folder).startswith(f"{sources.TOP}{os.sep}"):
        os.link(file, f"{link}.new")
    else:
        os.symlink(soname(version), f"{link}.new")
    os.replace(f"{link}.new", link)
