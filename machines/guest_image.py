"""The guest's file system: an archive of the format that the kernel unpacks at its start (cpio, newc)."""

from __future__ import annotations

import builtins
import os
import re
import subprocess
from typing import Iterable

HERE = os.path.dirname(os.path.abspath(__file__))
APPLETS = ("sh mount cat ping ip sleep sed tr grep dmesg tail head uname insmod rmmod poweroff").split()
FILE, FOLDER, LINK, DEVICE = 0o100755, 0o040755, 0o120777, 0o020600
BUSYBOX = "/bin/busybox"
ALIGN = 4


def padded(data: bytes) -> bytes:
    return data + bytes(-len(data) % ALIGN)


class Archive:
    """The entries of an archive. The same entries lead to the same bytes."""

    def __init__(self) -> None:
        self.parts: list[builtins.bytes] = []
        self.names: set[str] = set()

    def add(self, name: str, mode: int, data: builtins.bytes = b"", device: tuple[int, int] = (0, 0)) -> None:
        """Adds an entry, after the folders that it is in, unless there is an entry with this name."""
        folder = os.path.dirname(name)
        if folder and folder not in self.names:
            self.add(folder, FOLDER)
        if name in self.names:
            return
        self.names.add(name)
        fields = (len(self.names), mode, 0, 0, 1, 0, len(data), 0, 0, *device, len(name) + 1, 0)
        header = b"070701" + b"".join(b"%08X" % field for field in fields) + name.encode() + b"\0"
        self.parts += [padded(header), padded(data)]

    def add_file(self, name: str, path: str) -> None:
        with open(path, "rb") as file:
            self.add(name, FILE, file.read())

    def add_program(self, name: str, path: str) -> None:
        """Adds a program and the libraries that it loads."""
        self.add_file(name, path)
        for library in libraries_of(path):
            self.add_file(library[1:], library)

    def bytes(self) -> builtins.bytes:
        self.add("TRAILER!!!", 0)
        return b"".join(self.parts)


def libraries_of(program: str) -> list[str]:
    """The libraries that a program loads, and its loader."""
    listed = subprocess.run(["ldd", program], capture_output=True, text=True, check=True).stdout
    return re.findall(r"(/\S+) \(0x", listed)


def base(init: str, applets: Iterable[str]) -> Archive:
    """An archive with the guest's first process and busybox, by the names of its applets."""
    archive = Archive()
    archive.add("dev/console", DEVICE, device=(5, 1))
    archive.add("dev/null", DEVICE, device=(1, 3))
    for folder in ("proc", "sys", "tmp"):
        archive.add(folder, FOLDER)
    archive.add_file("init", init)
    archive.add_file("bin/busybox", BUSYBOX)
    for applet in applets:
        archive.add(f"bin/{applet}", LINK, b"busybox")
    return archive


def image(module: str, traffic: str, ethtool: str) -> bytes:
    """The archive with a driver's module, the test program, and ethtool."""
    archive = base(os.path.join(HERE, "guest", "init"), APPLETS)
    archive.add_file("e1000.ko", module)
    archive.add_file("bin/traffic", traffic)
    archive.add_program("bin/ethtool", ethtool)
    return archive.bytes()
