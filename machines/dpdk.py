"""A host on DPDK's net_e1000_em: a program in user space that answers pings, and sends some."""

from __future__ import annotations

import glob
import os
import shutil
import subprocess
import tempfile
from typing import TYPE_CHECKING, Callable, Iterable

import needs
import programs
from guest_image import FILE, base
from linux import KERNEL_WORDS, clock_words
from machine import Machine

if TYPE_CHECKING:
    from argparse import Namespace

HERE = os.path.dirname(os.path.abspath(__file__))
LIBRARIES = "/usr/lib/x86_64-linux-gnu"
VERSION = "23"  # of the libraries of DPDK 22.11
NEEDED = ("ethdev", "eal", "mbuf", "mempool", "net_e1000", "bus_pci", "mempool_ring", "kvargs")
PACKAGES = ("librte-net-e1000-23", "librte-mempool-ring23")
HEADERS = ("libdpdk-dev", "libbsd-dev")
APPLETS = "sh mount cat insmod mkdir poweroff".split()


def get_headers(cache: str) -> str:
    """Downloads the headers of DPDK, and unpacks them; nothing is installed. Returns their folder."""
    folder = os.path.join(cache, "dpdk")
    shutil.rmtree(folder, ignore_errors=True)
    for name in HEADERS:
        with tempfile.TemporaryDirectory() as work:
            subprocess.run(["dpkg-deb", "-x", needs.download(name, work), os.path.join(work, "all")], check=True)
            shutil.copytree(os.path.join(work, "all", "usr", "include"), folder, dirs_exist_ok=True)
    return folder


def check(cache: str) -> None:
    """Raises needs.Missing unless QEMU, and the libraries and the headers of DPDK, are there."""
    needs.check_programs(needs.QEMU)
    if not all(glob.glob(f"{LIBRARIES}/librte_{name}.so.{VERSION}") for name in NEEDED):
        raise needs.Missing(f"packages are missing: apt-get install --no-install-recommends {' '.join(PACKAGES)}")
    if not os.path.exists(os.path.join(cache, "dpdk", "dpdk", "rte_ethdev.h")):
        raise needs.Missing("there are no headers of DPDK: run `machines/boot --get-dpdk`, which downloads them")


def includes(cache: str) -> list[str]:
    """The compiler's words for the headers."""
    folder = os.path.join(cache, "dpdk")
    paths = [folder, os.path.join(folder, "dpdk"), os.path.join(folder, "x86_64-linux-gnu", "dpdk")]
    return ["-march=corei7", "-include", "rte_config.h", *(f"-I{path}" for path in paths), "-Wno-unused-parameter"]


def libraries(names: Iterable[str]) -> list[str]:
    """The compiler's words for some libraries of DPDK."""
    return [f"-L{LIBRARIES}", "-Wl,--no-as-needed", *(f"-l:librte_{name}.so.{VERSION}" for name in names)]


def host(cache: str) -> str:
    """Compiles the program of the host. Returns its path."""
    target, sources = os.path.join(cache, "bin", "dpdk_host"), programs.sources_in("dpdk_guest")
    return programs.compile_program(target, sources, *includes(cache), *libraries(NEEDED))


def machine_of(words: Namespace, board: list[str], pings: int) -> Machine:
    """The guest, with a new image."""
    check(words.cache)
    kernel, modules = needs.kernel_of(words.cache), needs.modules_of(words.cache, needs.UIO)
    archive = base(os.path.join(HERE, "dpdk_guest", "init"), APPLETS)
    archive.add_program("bin/host", words.host or host(words.cache))
    for path in modules:
        archive.add_file(os.path.basename(path), path)
    names = " ".join(os.path.basename(path).removesuffix(".ko") for path in modules)
    archive.add("words", FILE, f"pings='{pings}'\nmodules='{names}'\n".encode())
    path = os.path.join(words.cache, "image")
    with open(path, "wb") as file:
        file.write(archive.bytes())
    append = f"{KERNEL_WORDS} {clock_words(words.sweep and not words.at_once)}"
    qemu = ["-kernel", os.path.join(kernel, "vmlinuz"), "-initrd", path, "-append", append]
    return Machine(board, os.path.join(words.cache, "console"), qemu, megabytes=256, cpu="Nehalem")


def run(words: Namespace, board: list[str], tell: Callable[[str], None]) -> bool:
    """Boots DPDK's host. Returns whether all of its pings were answered."""
    results = []
    for line in machine_of(words, board, words.pings).lines():
        tell(f"DPDK: {line}")
        results.append(line.split(":")[0])
    return results == ["passed start", "passed ping"]
