"""What a run needs besides this repository: programs, and the unpacked kernel package of Debian."""

from __future__ import annotations

import glob
import lzma
import os
import shutil
import subprocess
import tarfile
import tempfile
from typing import IO, Iterable, Iterator, Optional

TOP = os.path.dirname(os.path.dirname(os.path.abspath(__file__)))
CACHE = os.path.join(TOP, ".build", "machines")
# Programs, each with its package of Debian: those of a guest with busybox, and those of Linux with ethtool
QEMU = {"qemu-system-x86_64": "qemu-system-x86", "gcc": "gcc", "ldd": "libc-bin"}
PROGRAMS = {**QEMU, "ethtool": "ethtool"}
BUSYBOX, HEADER = "/bin/busybox", "/usr/include/stdio.h"
TUN = "/dev/net/tun"
# The words that run a command in a network namespace of its own
NAMESPACE = ["unshare", *([] if os.geteuid() == 0 else ["--map-root-user"]), "--net"]
# The modules that pass a PCI function to user space, in the order in which they can be loaded. A kernel may lack some.
VFIO = ("irqbypass", "iommufd", "vfio", "vfio_virqfd", "vfio_iommu_type1", "vfio-pci-core", "vfio-pci")
UIO = ("uio", "uio_pci_generic")
KERNEL = ("vmlinuz", "e1000.ko", "release")


class Missing(Exception):
    """Something isn't there, or can't be used. The text states the reason, or the command that helps."""


def is_static(path: str) -> bool:
    """Whether a program needs no library at run time."""
    listed = subprocess.run(["ldd", path], capture_output=True, text=True) if os.path.exists(path) else None
    return listed is not None and "not a dynamic" in listed.stderr


def missing_packages(programs: dict[str, str] | None = None) -> list[str]:
    packages = [package for program, package in (programs or PROGRAMS).items() if not shutil.which(program)]
    packages += [] if os.path.exists(HEADER) else ["libc6-dev"]
    return packages + ([] if shutil.which("ldd") and is_static(BUSYBOX) else ["busybox-static"])


def check_programs(programs: dict[str, str] | None = None) -> None:
    """Raises Missing if a package isn't installed. The packages are those of the programs (by default, the programs
    for Linux), of the C library's headers, and of a static busybox.
    """
    packages = missing_packages(programs)
    if packages:
        raise Missing(f"packages are missing: apt-get install --no-install-recommends {' '.join(packages)}")


def check_tap(what: str) -> None:
    """Raises Missing if no TAP device can be made in a network namespace. `what` names the part of a run that needs it.
    """
    if subprocess.run([*NAMESPACE, "true"], capture_output=True).returncode != 0:
        raise Missing(f"`{' '.join(NAMESPACE)}` fails, so {what} can't run: run boot as root")
    if not os.access(TUN, os.R_OK | os.W_OK):
        raise Missing(f"{TUN} can't be opened, so {what} can't run: load the module `tun`")


def kernel_of(cache: str) -> str:
    """Returns the path of the folder with the kernel and its modules. Raises Missing if the folder lacks a file of
    KERNEL.
    """
    folder = os.path.join(cache, "kernel")
    if not all(os.path.exists(os.path.join(folder, name)) for name in KERNEL):
        raise Missing("there is no kernel: run `machines/boot --get-kernel`, which downloads it")
    return folder


def modules_of(cache: str, names: Iterable[str]) -> list[str]:
    """Returns the paths of these modules, without those that the kernel doesn't have."""
    paths = [os.path.join(kernel_of(cache), f"{name}.ko") for name in names]
    return [path for path in paths if os.path.exists(path)]


def newest_kernel() -> str:
    """Returns the name of the package with the newest kernel of this Debian."""
    ran = subprocess.run(["apt-cache", "depends", "linux-image-amd64"], capture_output=True, text=True)
    names = [line.split()[-1] for line in ran.stdout.splitlines() if "Depends:" in line]
    if not names:
        raise Missing("apt knows no package linux-image-amd64: run apt-get update")
    return names[0]


def download(name: str, folder: str) -> str:
    """Downloads a package of Debian; nothing is installed. Returns its path."""
    os.chmod(folder, 0o755)
    ran = subprocess.run(["apt-get", "download", name], cwd=folder, capture_output=True, text=True)
    packages = glob.glob(os.path.join(folder, "*.deb"))
    if not packages:
        raise Missing(f"`apt-get download {name}` failed: {ran.stderr.strip() or 'no package came'}")
    return packages[0]


def files_of(package: str) -> Iterator[tuple[str, IO[bytes]]]:
    """Yields each file in a package: its path, and a file object that reads it."""
    archive = subprocess.Popen(["dpkg-deb", "--fsys-tarfile", package], stdout=subprocess.PIPE, stderr=subprocess.PIPE)
    assert archive.stdout and archive.stderr
    try:
        with tarfile.open(fileobj=archive.stdout, mode="r|") as files:
            for entry in files:
                file = files.extractfile(entry) if entry.isfile() else None
                if file:
                    yield entry.name, file
    except tarfile.ReadError:
        raise Missing(f"{package} isn't a package: {archive.stderr.read().decode().strip()}") from None
    finally:
        archive.stdout.close()
        archive.wait()


def unpack_kernel(package: str, folder: str) -> Optional[str]:
    """Stores the kernel and the modules that guests need in a folder. Returns the kernel's release, or None if the
    package contains no kernel.
    """
    wanted = {f"{name}.ko" for name in ("e1000", *VFIO, *UIO)}
    release = None
    for path, file in files_of(package):
        name, data = os.path.basename(path), None
        if "/boot/vmlinuz-" in path:
            name, release, data = "vmlinuz", name.removeprefix("vmlinuz-"), file.read()
        elif name.removesuffix(".xz") in wanted:
            data = lzma.decompress(file.read()) if name.endswith(".xz") else file.read()
        if data is not None:
            with open(os.path.join(folder, name.removesuffix(".xz")), "wb") as kept:
                kept.write(data)
    return release


def get_kernel(cache: str, wanted: Optional[str] = None) -> str:
    """Unpacks a kernel package into the cache. `wanted` is the path of a package, or the name of one to download; by
    default, the newest is downloaded. Returns the kernel's release.
    """
    folder = os.path.join(cache, "kernel")
    with tempfile.TemporaryDirectory() as work:
        new = os.path.join(work, "kernel")
        os.mkdir(new)
        package = wanted if wanted and wanted.endswith(".deb") else download(wanted or newest_kernel(), work)
        release = unpack_kernel(package, new)
        if release is None or not os.path.exists(os.path.join(new, "e1000.ko")):
            raise Missing(f"{os.path.basename(package)} has no kernel with e1000.ko: use another package, such as"
                          f" {newest_kernel()}")
        with open(os.path.join(new, "release"), "w") as file:
            file.write(f"{release}\n")
        shutil.rmtree(folder, ignore_errors=True)
        shutil.copytree(new, folder)
    return release
