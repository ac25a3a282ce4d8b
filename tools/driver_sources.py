"""The sources of other people's drivers: from a folder, or from a source package of Debian."""

from __future__ import annotations

import glob
import os
import re
import shutil
import subprocess
import tarfile
import tempfile

import sources

CACHE = os.path.join(sources.BUILD, "drivers")
E1000 = "drivers/net/ethernet/intel/e1000"
UBOOT = "drivers/net"
UBOOT_FILES = f"{UBOOT}/e1000.c", f"{UBOOT}/e1000.h", "include/pci_ids.h"
APT = "/etc/apt"
SECONDS = 600  # for a download


class NoSource(Exception):
    """The source can't be fetched, or isn't one. The text states the reason, and what helps."""


def run(command: list[str], folder: str) -> str:
    """Runs a program in a folder, and returns its output. Raises NoSource if it fails."""
    try:
        ran = subprocess.run(command, cwd=folder, capture_output=True, text=True, timeout=SECONDS, check=False)
    except (OSError, subprocess.TimeoutExpired) as error:
        raise NoSource(f"{command[0]}: {error}") from error
    if ran.returncode:
        lines = ran.stderr.strip().splitlines() or [f"exit status {ran.returncode}"]
        shown = [word for word in command if word != "-o" and "::" not in word]
        raise NoSource(f"{' '.join(shown)}: {lines[-1]}")
    return ran.stdout


def unpack(archive: str, inner: str, into: str) -> None:
    """Copies the files of the folder E1000 out of an archive of Linux. If `archive` is a package, it contains the
    archive as the file `inner`.
    """
    with tempfile.TemporaryDirectory(dir=into) as work:
        if archive.endswith(".deb"):
            run(["sh", "-c", 'dpkg-deb --fsys-tarfile "$1" | tar -x "$2"', "sh", archive, f"./{inner}"], work)
            archive = os.path.join(work, inner)
        with tarfile.open(archive, "r|xz") as files:
            found = 0
            for entry in files:
                if E1000 + "/" in entry.name and entry.isfile():
                    data = files.extractfile(entry)
                    with open(os.path.join(into, os.path.basename(entry.name)), "wb") as file:
                        shutil.copyfileobj(data, file) if data else None
                    found += 1
                elif found:
                    break  # the driver's files come one after the other


def fetched(version: str) -> tuple[str, str]:
    """The folder with the driver of Debian's package linux-source-VERSION, and the package's version. The first call
    fetches the package, and unpacks the driver, which takes a minute.
    """
    package = f"linux-source-{version}"
    folder, installed = os.path.join(CACHE, package), f"/usr/src/{package}.tar.xz"
    named = os.path.join(folder, "version")
    if os.path.exists(named):
        with open(named) as file:
            return folder, file.read().strip()
    os.makedirs(CACHE, exist_ok=True)
    with tempfile.TemporaryDirectory(dir=CACHE) as work:
        made = os.path.join(work, "driver")
        os.mkdir(made)
        if os.path.exists(installed):
            found = run(["dpkg-query", "-W", "-f", "${Version}", package], work)
            unpack(installed, "", made)
        else:
            run(["apt-get", "download", package], work)
            archive = glob.glob(os.path.join(work, "*.deb"))[0]
            found = re.sub(r".*?_(.*)_all\.deb", r"\1", os.path.basename(archive))
            unpack(archive, installed.lstrip("/"), made)
        check(made)
        with open(os.path.join(made, "version"), "w") as file:
            file.write(f"{found}\n")
        shutil.rmtree(folder, ignore_errors=True)
        os.rename(made, folder)
    return folder, found


def check(folder: str) -> None:
    """Raises NoSource if the folder hasn't the driver's files."""
    if not os.path.exists(os.path.join(folder, "e1000_main.c")):
        raise NoSource(f"{folder} has no file e1000_main.c")


def linux(given: str | None, version: str) -> tuple[str, str]:
    """The folder with Linux's driver, and its version: a given one (a tree of Linux, or the driver's own), or that of
    Debian's package.
    """
    if given is None:
        return fetched(version)
    inner = os.path.join(given, E1000)
    folder = inner if os.path.isdir(inner) else given
    check(folder)
    return folder, "of the folder that was given"


def own_lists(work: str) -> list[str]:
    """Options of apt-get for the system's sources with `deb-src`, whose lists are in a folder. The system's APT isn't
    changed.
    """
    parts, lists = os.path.join(work, "parts"), os.path.join(work, "lists")
    os.makedirs(parts)
    os.makedirs(os.path.join(lists, "partial"))
    for path in [f"{APT}/sources.list", *glob.glob(f"{APT}/sources.list.d/*")]:
        if os.path.isfile(path) and path.endswith((".list", ".sources")):
            with open(path) as file, open(os.path.join(parts, os.path.basename(path)), "w") as copy:
                copy.write(re.sub(r"(?m)^(Types:\s*)?deb(?=\s)(\s+deb-src\b)?", r"\1deb-src", file.read()))
    options = {"Dir::Etc::SourceList": "/dev/null", "Dir::Etc::SourceParts": parts, "Dir::State::Lists": lists,
               "Dir::Cache": work, "APT::Sandbox::User": "root"}
    return [word for name, value in options.items() for word in ("-o", f"{name}={value}")]


def downloaded(work: str) -> str:
    """The archive of U-Boot's source package, which is downloaded to a folder. If APT has no `deb-src`, the lists of
    source packages are downloaded, too.
    """
    words = ["source", "--download-only", "u-boot"]
    try:
        run(["apt-get", *words], work)
    except NoSource:
        options = own_lists(work)
        run(["apt-get", *options, "update"], work)
        run(["apt-get", *options, *words], work)
    return glob.glob(os.path.join(work, "u-boot_*.orig.tar.*"))[0]


def uboot_fetched() -> tuple[str, str]:
    """A tree with U-Boot's driver and what it includes, and the version. The first call downloads Debian's package."""
    folder = os.path.join(CACHE, "u-boot")
    named = os.path.join(folder, "version")
    if not os.path.exists(named):
        os.makedirs(CACHE, exist_ok=True)
        with tempfile.TemporaryDirectory(dir=CACHE) as work:
            archive, made = downloaded(work), os.path.join(work, "made")
            with tarfile.open(archive) as files:
                for entry in files:
                    inner = entry.name.partition("/")[2]
                    data = files.extractfile(entry) if inner in UBOOT_FILES else None
                    if data:
                        os.makedirs(os.path.dirname(os.path.join(made, inner)), exist_ok=True)
                        with open(os.path.join(made, inner), "wb") as file:
                            shutil.copyfileobj(data, file)
            check_uboot(made)
            with open(os.path.join(made, "version"), "w") as file:
                file.write(re.sub(r".*?_(.*)\.orig\.tar\..*", r"\1\n", os.path.basename(archive)))
            shutil.rmtree(folder, ignore_errors=True)
            os.rename(made, folder)
    with open(named) as file:
        return folder, file.read().strip()


def check_uboot(folder: str) -> None:
    """Raises NoSource if the folder isn't a tree of U-Boot."""
    for name in UBOOT_FILES:
        if not os.path.exists(os.path.join(folder, name)):
            raise NoSource(f"{folder} has no file {name}")


def uboot(given: str | None) -> tuple[str, str]:
    """A tree of U-Boot, and its version: a given one, or that of Debian's package."""
    if given is None:
        return uboot_fetched()
    check_uboot(given)
    return given, "of the folder that was given"
