"""What a release contains: the tree of the archive, and the same files where a Debian package has them."""

import email.utils
import gzip
import os
import subprocess
import tempfile

import shared_object
import sources
from packing import header_pages, help_texts
from packing.archive import Tree
from page_maker.command import MARK, make_site

NAME = sources.LIBRARY
FOLDERS = ("docs", "examples", "machines", "bench", "bindings", "crates", "finder")
FILES = ("CHANGELOG.md", "LICENSE",
         *(os.path.join("tools", name) for name in ("run_chart", "sources.py", "to_pcap")))
# The page for readers without the toolchain, in place of the README.md of the repository
PAGE = os.path.join(os.path.dirname(os.path.abspath(__file__)), "release.txt")
SHARED = f"lib/{shared_object.NAME}"
# The site of tools/pages
SITE = os.path.join("share", "doc", "nicbench", "site")
# The pages show the command `./nicbench --build`. In a release, the program is built already.
SCRIPT = """#!/bin/sh
# Runs the program of this release with the given words. `--build` has nothing to do.
if [ "${1-}" = --build ]; then
    shift
    [ $# -gt 0 ] || exit 0
fi
self=$(readlink -f "$0")
exec "${self%/*}/bin/nicbench" "$@"
"""
# In a release, the program of tools/races is built already.
RACES = """#!/bin/sh
# Finds races: see finder/README.md, or --help.
self=$(readlink -f "$0")
export NIC_CHART="${NIC_CHART-${self%/*}/run_chart}"
exec "${self%/*/*}/bin/races" "$@"
"""
FINDER = """#!/bin/sh
# Finds races: see nicbench-races(1).
exec /usr/share/nicbench/tools/races "$@"
"""


def add_site(tree):
    """Adds the site. It is made without the toolchain's sources, so it depends only on the repository."""
    with tempfile.TemporaryDirectory() as folder:
        make_site(folder, "")
        os.remove(os.path.join(folder, MARK))
        tree.add_folder(folder, SITE)


def page(version, notes):
    """The README.md of a release. Its line @NOT PROVED@ is left out unless `notes` begin with these words."""
    with open(PAGE, encoding="utf-8") as file:
        text = file.read().replace("@VERSION@", version)
    first, _, rest = text.partition("@\n\n")
    is_proved = not notes.startswith("NOT PROVED")
    return first.rpartition("@")[0] + rest if is_proved else first.replace("@", "") + "\n\n" + rest


def add_library(tree, library, version):
    """Adds the C library. The name of the shared library for the linker becomes a link."""
    for name in ("lib", "include"):
        tree.add_folder(os.path.join(library, name), name)
    del tree.files[SHARED]
    tree.programs.discard(SHARED)
    tree.links[SHARED] = shared_object.soname(version)
    assert f"lib/{tree.links[SHARED]}" in tree.files, f"{library} has no {tree.links[SHARED]}"


def add_races(tree, library, program):
    """Adds the program of tools/races, linked with this library. Returns the help texts of both programs."""
    tree.add("tools/races", RACES, True)
    with tempfile.TemporaryDirectory() as folder:
        path = os.path.join(folder, "races")
        subprocess.run([os.path.join(sources.TOP, "bindings", "c", "races", "build"), library, path], check=True)
        tree.add_file(path, "bin/races")
        return help_texts.texts(program, [path])


def add_man_pages(tree, found, version, moment):
    """Adds the pages of the help texts, in section 1, and those of the headers and their calls, in section 3."""
    for name, text in help_texts.man_pages(found, version, moment).items():
        tree.add(f"share/man/man1/{name}", text)
    pages, names = header_pages.man_pages(sources.TOP, version, moment)
    for name, text in pages.items():
        tree.add(f"share/man/man3/{name}", text)
    tree.links.update({f"share/man/man3/{name}": target for name, target in names.items()})


def release_tree(program, library, version, notes, moment):
    """The tree of the archive. `notes` is the text of its file VERSION."""
    tree = Tree()
    tree.add("README.md", page(version, notes))
    tree.add_file(program, "bin/nicbench")
    tree.add("nicbench", SCRIPT, True)
    # where the finder and other scripts look for the program and the library
    tree.links.update({".build/nicbench": "../bin/nicbench", ".build/library": ".."})
    for name in FILES:
        tree.add_file(os.path.join(sources.TOP, name), name)
    for name in FOLDERS:
        tree.add_folder(os.path.join(sources.TOP, name), name)
    add_library(tree, library, version)
    tree.add("VERSION", notes)
    found = add_races(tree, library, program)
    add_man_pages(tree, found, version, moment)
    tree.add("share/bash-completion/completions/nicbench", help_texts.bash(found))
    tree.add("share/zsh/site-functions/_nicbench", help_texts.zsh(found))
    add_site(tree)
    return tree


def place(path):
    """The path in a Debian package at which a file of the archive is installed."""
    places = {"bin/nicbench": "usr/bin/nicbench", "bin/races": "usr/lib/nicbench/races",
              "LICENSE": "usr/share/doc/nicbench/copyright",
              "share/zsh/site-functions/_nicbench": "usr/share/zsh/vendor-completions/_nicbench"}
    is_system = path.split("/")[0] in ("lib", "include", "share")
    return places.get(path) or f"usr/{path}" if is_system or path in places else f"usr/share/nicbench/{path}"


def stripped(data):
    """A program or a shared library without the symbols that only a debugger needs."""
    with tempfile.TemporaryDirectory() as folder:
        path = os.path.join(folder, "file")
        with open(path, "wb") as file:
            file.write(data)
        subprocess.run(["strip", "--strip-unneeded", path], check=True)
        with open(path, "rb") as file:
            return file.read()


def history(version, maintainer, moment):
    """The history of the package, in Debian's form."""
    date = email.utils.formatdate(moment)
    return (f"nicbench ({version}) unstable; urgency=medium\n\n  * The changes are in /usr/share/nicbench/CHANGELOG.md."
            f"\n\n -- {maintainer}  {date}\n")


def debian_links(tree):
    """The links of a Debian package: those of the archive at other places, and more."""
    found = {}
    for path, target in tree.links.items():
        if path.startswith("share/man/"):
            found[f"{place(path)}.gz"] = f"{target}.gz"
        elif path.startswith("lib/"):
            found[place(path)] = target
    return {
        **found,
        "usr/share/nicbench/bin/nicbench": "../../../bin/nicbench",
        "usr/share/nicbench/bin/races": "../../../lib/nicbench/races",
        "usr/share/nicbench/.build/nicbench": "../../../bin/nicbench",
        "usr/share/nicbench/.build/library": "../../..",
        "usr/share/nicbench/LICENSE": "../doc/nicbench/copyright",
        "usr/share/doc/nicbench/README.md": "../../nicbench/README.md",
        "usr/share/bash-completion/completions/nicbench-races": "nicbench",
    }


def debian_tree(tree, version, maintainer, moment):
    """The tree of a Debian package with the same files; programs and shared libraries have fewer symbols."""
    made = Tree()
    for path, data in tree.files.items():
        target = place(path)
        if path.endswith(".pc"):
            data = data.replace(b"prefix=${pcfiledir}/../..\n", b"prefix=/usr\n", 1)
        elif path.startswith("share/man/"):
            target, data = f"{target}.gz", gzip.compress(data, 9, mtime=0)
        elif path in ("bin/nicbench", "bin/races") or path.startswith(f"{SHARED}."):
            data = stripped(data)
        made.add(target, data, path in tree.programs)
    made.add("usr/bin/nicbench-races", FINDER, True)
    text = history(version, maintainer, moment).encode()
    made.add("usr/share/doc/nicbench/changelog.gz", gzip.compress(text, 9, mtime=0))
    for name in ("__init__.py", "__main__.py", "calls.py", "server.py", "py.typed"):
        made.add(f"usr/lib/python3/dist-packages/{NAME}/{name}", tree.files[f"bindings/python/{NAME}/{name}"])
    made.links.update(debian_links(tree))
    return made


def shlibs(version):
    """The line by which other packages find what they need for the shared library."""
    number = version.partition("~")[0]
    return f"lib{NAME} {shared_object.soname(number).partition('.so.')[2]} nicbench (>= {version})\n"


def control(version, maintainer):
    """The fields of the Debian package."""
    return {
        "Package": "nicbench", "Version": version, "Architecture": "amd64", "Maintainer": maintainer,
        "Section": "devel", "Priority": "optional", "Depends": "libc6 (>= 2.34), python3 (>= 3.8)",
        "Suggests": "gcc, pkg-config, qemu-system-x86, wireshark-common",
        "Description": "test bench for drivers of the Intel 82540EM\n"
                       " A model of the adapter, a finder of races between a driver and the adapter, a\n"
                       " library of the model for C, and a proved driver. The pages are in\n"
                       " /usr/share/nicbench; README.md is the first.",
    }
