"""Builds the object of the C library without proof and with run-time checks, in about a minute on an idle machine.

`rt try` compiles programs only. So the crates of the library are copied, and the crate with the exports becomes a
program: its `main` calls each export. In the program's code, in LLVM's text form, each export then gets its name for C,
and `main` is hidden. If any step fails, QuickBuildFailed has the reason.
"""

from __future__ import annotations

import glob
import os
import re
import shutil
import tempfile
from typing import Iterable

import assembly
import sources
from quick import QuickBuildFailed, Steps, flags_of, kit_of, make_bitcode, run_all

NAME = sources.LIBRARY
# The bitcode of a single crate or of the runtime is smaller, that of the library is larger.
LEAST_LIBRARY_BYTES = 300_000
EXPORT = re.compile(r'^pub extern "C" fn (\w+)\(\s*(.*?),?\s*\)', re.M | re.S)
HANDLE = "&mut Nic"
# A value for each type that a parameter has
VALUES = {"Global": "rt.alloc()", HANDLE: "&mut nic", "&AdapterOptions": "&options", "u32": "0", "u64": "0",
          "bool": "false", "&[u8]": "&line", "&mut [u8]": "&mut bytes", "&mut u32": "&mut word",
          "&mut *const u8": "&mut place", "&mut KeptEvent": "&mut event",
          "&mut ServerHandle": "&mut server", "&mut ComingLine": "&mut coming"}
MAIN = """
fn main(rt: HostRuntime) {
    let mut nic = Nic { held: false, owner: owner::probed(rt.alloc()) };
    let mut other = Nic { held: false, owner: owner::probed(rt.alloc()) };
    let mut server = ServerHandle { held: false, owner: server_owner::probed(rt.alloc()) };
    let mut coming = ComingLine { kind: 0, round: 0, access: 0, address: 0, limit: 0 };
    let options = AdapterOptions { memory: 0, link: 0, receive_kilobytes: 0, address: [0; 6], has_image: false, missed: 0, image: [0; 64] };
    let mut event = KeptEvent { what: 0, kind: 0, value: 0, reason: 0, index: 0 };
    let line = [0_u8; 1];
    let mut bytes = [0_u8; 1];
    let mut word = 0_u32;
    let mut place: *const u8 = std::ptr::null();
    CALLS
    let Nic { held: _, owner } = nic;
    owner::end(owner);
    let Nic { held: _, owner } = other;
    owner::end(owner);
    let ServerHandle { held: _, owner } = server;
    server_owner::end(owner);
}
"""
OWNER = """
pub(crate) fn probed(alloc: Global) -> Owner {
    Owner::empty(alloc)
}

pub(crate) fn end(owner: Owner) {
    let _alloc = owner.into_alloc();
}
"""


def read(path: str) -> str:
    with open(path) as file:
        return file.read()


def write(path: str, text: str) -> None:
    with open(path, "w") as file:
        file.write(text)


def exports(text: str) -> dict[str, list[str]]:
    """Returns the names of the exports, each with the types of its parameters. Raises QuickBuildFailed if VALUES lacks
    one of these types.
    """
    found = {name: [part.split(": ")[1] for part in re.split(r",\s+", parameters)]
             for name, parameters in EXPORT.findall(text)}
    for name, types in found.items():
        for unknown in (kind for kind in types if kind not in VALUES):
            raise QuickBuildFailed(f"{name} has a parameter of type {unknown}: add a value to tools/quick_library.py")
    return found


def values_of(types: list[str]) -> list[str]:
    """Returns a value for each of these types of parameters. The first handle is `nic`, and each other handle is
    `other`.
    """
    return ["&mut other" if kind == HANDLE and HANDLE in types[:place] else VALUES[kind]
            for place, kind in enumerate(types)]


def copy(crates: dict[str, str], top: str) -> tuple[str, list[str]]:
    """Copies the crates into the folder `top`; the one with the exports becomes a program. Returns the folder of this
    crate, and the names of the exports.
    """
    for crate in crates:
        shutil.copytree(os.path.join(sources.CRATES, crate), os.path.join(top, "crates", crate),
                        ignore=shutil.ignore_patterns(*sources.UNREAD))
    os.makedirs(os.path.join(top, ".git"))
    shutil.copy(os.path.join(sources.TOP, "HANDLES"), top)
    lines = [line.replace(f"{NAME} staticlib:", f"{NAME}:") for line in crates.values()]
    write(os.path.join(top, "crates.txt"), "".join(lines))
    folder = os.path.join(top, "crates", NAME)
    names = "lib.rt", "owner.rt", "server_owner.rt"
    library, owner, server_owner = (os.path.join(folder, "src", name) for name in names)
    text = read(library)
    # the exports of all modules can be called by their names in the program's root
    found = exports("\n".join(read(path) for path in sorted(glob.glob(os.path.join(folder, "src", "*.rt")))))
    calls = [f"{name}({', '.join(values_of(types))});" for name, types in found.items()]
    write(os.path.join(folder, "src", "main.rt"), text + MAIN.replace("CALLS", "\n    ".join(calls)))
    os.remove(library)
    write(owner, read(owner) + OWNER)
    write(server_owner, read(server_owner) + OWNER.replace("Owner", "ServerOwner"))
    return folder, list(found)


def exported(text: str, names: Iterable[str]) -> str:
    """Returns the code, in which each export has its name for C, and `main` is hidden. Raises QuickBuildFailed unless
    the code defines each export once.
    """
    for name in names:
        inner = rf'@"{NAME}::(?:\w+::)?{name}"\('
        text, count = re.subn(rf'^define internal (.*){inner}', rf"define \1@{name}(", text, flags=re.M)
        if count != 1:
            raise QuickBuildFailed(f"the code has {count} functions {name}")
        text = re.sub(inner, f"@{name}(", text)
    return re.sub(r"^define (.*@main\()", r"define internal \1", text, flags=re.M)


def build(rt: str, crates: dict[str, str], target: str, steps: Steps) -> None:
    """Builds the object of the library without proof as the file `target`, with its assembly next to it."""
    kit = kit_of(rt)
    with tempfile.TemporaryDirectory() as work, tempfile.TemporaryDirectory() as top:
        keeper = assembly.Keeper(kit, os.path.join(work, "keeper"))
        clang = keeper.clang
        folder, names = copy(crates, top)
        make_bitcode(rt, folder, LEAST_LIBRARY_BYTES, work, steps)
        flags = ["-fPIC" if flag == "-fPIE" else flag for flag in flags_of(work, kit)]
        plain = [clang, "--target=x86_64-unknown-linux-gnu", "-x", "ir", "module.bc", "-S", "-emit-llvm", "-O0",
                 "-Xclang", "-disable-llvm-passes", "-o", "module.ll"]
        run_all(work, steps, [("reading the code", plain)])
        code = os.path.join(work, "module.ll")
        write(code, exported(read(code), names))
        flags = ["module.ll" if flag == "module.bc" else flag for flag in flags]
        run_all(work, steps, [("optimizing", [clang, *flags])])
        shutil.copyfile(os.path.join(work, "module.o"), target)
        keeper.keep(target)
