"""Builds the program without proof and with run-time checks, in about three minutes on an idle machine.

This depends on how `rt try` works inside: it compiles a program for a test run and keeps nothing. So `rt` is run from a
folder of links to the toolchain in which `clang` is a script of ours. That script keeps the bitcode of the program and
fails; then the toolchain's own clang and linker make the program from it. If any step fails, QuickBuildFailed has the
reason, and the caller makes the proved build. tools/quick_library.py builds the C library in the same way.
"""

from __future__ import annotations

import os
import shutil
import subprocess
import tempfile
import time
from typing import Callable, Iterable, Mapping, Optional

import sources

# The bitcode of a single crate or of the runtime is smaller, that of the program is larger.
LEAST_PROGRAM_BYTES = 4_000_000
# The most seconds between two lines of progress.
QUIET_SECONDS = 10
CLANG = """#!/bin/sh
for word in "$@"; do
  case $word in *module.bc)
    if [ "$(stat -Lc %s "$word")" -gt {least} ]; then
      cp "$word" "{work}/module.bc"
      printf '%s\\n' "$@" >"{work}/flags"
      exit 1
    fi ;;
  esac
done
exec "{kit}/toolchain/bin/clang" "$@"
"""


class QuickBuildFailed(Exception):
    """There is no quick build; the text states the reason."""


class Steps:
    """Runs the commands of a build. When a command begins, and then every ten seconds, prints which part of the build
    runs and the time since the start.
    """

    def __init__(self, tell: Callable[[str], None], crates: int, parts: int) -> None:
        self.tell, self.crates, self.begun = tell, crates, time.monotonic()
        self.parts, self.part = parts, 0  # how many parts the build has, and the number of the one that runs

    def show(self, what: str) -> None:
        self.tell(f"part {self.part} of {self.parts}: {what}, {time.monotonic() - self.begun:.0f} s")

    def begin(self, what: str) -> None:
        self.part += 1
        self.show(what)

    def run(self, what: str, words: list[str], log: str, cwd: str, env: Optional[Mapping[str, str]] = None) -> bool:
        """Runs a command as the next part of the build. Adds its output to the file `log`. Returns whether it
        succeeded.
        """
        self.begin(what)
        with open(log, "ab") as file:
            process = subprocess.Popen(words, cwd=cwd, env=env, stdin=subprocess.DEVNULL, stdout=file, stderr=file)
        try:
            while True:
                try:
                    return process.wait(QUIET_SECONDS) == 0
                except subprocess.TimeoutExpired:
                    self.show(what)
        except BaseException:
            process.terminate()
            process.wait()
            raise


def link_all(source: str, target: str, but: Iterable[str]) -> None:
    """Links all entries of a folder, except the named ones, into a new folder."""
    os.makedirs(target)
    for name in os.listdir(source):
        if name not in but:
            os.symlink(os.path.join(source, name), os.path.join(target, name))


def links_to(kit: str, work: str, least: int) -> str:
    """Makes a folder of links to the toolchain. It has our script in place of `clang`, and copies of `rt` and its
    library, which look for the toolchain next to them. Returns the path of this `rt`.
    """
    top = os.path.join(work, "kit")
    link_all(kit, top, ("bin", "toolchain"))
    link_all(os.path.join(kit, "bin"), os.path.join(top, "bin"), ("rt", "rtlib.py"))
    for name in ("rt", "rtlib.py"):
        shutil.copy(os.path.join(kit, "bin", name), os.path.join(top, "bin"))
    link_all(os.path.join(kit, "toolchain"), os.path.join(top, "toolchain"), ("bin",))
    tools = os.path.join(top, "toolchain", "bin")
    link_all(os.path.join(kit, "toolchain", "bin"), tools, ("clang",))
    clang = os.path.join(tools, "clang")
    with open(clang, "w") as file:
        file.write(CLANG.format(least=least, work=work, kit=kit))
    os.chmod(clang, 0o755)
    return os.path.join(top, "bin", "rt")


def last_line(log: str) -> str:
    with open(log, errors="replace") as file:
        return ([line.strip() for line in file if line.strip()] or ["nothing was printed"])[-1]


def flags_of(work: str, kit: str) -> list[str]:
    """The flags with which `rt` called our `clang`, with optimization, without the sanitizer, and with the toolchain's
    own paths.
    """
    with open(os.path.join(work, "flags")) as file:
        flags = file.read().splitlines()
    changed = [flag.replace(os.path.join(work, "kit"), kit) for flag in flags]
    return ["-O1" if flag == "-O0" else flag for flag in changed if not flag.startswith("-fsanitize=")]


def kit_of(rt: str) -> str:
    """The folder of the toolchain that this `rt` belongs to."""
    return os.path.dirname(os.path.dirname(os.path.realpath(rt)))


def make_bitcode(rt: str, crate: str, least: int, work: str, steps: Steps) -> None:
    """Compiles the program of this crate's folder. Stores its bitcode as `module.bc` in the folder `work`, and clang's
    flags as `flags`. Raises QuickBuildFailed if there is no bitcode.
    """
    log = os.path.join(work, "log")
    try:
        own = links_to(kit_of(rt), work, least)
    except OSError as error:
        raise QuickBuildFailed(f"the toolchain of {rt} isn't laid out as expected: {error}") from error
    # The command fails, because our `clang` fails after it has kept the bitcode.
    env = {**os.environ, "TMPDIR": work}
    steps.run(f"compiling {steps.crates} crates", [own, "try", "--", "--help"], log, crate, env)
    if not os.path.exists(os.path.join(work, "module.bc")):
        raise QuickBuildFailed(f"`rt try` compiled no program: {last_line(log)}")


def run_all(work: str, steps: Steps, commands: Iterable[tuple[str, list[str]]]) -> None:
    """Runs commands in the folder `work`, each with a text about what it does. Raises QuickBuildFailed if one fails."""
    log = os.path.join(work, "log")
    for what, command in commands:
        if not steps.run(what, command, log, work):
            raise QuickBuildFailed(f"{os.path.basename(command[0])} failed: {last_line(log)}")


def build(rt: str, target: str, steps: Steps) -> None:
    """Builds the program without proof as the file `target`."""
    kit = kit_of(rt)
    os.makedirs(os.path.dirname(target), exist_ok=True)
    with tempfile.TemporaryDirectory() as work:
        make_bitcode(rt, os.path.join(sources.CRATES, sources.PROGRAM), LEAST_PROGRAM_BYTES, work, steps)
        libraries = [os.path.join(kit, "c", name) for name in ("libos_c.a", "liblibc_c.a")]
        link = [os.path.join(kit, "bin", "rattle-link"), "--target", "x86_64-unknown-linux-gnu",
                "--toolchain", os.path.join(kit, "toolchain"), "-o", f"{target}.new", "module.o", *libraries]
        run_all(work, steps, [("optimizing", [os.path.join(kit, "toolchain", "bin", "clang"), *flags_of(work, kit)]),
                              ("linking", link)])
    os.replace(f"{target}.new", target)
