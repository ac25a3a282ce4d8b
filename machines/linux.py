"""Linux with its own e1000 driver: stages, and sweeps with a test program in the guest."""

from __future__ import annotations

import os
import shlex
import shutil
import time
from typing import TYPE_CHECKING, Callable

import needs
import programs
from guest_image import image
from machine import Ended, Machine
from sweep_report import Report

if TYPE_CHECKING:
    from argparse import Namespace

STAGES = ("ping", "udp", "tcp", "groups", "reload", "ethtool")
WITH_TAP = ("tcp", "groups")
KERNEL_WORDS = "console=ttyS0 panic=-1 quiet loglevel=1 nokaslr iomem=relaxed"


def clock_words(repeatable: bool) -> str:
    """Words of the kernel's command line: for a guest that counts time by instructions, or for a host that may be busy.
    """
    return "init_on_free=1 tsc=reliable" if repeatable else "no_timer_check"


def machine_of(words: Namespace, board: list[str], asked: str) -> Machine:
    """The guest, with a new image. `asked` are words of the kernel's command line for the guest's first process."""
    kernel, traffic = needs.kernel_of(words.cache), programs.traffic(words.cache)
    path = os.path.join(words.cache, "image")
    with open(path, "wb") as file:
        file.write(image(words.module or os.path.join(kernel, "e1000.ko"), traffic,
                         shutil.which("ethtool") or "ethtool"))
    append = f"{KERNEL_WORDS} {clock_words(words.sweep and not words.at_once)} {asked}"
    qemu = ["-kernel", os.path.join(kernel, "vmlinuz"), "-initrd", path, "-append", append]
    return Machine(board, os.path.join(words.cache, "console"), qemu)


def run_stages(words: Namespace, board: list[str], tell: Callable[[str], None]) -> bool:
    """Boots, and runs the stages. Returns whether all passed."""
    needs.check_programs()
    stages = words.stages or ["ping"]
    with_tap = set(stages) & set(WITH_TAP)
    if with_tap:
        needs.check_tap(f"the stages {' and '.join(WITH_TAP)}")
    server = f"{shlex.quote(programs.traffic(words.cache))} serve" if with_tap else None
    machine = machine_of(words, board, f"stages={','.join(stages)} megabytes={words.megabytes}")
    passed, begun = 0, time.monotonic()
    for line in machine.lines(server=server):
        tell(f"{time.monotonic() - begun:6.1f} s  {line}")
        passed += line.startswith("passed ")
    tell(f"{passed} of {len(stages) + 1} stages passed")
    return passed == len(stages) + 1


def run_sweep(words: Namespace, board: list[str]) -> bool:
    """Plays rounds. Returns whether all passed."""
    needs.check_programs()
    report = Report(words)
    last = words.first + words.sweep - 1
    machine = machine_of(words, board, f"rounds={words.first},{last},{words.stop},{int(words.apart)}")
    error = None
    try:
        for line in machine.lines(plugin=None if words.at_once else programs.plugin(words.cache)):
            report.line(line)
    except Ended as ended:
        error = str(ended)
    return report.end(error)
