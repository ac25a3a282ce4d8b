"""Tests the bridge of examples/emulators/pci: its words, functions that it refuses, and a guest in which the driver
runs.
"""

import os
import shutil
import subprocess
import sys

from harness import TOP

PCI = os.path.join(TOP, "examples", "emulators", "pci")
FUNCTIONS = "/sys/bus/pci/devices"
import needs

FRAMES = 100
SAME = "none lost, changed or out of order"
NONE = "0000:ff:1f.7"  # there is no such function


def built(bench):
    """Compiles the bridge with all warnings. Returns whether this succeeds."""
    sources = sorted(os.path.join(PCI, name) for name in os.listdir(PCI) if name.endswith(".c"))
    flags = ["-std=gnu11", "-O2", "-Wall", "-Wextra", "-Werror", "-D_GNU_SOURCE"]
    ran = subprocess.run(["gcc", *flags, "-o", bench.path("bridge"), *sources], capture_output=True, text=True)
    bench.check("the bridge compiles without warnings", (ran.returncode, ran.stderr), (0, ""))
    return ran.returncode == 0


def refusals(bench):
    """The bridge refuses wrong words, a function that isn't there, and one of another part: it prints the reason."""
    usage = "usage: bridge"
    cases = [
        ("no words", [], 2, usage), ("no program", ["vfio", NONE, "--"], 2, usage),
        ("no dashes", ["uio", NONE, "a", "b"], 2, usage),
        ("another way", ["mmap", NONE, "--", "true"], 2, usage),
        ("a number that isn't one", ["--wait", "5s", "vfio", NONE, "--", "true"], 2, "5s isn't a number"),
        ("too much memory", ["--map", "2097153", "vfio", NONE, "--", "true"], 2, "from 0 to 2097152"),
        ("no function", ["vfio", NONE, "--", "true"], 3, f"there is no PCI function {NONE}")]
    others = sorted(os.listdir(FUNCTIONS)) if os.path.isdir(FUNCTIONS) else []
    cases += [("another part", ["--any", "uio", name, "--", "true"], 3, "for the 82540EM") for name in others[:1]]
    for name, words, status, text in cases:
        ran = subprocess.run([bench.path("bridge"), *words], capture_output=True, text=True, timeout=60)
        bench.check(f"the bridge: {name}", (ran.returncode, text in ran.stderr), (status, True))


def missing():
    """Returns what a guest needs that isn't there, or None."""
    try:
        needs.check_programs(needs.QEMU)
        needs.kernel_of(needs.CACHE)
    except needs.Missing as error:
        return str(error)
    return None


def in_guest(bench):
    """In a guest with QEMU's e1000, the driver runs by VFIO, with too little memory mapped, and by UIO. All parts pass.
    """
    command = [sys.executable, os.path.join(PCI, "run"), "--nicbench", bench.program, "--frames", str(FRAMES)]
    ran = subprocess.run(command, capture_output=True, text=True, timeout=1800)
    lines = ran.stdout.splitlines()
    for way in ("sent", "received"):
        got = [line for line in lines if line.startswith(f"{way}: ")]
        wanted = [f"{way}: {count} frames, {SAME}" for count in (FRAMES, FRAMES // 5)]
        bench.check(f"the driver on a PCI function: {way}", got, wanted)
    refused = [line for line in lines if line.startswith("refused: ")]
    bench.check("the driver on a PCI function: refused functions", len(refused), 4)
    faults = [line for line in lines if "fault addr 0x40" in line]
    bench.check("the driver on a PCI function: the IOMMU", len(faults), 1)
    parts = [line.split()[0] for line in lines if line.startswith(("passed in", "FAILED in"))]
    bench.check("the driver on a PCI function", (ran.returncode, parts), (0, ["passed"] * 3))
    if ran.returncode:
        print(ran.stdout[-3000:], ran.stderr[-1000:])


def all_cases(bench):
    if not shutil.which("gcc"):
        print("not run, because there is no gcc: the bridge to a PCI function")
        return
    if built(bench):
        refusals(bench)
    reason = missing()
    if reason:
        print(f"not run: the driver on a PCI function: {reason}")
    else:
        in_guest(bench)
