#!/usr/bin/env -S python3 -B
"""Checks the C library: its header and bindings, the examples, and that it answers as `nicbench serve` does.

usage: tests/library.py PROGRAM [FOLDER | --quick]

PROGRAM is `nicbench`, and FOLDER is what `tools/library FOLDER` wrote. Without FOLDER, the script lets `tools/library`
write .build/library, or with --quick `tools/library --quick` write .build/quick-library. Examples in C, C++ and Rust
are compiled and run if there is a compiler, those in C also with AddressSanitizer and valgrind. An example in C is also
built through pkg-config and CMake, and the Python package is installed by pip. For a compiler or tool that isn't there,
the script prints a line. The last line is 'N passed, M failed', and the exit status is 1 if anything failed.
"""

import os
import re
import runpy
import subprocess
import sys
from functools import partial

from harness import TOOLS, TOP, Program, test_all, text_of, words_of_script
import adapter
import large_driver
import library_examples
import library_lines
import library_served
import nic82540em
import sweep
from driver import CTRL, EERD, ICR, RCTL, RDH, RDLEN, RDT
from expected import EN, RST
from library_served import MEMORY, REGISTER_BYTES, REQUESTS, InProcess, Served, requests_of
from random_requests import BAM

GPRC, MPC = 0x4074, 0x4010
REFUSED_MEMORY = "WARNING: AddressSanitizer failed to allocate"
SEEDS_OF_SWEEP = 25


class Library(Program):
    """A built library, and a program that serves the same adapter."""

    def __init__(self, library, program, folder):
        super().__init__(program, folder)
        self.root, self.proved = library, None
        self.shared = os.path.join(library, "lib", "libnic82540em.so")
        self.flags = ["-I", os.path.join(library, "include"), os.path.join(library, "lib", "libnic82540em.a")]

    def compiles(self, name, *words, env=None):
        """Runs a compiler, and checks that it succeeds without a warning. Returns whether it succeeds."""
        ran = subprocess.run(words, cwd=self.folder, capture_output=True, text=True, env=env and {**os.environ, **env})
        self.check(f"{name}: compiles", (ran.returncode, ran.stderr[-2000:]), (0, ""))
        return ran.returncode == 0

    def prints(self, name, words, wanted):
        """Checks that a command succeeds, prints this to its output, and prints no error.

        AddressSanitizer may warn that it refuses memory, as the command expects.
        """
        env = {**os.environ, "ASAN_OPTIONS": "allocator_may_return_null=1"}
        ran = subprocess.run(words, cwd=self.folder, capture_output=True, text=True, timeout=600, env=env)
        errors = [line for line in ran.stderr.splitlines() if REFUSED_MEMORY not in line]
        self.check(name, (ran.returncode, ran.stdout, errors), (0, wanted, []))


# The header and the bindings have the names and numbers of the crates, and the finder has the names of the bindings.

def names(library):
    offsets = text_of("crates", "adapter_model", "src", "offsets.rt")
    known = {name: int(value, 16) for name, value in re.findall(r"^pub const (\w+): u32 = (0x[0-9A-F]{4});$", offsets,
                                                                re.M)}
    known["RAH"] = known["RAL"] + REGISTER_BYTES
    header, rust = text_of("bindings", "c", "nic82540em.h"), text_of("bindings", "rust", "src", "lib.rs")
    table = header[header.index("/* Registers: "):]
    found = {name: int(value, 16) for name, value in re.findall(r"^    NIC_(\w+) = (0x[0-9A-F]{4}),?", table, re.M)}
    library.check("the header's registers", found, {name: known.get(name) for name in found})
    library.check("the number of the header's registers", len(found), 30)
    constants = {name: int(value, 16) for name, value in re.findall(r"^    pub const (\w+): u32 = (0x[0-9A-F]{4});$",
                                                                    rust, re.M)}
    library.check("the registers of the crate in Rust", constants, found)
    sources = os.path.join("crates", "nic82540em", "src")
    calls = "\n".join(text_of(sources, name) for name in sorted(os.listdir(os.path.join(TOP, sources))))
    exported = set(re.findall(r'extern "C" fn (nic82540em_\w+)', calls))
    library.check("the header's calls", set(re.findall(r"^(?!static).*?(nic82540em_\w+)\(struct", header, re.M)),
                  exported)
    library.check("the calls of the crate in Rust", set(re.findall(r"fn (nic82540em_\w+)\(", rust)), exported)
    calls_in_python = *nic82540em.CALLS, *nic82540em.SERVER_CALLS
    library.check("the calls in Python", {f"nic82540em_{name}" for name in calls_in_python}, exported)
    outcomes = re.findall(r"^    NIC_(\w+),?", header[header.index("NIC_NOTHING"):header.index("/* The fates")], re.M)
    library.check("the outcomes in Python", [name.upper() for name in nic82540em.OUTCOMES], ["NOTHING", *outcomes])
    finder = runpy.run_path(os.path.join(TOP, "finder", "names.py"))
    library.check("the steps of charts", sorted(finder["OF_STEPS"]), sorted(nic82540em.KINDS))
    outcomes = {"nothing"}.union(*finder["OF_STEPS"].values())
    library.check("their outcomes", sorted(outcomes), sorted(nic82540em.OUTCOMES))
    library.check("the fates of charts", sorted(finder["FATES"]), sorted(nic82540em.FATES))


def events_that_wait(library):
    """At most 4,096 events wait, and a copy of the adapter has them, too. No event is kept while events are off."""
    with nic82540em.Nic(library.shared) as nic:
        nic.arrive(bytes(60))
        nic.events(True)
        for _ in range(4100):
            nic.arrive(bytes(60))
        with nic.copy() as copy:
            waiting = [one.take_events() for one in (nic, copy)]
        library.check("events that wait", (waiting[0], waiting[1]), ([("arrived", "off")] * 4096,) * 2)
        nic.events(False)
        nic.arrive(bytes(60))
        library.check("no events", nic.take_events(), [])


def image_and_missed(library):
    """The EEPROM's words and MPC at the start are those of `serve`, with the options --image and --missed."""
    words = [(40503 * place + 7) & 0xFFFF for place in range(64)]
    library.put("image.bin", b"".join(word.to_bytes(2, "little") for word in words))
    missed, register = 2**32 - 1, adapter.REGISTERS
    asked = [f"readl {register + MPC:#x}"] * 2 + [f"readl {register + place:#x}" for place in (0x5400, 0x5404)]
    for place in range(64):
        asked += [f"writel {register + EERD:#x} {place << 8 | 1:#x}", "step eeprom", f"readl {register + EERD:#x}"]
    inside = InProcess(library.shared, MEMORY, missed=missed, image=words)
    options = "--memory", str(MEMORY), "--missed", str(missed), "--image", library.path("image.bin")
    with Served(library.program, *options) as served:
        answers = [(inside.reply(request, 0)[0], served.reply(request)[0]) for request in asked]
    library.check("image and missed", [got for got, _ in answers], [wanted for _, wanted in answers])
    library.check("the words that were read", [int(got, 16) >> 16 for got, _ in answers[6::3]], words)


# Calls of the library that no request of `serve` does in the same way

def steps_by_schedule(library):
    """A step before an access, requested of `serve` and scheduled in process, has the same effect."""
    for seed in 2, 4:
        inside, asked = InProcess(library.shared, MEMORY), requests_of(seed)
        frames, answers, wanted, scheduled = [], [], [], 0
        with Served(library.program, "--memory", str(MEMORY)) as served:
            for request, later in zip(asked, [*asked[1:], ""]):
                answer, put, _ = served.reply(request)
                frames += put
                if request.startswith("step") and later.startswith(("readl", "writel")):
                    inside.nic.schedule(inside.nic.accesses(), request.split()[1])
                    scheduled += 1
                else:
                    wanted.append((request, answer))
                    answers.append((request, inside.reply(request, 0)))
        library.check(f"steps of seed {seed} by schedule", [(request, got[0]) for request, got in answers], wanted)
        library.check(f"frames of seed {seed} by schedule", [frame for _, got in answers for frame in got[1]], frames)
        library.check(f"seed {seed} has steps that are scheduled", scheduled > 10, True)


def state_without_accesses(library):
    """Registers that are peeked, and memory through its pointer, have the values that accesses return."""
    inside = InProcess(library.shared, MEMORY)
    for request in requests_of(6):
        inside.reply(request, 0)
    accesses, memory = inside.nic.accesses(), bytes(inside.nic.memory())
    registers = {offset: inside.nic.peek(offset) for offset in (*range(0, 0x5810, 4), 0x1FFFC)}
    library.check("peeks are no accesses", inside.nic.accesses(), accesses)
    library.check("memory by its pointer", memory, inside.nic.load(0, MEMORY))
    library.check("registers that were peeked", registers, {offset: inside.nic.read(offset) for offset in registers})
    inside.nic.memory()[7] = 0x5A
    library.check("a store by the pointer", inside.nic.load(7, 1), b"\x5a")


def steps_that_are_possible(library):
    """A step is possible if and only if, on a copy of the adapter, it does something."""
    found, differ = {True: 0, False: 0}, None
    for seed in 3, 6:
        inside = InProcess(library.shared, MEMORY)
        for place, request in enumerate(requests_of(seed)):
            inside.reply(request, seed)
            possible = inside.nic.possible()
            for kind in nic82540em.KINDS if place % 5 == 0 else ():
                with inside.nic.copy() as copy:
                    moved = copy.step(kind) != "nothing"
                found[moved] += 1
                if moved != (kind in possible):
                    differ = differ or (seed, place, kind, possible)
    library.check("steps that are possible", (differ, min(found.values()) > 100), (None, True))


def copies(library):
    """A copy answers as the adapter does, and has its digest. Its memory is its own."""
    inside, copied = InProcess(library.shared, MEMORY), InProcess(library.shared, MEMORY)
    asked = requests_of(5)
    for request in asked[:REQUESTS // 2]:
        inside.reply(request, 5)
    copied.nic = inside.nic.copy()
    library.check("the digest of a copy", copied.nic.digest(), inside.nic.digest())
    answers = [[one.reply(request, 5) for request in asked[REQUESTS // 2:]] for one in (copied, inside)]
    library.check("the answers of a copy", answers[0], answers[1])
    counts = [one.nic.accesses() for one in (copied, inside)]
    library.check("the accesses of a copy", counts[0], counts[1])
    digest = inside.nic.digest()
    inside.nic.recount(3)
    library.check("the number of accesses that was set", (inside.nic.accesses(), inside.nic.digest()), (3, digest))
    copied.nic.memory()[9] ^= 1
    library.check("the memory of a copy", (inside.nic.digest(), copied.nic.digest() != digest), (digest, True))
    states = [[one.nic.state_digest(seed) for seed in (1, 2)] for one in (inside, copied)]
    library.check("the state of a copy with other memory", (states[0], len(set(states[0]))), (states[1], 2))


def states_by_contents(library):
    """Adapters with the same registers and frames have the same state digest, wherever the frames are in the packet
    buffer. With another frame, the digest differs.
    """
    nics = [nic82540em.Nic(library.shared, memory=MEMORY) for _ in range(3)]
    first, frame, other = ([255] * 6 + [n] * 54 for n in (1, 2, 3))
    for nic, frames in zip(nics, ([frame], [first, frame], [other])):
        nic.write(RDLEN, 128), nic.write(RCTL, EN | BAM)
        nic.store(0, (0x1000).to_bytes(16, "little"))
        for number, one in enumerate(frames):
            nic.write(RDT, 1)
            nic.arrive(bytes(one))
            if number:
                nic.step("rxdata"), nic.step("rxdone")
        nic.write(RDH, 0), nic.read(ICR), nic.read(GPRC)
    digests = [nic.state_digest() for nic in nics]
    library.check("states by contents", [digests[0] == one for one in digests], [True, True, False])


def steps_by_ticks(library):
    """With ticks on, an access has the effect of a step eeprom, a step phy and the access, in this order."""
    ticked, stepped = InProcess(library.shared, MEMORY), InProcess(library.shared, MEMORY)
    ticked.nic.ticks(True)
    differ = None
    for request in requests_of(8):
        accesses = ticked.nic.accesses()
        got = ticked.reply(request, 8)
        if ticked.nic.accesses() != accesses:
            stepped.nic.step("eeprom"), stepped.nic.step("phy")
        if got != stepped.reply(request, 8):
            differ = differ or request
    library.check("ticks", (differ, ticked.nic.digest()), (None, stepped.nic.digest()))
    ticked.nic.ticks(False)
    ticked.nic.write(EERD, 1)
    library.check("no ticks", ticked.nic.read(EERD), 0)


def frames_that_wait(library):
    """The number of frames in the receive packet buffer, up to the most: 614 frames of 60 bytes in 48 KB."""
    with nic82540em.Nic(library.shared) as nic:
        nic.write(RCTL, EN | BAM)
        fates = [nic.arrive(b"\xff" * 60) for _ in range(616)]
        library.check("frames that wait", (fates, nic.waiting()), (["stored"] * 614 + ["missed"] * 2, (614, 0)))
        nic.write(CTRL, RST)
        library.check("no frame waits after a reset", nic.waiting(), (0, 0))


# Drivers in Python, over the pipe and in process.

def drivers(library):
    for name in ("right", "late", "head", "length", "part", "freed"):
        found = {}
        for place, made in (("served", adapter.Adapter), ("in process", nic82540em.Adapter)):
            sweep.Adapter = made
            program = library.program if place == "served" else library.shared
            failed = sweep.first_to_fail(program, SEEDS_OF_SWEEP, name, sweep.exchange, False)
            found[place] = failed and failed[:2]
        library.check(f"the driver {name}, in process and served", found["in process"], found["served"])
    sweep.Adapter = adapter.Adapter
    large_driver.all_cases(library.check, "in process", partial(nic82540em.Adapter, library.shared), "right", "queue")


def is_built(library, words):
    """Builds the library. Returns whether this succeeds. Without a compiler or an archiver, prints a line."""
    if not all([library.is_there(tool, "everything that needs the built library") for tool in ("cc", "ar")]):
        return False
    ran = subprocess.run([os.path.join(TOP, "tools", "library"), *words, library.root], stdout=subprocess.PIPE,
                         stderr=subprocess.STDOUT, text=True)
    library.check("the library is built", (ran.returncode, ran.stdout[-2000:] if ran.returncode else ""), (0, ""))
    return ran.returncode == 0


PARTS = (*library_served.PARTS, *library_lines.PARTS, events_that_wait, image_and_missed, steps_by_schedule,
         state_without_accesses, steps_that_are_possible, copies, states_by_contents, steps_by_ticks, frames_that_wait,
         drivers, *library_examples.PARTS)


def main():
    words = words_of_script()
    if len(words) not in (1, 2):
        sys.exit(__doc__)
    is_quick = words[1:] == ["--quick"]
    given = None if is_quick else next(iter(words[1:]), None)
    root = os.path.abspath(given or os.path.join(TOP, ".build", "quick-library" if is_quick else "library"))

    def make(folder):
        library = Library(root, os.path.abspath(words[0]), folder)
        library.proved = None if given else "no" if is_quick else "yes"
        return library

    def built(library):
        """The library is built, unless it was given. If this fails, no part that follows is run."""
        if not (given or is_built(library, ["--quick"] if is_quick else [])):
            library.stop()

    test_all(make, [names, built, *PARTS])


main()
