"""Tests devices of a test's own in the explorer: the copier of examples/device, its driver, and wrong descriptions."""

import json
import os

from harness import TOP, text_of

COPIES = [os.path.join(TOP, "examples", "device", name) for name in ("copies.c", "copier.c")]
VARIANTS = [os.path.join(TOP, "tests", "explorer", "devices.c"), COPIES[1]]
# The drivers with a bug: the fault, and the smallest schedule that `--explore every` finds
BUGS = {"tail": ("a copy is called done, and its bytes aren't there", ["0.8 fetch before write ring[0]"]),
        "late": ("the driver sleeps, and a copy is done", ["1.0+6 irq before settle", "1.4 finish before read CAUSE"])}
NO_PART = "the device has no name, or one of its functions or lists isn't there"
NO_KINDS = "the device has no kinds of steps, more than 8, or clocks that aren't kinds of its steps"
REFUSED = {"null": NO_PART, "no-line": NO_PART, "no-kinds": NO_KINDS, "nine-kinds": NO_KINDS, "no-kind": NO_KINDS,
           "engine": "a kind of the device's steps has no name, or a number of an engine above 7",
           "clocks": "the device has more than two clocks", "memory": "the host has more than 16 MiB of memory",
           "pair": "a pair of the device isn't one of its kinds of steps",
           **dict.fromkeys(("two-engines", "clock-pair"),
                           "a pair of the device has steps of two engines, or one of a clock")}


def searched(bench, program, *words):
    """The object that a search prints with --json."""
    status, out, errors = bench.run(program, *words, "--json")
    bench.check(f"devices: {' '.join(words)}", errors, "")
    return status, json.loads(out)


def check_copies(bench, program):
    """The right driver passes every schedule; each bug is found, with its smallest schedule."""
    status, found = searched(bench, program, "right", "--explore", "every")
    bench.check("devices: right", (status, found["result"], found["search"]["complete"]), (0, "passes", True))
    bench.check("devices: the page's number", f"none of {found['search']['schedules']:.0f} fails" in
                text_of("docs", "DEVICES.md"), True)
    counts = [searched(bench, program, "right", "--explore", "2", *again)[1]["search"]["tried"]
              for again in ((), ("--again",))]
    bench.check("devices: saved states count as runs from nothing", counts[0], counts[1])
    for name, (fault, schedule) in BUGS.items():
        status, found = searched(bench, program, name, "--explore", "every")
        bench.check(f"devices: {name}", (status, found["fault"], found["schedule"]), (1, fault, schedule))
        bench.put("copies.txt", "".join(f"{line}\n" for line in schedule).encode())
        ran = bench.run(program, name, "--replay", "copies.txt")
        bench.check(f"devices: {name} again", ran, (1, f"{fault}\n", ""))
    status, found = searched(bench, program, "head", "--explore", "every")
    bench.check("devices: head", (status, found["fault"]), (1, BUGS["tail"][0]))
    for option in (["--pct", "2"], ["--pipe"], ["--serve", "nicbench"]):
        status, _, errors = bench.run(program, "right", *option)
        bench.check(f"devices: {option[0]}", (status, "for the 82540EM only" in errors), (3, True))


def check_variants(bench, program):
    """Wrong descriptions are refused; clocks and pairs are played, held and named."""
    for name, why in REFUSED.items():
        bench.check(f"devices: {name}", bench.run(program, name), (3, "", f"explore: x_use: {why}\n"))
    ends = {"arrives": "x_arrive: no frame can arrive at this device",
            "outside": "x_store: the driver stores bytes outside of memory"}
    for name, fault in ends.items():
        status, found = searched(bench, program, name)
        bench.check(f"devices: {name}", (status, found["fault"]), (1, fault))
    status, found = searched(bench, program, "plain", "--explore", "every")
    bench.check("devices: plain", (status, found["result"]), (0, "passes"))
    status, found = searched(bench, program, "early", "--explore", "every")
    bench.check("devices: early", (status, len(found["schedule"])), (1, 6))
    status, found = searched(bench, program, "clock", "--explore", "every", "--holds")
    bench.check("devices: clock", (status, found["result"]), (0, "passes"))
    bench.put("hold.txt", b"0.8 hold fetch before read ring[1]+12\n0.8 fetch before read ring[1]+12\n")
    status, out, _ = bench.run(program, "clock", "--replay", "hold.txt", "--log")
    bench.check("devices: a clock is held", (status, "* " in out, out.count("fetch: fetched")), (0, True, 2))
    bench.put("pair.txt", b"0.8 fetch before read ring[1]+12\n0.8 both before read ring[1]+12\n")
    status, out, _ = bench.run(program, "paired", "--replay", "pair.txt", "--log")
    bench.check("devices: a pair", (status, out.count("*        copy: copied"), out.count("*        finish: finished")),
                (0, 1, 1))


def check_devices(bench, build):
    """All tests of devices. `build` compiles sources into a program with the explorer."""
    check_copies(bench, build("copies", COPIES))
    check_variants(bench, build("devices", VARIANTS))
