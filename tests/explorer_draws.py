"""Tests draws by priorities, and how often they find races of a handler. tests/explore.py runs these tests."""

import json
import os
import re

from harness import TOP

PASSES, FOUND = range(2)
# Races of explorer/passes.c, with their depths: the numbers of orders of two events that are enough for them
DEPTHS = {"masked": 1, "removed": 1, "unmasked": 1, "given": 1, "prompt": 1, "choose": 1, "late": 2, "settle": 2,
          "line": 2}


def bound_of(out):
    """The number of actors that a search by priorities prints, and whether its bound is right."""
    form = r"^PCT, depth 2: (\d+) actors, (\d+) events: .* at least 1/(\d+)$"
    actors, events, bound = map(int, re.search(form, out, re.M).groups())
    return actors, bound == actors * events


def likely(bench):
    """Races of a handler are found at least as often as by PCT's bound, and by other draws, too."""
    test = bench.build("passes", os.path.join(TOP, "tests", "explorer", "passes.c"))
    for name, depth in DEPTHS.items():
        out = bench.run(test, name, "wrong", "--pct", str(depth), "--runs", "2000", "--all", "--json")[1]
        result = json.loads(out)
        found = len(result["search"]["failed"]) / 2000
        bench.check(f"pct: {name}, {found} of its runs", found >= result["pct"]["bound"], True)
        result = json.loads(bench.run(test, name, "wrong", "--all", "--json")[1])
        bench.check(f"pct: {name}, drawn", len(result["search"]["failed"]) > 0, True)
    for name in DEPTHS:
        status, out, _ = bench.run(test, name, "--pct", "3")
        bench.check(f"pct: {name}, right", (status, "\nno run fails\n" in out), (PASSES, True))


def by_priorities(bench):
    """PCT finds races of depth 2, and no fault of the right driver. The printed bound of the probability is 1 divided
    by the product of actors and events. The handler of `cuts` is an actor, and so is the wire of `offers`.
    """
    for name in ("late", "freed"):
        status, out, _ = bench.run(bench.stages, name, "--pct", "2")
        bench.check(f"pct: {name}", (status, bound_of(out)), (FOUND, (4, True)))
    for name, actors in ("cuts:cuts", 5), ("offers:rxo", 5):
        status, out, _ = bench.run(bench.stages, name, "--pct", "2", "--runs", "10000")
        bench.check(f"pct: {name}", (status, bound_of(out)), (FOUND, (actors, True)))
    likely(bench)
    status, out, _ = bench.run(bench.stages, "right", "--pct", "3", "--runs", "300")
    bench.check("pct: right", (status, "\nno run fails\n" in out), (PASSES, True))
