"""Tests actors of a test in the explorer: their names, what they share with the test, and runs that can't happen."""

import json
import os

from harness import TOP

SOURCE = os.path.join(TOP, "tests", "explorer", "actors.c")
LOST = ["1.0+42 tick before variable"]
REFUSED = {"many": "there are more than 8 actors, or no list of them",
           "name": "an actor has no function, or no name of small letters, digits, _ and -, at most 24"}


def searched(bench, program, *words):
    """The exit status of a search, and the object that it prints."""
    status, out, errors = bench.run(program, *words, "--json")
    bench.check(f"actors: {' '.join(words)}", errors, "")
    return status, json.loads(out)


def check_actors(bench, program):
    """A lost update is found and played again; variables of one actor add nothing; impossible runs are counted."""
    for depth in ("every", "2"):
        status, found = searched(bench, program, "lost", "--explore", depth)
        bench.check(f"actors: lost, {depth}", (status, found["fault"], found["schedule"]), (1, "a tick is lost", LOST))
    bench.put("lost.txt", f"{LOST[0]}\n".encode())
    bench.check("actors: again", bench.run(program, "lost", "--replay", "lost.txt"), (1, "a tick is lost\n", ""))
    status, log, _ = bench.run(program, "lost", "--replay", "lost.txt", "--log")
    has_lines = "*        tick runs\n" in log, "         tick has run\n" in log
    bench.check("actors: the log", (status, has_lines), (1, (True, True)))
    status, found = searched(bench, program, "lost", "--runs", "300")
    bench.check("actors: drawn", (status, found["schedule"]), (1, LOST))
    counts = {}
    for variant, status in (("safe", 0), ("locked", 0), ("lost", 1), ("few", 1)):
        ended, found = searched(bench, program, variant, "--explore", "every")
        counts[variant] = found["search"]["schedules"]
        bench.check(f"actors: {variant}", (ended, found["impossible"] > 0), (status, variant == "locked"))
    bench.check("actors: a variable of one actor adds nothing", counts["lost"], counts["few"])
    tried = [searched(bench, program, "safe", "--explore", "2", *again)[1]["search"]["tried"]
             for again in ((), ("--again",))]
    bench.check("actors: without saved states, all places are tried", tried, [[1, 3, 0], [1, 43, 0]])
    for variant, why in REFUSED.items():
        bench.check(f"actors: {variant}", bench.run(program, variant), (3, "", f"explore: x_actors: {why}\n"))
