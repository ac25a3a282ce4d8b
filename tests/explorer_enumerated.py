"""Compares the explorer with an enumerator without saved states (tests/explorer/enumerate.c) on random tests.

The numbers of schedules are the same, each outcome is found as often, and the smallest schedule with an outcome has as
few deviations. tests/explore.py runs this comparison.
"""

import json
import os
import re
import subprocess

from harness import TOP

SOURCES = os.path.join(TOP, "tests", "explorer")
NEVER = "99"
SEEDS = 40
SEARCHES = ["every"], ["1"], ["2"], ["2", "--holds"]


class Enumerated:
    """What the enumerator prints of one search."""

    def __init__(self, out):
        lines = [line.split(" ", 4) for line in out.splitlines()]
        self.tried = {int(words[1]): int(words[2]) for words in lines if words[0] == "tried"}
        self.outcomes = {int(words[1]): (int(words[2]), int(words[3])) for words in lines if words[0] == "outcome"}
        self.default = next((number for number, (_, least) in self.outcomes.items() if least == 0), None)


def build_enumerator(bench, name, *files):
    """Compiles a test with the enumerator in place of the explorer. Returns the path of the program."""
    made = os.path.join(bench.folder, name)
    line = [bench.compiler, "-std=gnu11", "-O1", "-Wall", "-Wextra", "-Werror",
            "-I", os.path.join(bench.library, "include"), "-o", made, *files, os.path.join(SOURCES, "enumerate.c"),
            os.path.join(bench.library, "lib", "libnic82540em.a")]
    ran = subprocess.run(line, capture_output=True, text=True)
    bench.check(f"{name}: it is compiled", (ran.returncode, ran.stderr), (0, ""))
    return made


def build_pair(bench):
    """Compiles the random tests with the enumerator, and with the explorer."""
    source = os.path.join(SOURCES, "random.c")
    outcome = bench.source("outcome.c", "unsigned outcome;\n")
    return build_enumerator(bench, "enumerate", source), bench.build("random", source, outcome)


def count_of(bench, explorer, seed, search):
    """The number of schedules that a search of the explorer covers."""
    status, out, errors = bench.run(explorer, seed, NEVER, "--explore", *search)
    found = re.search(r": none of (\S+) fails\n", out)
    return int(found[1]) if found and status == 0 and not errors else (status, out, errors)


def compare_outcome(bench, explorer, seed, search, outcome, wanted):
    """A test that fails if it has this outcome: the explorer finds it, with as few deviations. With --all, it finds it
    as often. Returns whether that is so.
    """
    count, least = wanted
    words = [explorer, seed, str(outcome), "--explore", *search, "--json"]
    result = json.loads(bench.run(*words)[1])
    got = result["result"], len(result["schedule"]), result["search"]["smallest"]
    is_right = bench.check(f"enumerated: {seed} {search} outcome {outcome}", got, ("fails", least, True))
    if search[0] != "every":
        failed = json.loads(bench.run(*words, "--all")[1])["search"]["failed"]
        is_right &= bench.check(f"enumerated: {seed} {search} outcome {outcome}, all", len(failed), count)
    return is_right


def enumerated(bench):
    """Random tests have the same schedules and outcomes in the explorer as one after the other from their beginning."""
    enumerator, explorer = build_pair(bench)
    schedules = outcomes = skipped = 0
    for seed in map(str, range(1, SEEDS + 1)):
        pairs = {}
        for search in SEARCHES:
            status, out, _ = bench.run(enumerator, seed, NEVER, "--explore", *search)
            if status or not out.count("tried") > 1:
                skipped += 1
                continue
            wanted = Enumerated(out)
            total = sum(wanted.tried.values())
            schedules += total
            bench.check(f"enumerated: {seed} {search}", count_of(bench, explorer, seed, search), total)
            pairs[tuple(search)] = wanted
        for search, wanted in pairs.items():
            # of every schedule, the explorer finds the smallest by searches of few deviations
            small = pairs.get(("2",))
            others = [number for number in wanted.outcomes if number != wanted.default
                      and (search[0] != "every" or small and number in small.outcomes)]
            for number in others[:1]:
                outcomes += 1
                least = (small if search[0] == "every" else wanted).outcomes[number]
                compare_outcome(bench, explorer, seed, list(search), number, least)
    print(f"enumerated: {schedules} schedules, {outcomes} outcomes; {skipped} searches were too long or trivial")
    bench.check("enumerated: there are many", (schedules > 100000, outcomes > 60), (True, True))
