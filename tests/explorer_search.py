"""Compares the calls of the proved search (crates/search) with models in C: options, draws, and shrinking.

The programs are tests/explorer/search_calls.c, search_draws.c and search_shrink.c. tests/explore.py runs this part.
"""

import os

from harness import TOP

SOURCES, HEADERS = os.path.join(TOP, "tests", "explorer"), os.path.join(TOP, "bindings", "c", "explore")
# For each program: its words, and the line that it prints if nothing differs
SEARCHES = {
    "search_calls": {"options": "options: 20000 tables", "law": "law: 819200 sequences",
                     "generator": "generator: 600 runs"},
    "search_draws": {"uniform": "uniform: 64000 runs, ", "bursts": "bursts: ", "priorities": "priorities: 64000 runs"},
    "search_shrink": {"": "shrink: 20000 tests, "},
}


def searching(bench):
    """Options, draws and smaller schedules are those of models in C."""
    for name, words in SEARCHES.items():
        program = bench.build(name, os.path.join(SOURCES, f"{name}.c"), words=["-O2", "-I", HEADERS], objects=["-lm"])
        for word, line in words.items():
            status, out, errors = bench.run(program, *word.split())
            bench.check(f"{name} {word}".rstrip(), (status, out[:len(line)], errors), (0, line, ""))
