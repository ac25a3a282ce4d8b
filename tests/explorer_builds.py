"""Tests of the explorer that is built by other compilers, and with other options. tests/explore.py runs these tests."""

import json
import os
import shutil
import subprocess

from harness import TOP

FOLDER = os.path.join(TOP, "bindings", "c", "explore")
ARCHIVE = "libnic82540em_explore.a"
EVERY = "every schedule, with any number of deviations, without holds: none of 1.03e+16 fails\n"


def run(words, folder, env=None):
    """Runs a command in a folder. Returns its output; it must succeed."""
    ran = subprocess.run(words, cwd=folder, capture_output=True, text=True, env={**os.environ, **(env or {})})
    assert ran.returncode == 0, (words, ran.returncode, ran.stdout, ran.stderr)
    return ran.stdout


def explorer_with(bench, name, compiler, options):
    """Builds the explorer of the present sources. Returns the folder of the library."""
    made = shutil.copytree(bench.library, os.path.join(bench.folder, name))
    archive = os.path.join(made, "lib", ARCHIVE)
    search = [it for it in run(["ar", "t", archive], made).split() if it.startswith("schedule_search")]
    bench.check(f"{name}: it has the search", len(search) >= 1, True)
    run(["ar", "x", archive, *search], made)
    run(["ar", "rcsD", "search.a", *search], made)
    run([os.path.join(FOLDER, "build"), made, "search.a"], made, {"CC": compiler, "EXPLORE_CFLAGS": options})
    return made


def lies(bench):
    """A search checks itself. This explorer doesn't compare the variables of the test, so it takes two states for one.
    The runs that are played on from known states find the race. The right twin passes.
    """
    kept, bench.library = bench.library, explorer_with(bench, "lies", "cc", "-DXI_HIDES_VARIABLES")
    test = bench.build("lying", os.path.join(TOP, "tests", "explorer", "passes.c"))
    status, out, errors = bench.run(test, "order", "wrong", "--explore", "every", "--json")
    result = json.loads(out)
    bench.check("lies: a known state", (status, result["result"], result["fault"], errors),
                (5, "differs", "the second frame is early, and the first one wasn't", ""))
    out = bench.run(test, "order", "wrong", "--explore", "every")[1]
    bench.check("lies: the sentence", "leads through a state from which all schedules have passed" in out, True)
    status, out, errors = bench.run(test, "order", "--explore", "every")
    bench.check("lies: the right twin", (status, " runs from known states pass\n" in out, errors), (0, True, ""))
    bench.library = kept


def builds(bench):
    """The explorer, compiled without optimization by gcc and by clang, searches every schedule of the template, and
    finds a race. Its handlers may call no function for the first time: the loader would write down its address.
    """
    for compiler in filter(shutil.which, ("gcc", "clang")):
        kept, bench.library = bench.library, explorer_with(bench, f"{compiler}-O0", compiler, "-O0")
        test = bench.build("template", os.path.join(TOP, "examples", "explore", "my_test.c"))
        status, out, errors = bench.run(test, "--explore", "every")
        bench.check(f"builds: {compiler}", (status, out[:len(EVERY)], errors), (0, EVERY, ""))
        bench.library = kept
