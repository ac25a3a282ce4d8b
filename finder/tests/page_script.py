"""Runs the scripts of a page without a page: by Node.js, or else in headless Chromium."""

import atexit
import json
import shutil
import subprocess
import tempfile

from finder.log import plain_run
from finder.page.write import LOGIC, script
from browser import Browser, program

NAMES = "nodejs", "node"
# What tests call besides the functions of the scripts. `states` yields, after each step, what is wrong so far, and both
# rings: base, size in bytes, head and tail.
CALLS = """
function states(run) {
  const state = new State();
  return run.steps.map(step => {
    state.play(step);
    return [[...state.wrong], ['rx', 'tx'].map(name => state.rings[name])
      .map(({ base, size, head, tail }) => [base, 16 * size, head, tail])];
  });
}
function played(run) {
  const state = new State(), changes = run.steps.map(step => ({ ...state.play(step) }));
  return { cells: state.cells, wrong: state.wrong, changes };
}
const lanes = run => lanesOf([run]);
const constants = () => ({ slots: SLOTS, quiet: QUIET, sections: SECTIONS, rules: RULES, mostCells: MOST_CELLS,
  piece: PIECE });
"""
FUNCTIONS = ("runsIn", "states", "played", "constants", "findings", "reasons", "difference", "align", "alignSteps",
             "shownOf", "lanes")
TABLE = f"const CALLS = {{ {', '.join(FUNCTIONS)} }};\n"
LOOP = """
require('readline').createInterface({ input: process.stdin }).on('line', line => {
  const [name, args] = JSON.parse(line);
  console.log(JSON.stringify(CALLS[name](...args) ?? null));
});
"""


class Node:
    """Node.js: a line of JSON for each call, and for each answer."""

    def __init__(self, path):
        self.file = tempfile.NamedTemporaryFile("w", suffix=".js", encoding="utf-8")
        self.file.write(script(LOGIC) + CALLS + TABLE + LOOP)
        self.file.flush()
        self.process = subprocess.Popen([path, self.file.name], stdin=subprocess.PIPE, stdout=subprocess.PIPE,
                                        text=True)

    def call(self, name, args):
        self.process.stdin.write(json.dumps([name, args]) + "\n")
        self.process.stdin.flush()
        return json.loads(self.process.stdout.readline())

    def close(self):
        self.process.stdin.close()
        self.process.wait()
        self.process.stdout.close()
        self.file.close()


class InBrowser:
    """A page of Chromium that has only the scripts."""

    def __init__(self, path):
        self.browser = Browser(path)
        self.browser.value(f"{script(LOGIC)}{CALLS}{TABLE}0")

    def call(self, name, args):
        return json.loads(self.browser.value(f"JSON.stringify(CALLS.{name}(...{json.dumps(args)}) ?? null)"))

    def close(self):
        self.browser.close()


class Logic:
    """The functions of the scripts, with runs as `finder.log` has them."""

    def __init__(self, engine):
        self.engine = engine

    def call(self, name, *runs):
        return self.engine.call(name, [plain_run(run) if run else None for run in runs])

    def findings(self, run):
        return self.call("findings", run)

    def reasons(self, run, other=None):
        return self.call("reasons", run, other)

    def kinds(self, run):
        """The kinds of the findings of a run, except that of a quiet end."""
        return [one["kind"] for one in self.findings(run) if one["kind"] != "quiet"]

    def pairs(self, run, other):
        return [tuple(pair) for pair in self.call("align", run, other)]

    def wrong(self, run):
        """What a read shows, although the steps before lead to another value."""
        return self.call("played", run)["wrong"]


LOGICS = []


def logic():
    """The functions of the scripts; None if there is neither Node.js nor Chromium. They are started once."""
    if not LOGICS:
        path, browser = next(filter(None, map(shutil.which, NAMES)), None), program()
        engine = Node(path) if path else InBrowser(browser) if browser else None
        LOGICS.append(Logic(engine) if engine else None)
        if engine:
            atexit.register(engine.close)
    return LOGICS[0]
