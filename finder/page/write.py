"""Writes the page of a log: one file of HTML, with its style, its script, and the log. The script does the rest."""

from __future__ import annotations

import json
import os
import re
from functools import lru_cache
from html import escape
from typing import Any, Dict, Sequence, Tuple

from finder.log import FORMAT, VERSION, RunLog, Step, short_text_of
from finder.names import BITS, CAUSES, FIELD_BITS, FIELDS
from finder.page import from_scenario

FOLDER = os.path.dirname(os.path.abspath(__file__))
# What finds the state, the texts, and the reasons of a log, without a page; and what shows them
LOGIC = "model.js", "log.js", "slots.js", "texts.js", "rules.js", "reasons.js", "compare.js"
SCRIPTS = (*LOGIC, "page.js", "head.js", "list.js", "rings.js", "keys.js")
MOST_BYTES, MOST_ZEROS, LAST_BYTES = 64, 4096, 2
TRAILING = re.compile(r"  // [^\n]*")
BLOCK = re.compile(r"^ */\*.*?\*/\n", re.M | re.S)


def asset(name: str) -> str:
    with open(os.path.join(FOLDER, name), encoding="utf-8") as file:
        return file.read()


def lean(text: str) -> str:
    """A script or a style without comments, empty lines and indentation."""
    text = TRAILING.sub("", BLOCK.sub("", text))
    return "".join(f"{line.strip()}\n" for line in text.splitlines() if line.strip())


def script(names: Sequence[str]) -> str:
    """The text of some scripts, which use the names of registers, bits and fields."""
    data = {"causes": CAUSES, "bits": BITS, "fields": FIELDS, "fieldBits": FIELD_BITS}
    known = f"const NAMES = {json.dumps(data, separators=(',', ':'))};\n"
    first, *others = map(asset, names)
    return lean(first.replace("'use strict';\n", f"'use strict';\n{known}", 1) + "".join(others))


@lru_cache(maxsize=None)
def template() -> Tuple[str, str, str]:
    """The page in three parts: what is before its title, what is before its log, and the rest."""
    text = asset("page.html").replace("STYLE", lean(asset("page.css")), 1)
    head, _, rest = text.partition("TITLE")
    middle, _, end = rest.partition("DATA")
    return head, middle, end.replace("SCRIPT", script(SCRIPTS), 1)


def page_of(title: str, log: str) -> str:
    """The page of a log."""
    head, middle, end = template()
    return "".join([head, escape(title), middle, log.replace("<", "\\u003c"), end])


def short(step: Step) -> Step:
    """A step with fewer bytes, because the page shows few. A long access has the first ones, and a long frame the first
    and the last ones. An access whose bytes are all 0, such as the store of an empty ring, keeps more.
    """
    data = step.data
    if data and step.action in ("arrive", "frame"):
        is_cut = len(data) > MOST_BYTES
        return step._replace(data=data[:MOST_BYTES - LAST_BYTES] + data[-LAST_BYTES:]) if is_cut else step
    is_long = data is not None and len(data) > MOST_BYTES and (any(data) or len(data) > MOST_ZEROS)
    return step._replace(data=data[:MOST_BYTES]) if data and is_long else step


def shortened(run: RunLog) -> RunLog:
    """The log of a run as the page has it."""
    return run._replace(steps=tuple(map(short, run.steps)))


def page(runs: Sequence[RunLog]) -> str:
    """The page of a run, which is the first one; and of the run without deviations to compare it with, if there is
    one.
    """
    return page_of(f"{runs[0].command}: {runs[0].fault or 'passes'}", short_text_of([*map(shortened, runs)]))


def plain_of(one: from_scenario.Shown) -> Dict[str, Any]:
    """A step of a scenario in JSON."""
    step = one.step
    return {"actor": step.actor, "action": step.action, "place": step.place, "text": one.text, "changes": one.changes}


def scenario_page(title: str, steps: Sequence[from_scenario.Shown], wires: Dict[str, str]) -> str:
    """The page of a scenario's run. Its log also has the lanes, and the texts and the changes of steps."""
    places = {"hosts": list(wires), "stages": from_scenario.STAGES, "lanes": from_scenario.lanes_of(wires)}
    head = {"format": FORMAT, "version": VERSION, "command": title, "schedule": [], "places": places}
    lines = [head, *map(plain_of, steps), {"result": "passes", "fault": None}]
    return page_of(f"{title}: passes", "".join(f"{json.dumps(line, separators=(',', ':'))}\n" for line in lines))
