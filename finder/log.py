"""The log of a run: docs/RACES.md, "The log of a run", describes its lines.

The first line has the command and the schedule. Each of the next lines is a step. The last line has the fault. The log
of another run may follow.
"""

from __future__ import annotations

import json
from typing import Any, Dict, List, NamedTuple, Optional, Sequence, Tuple

FORMAT, VERSION = "nic82540em race log", 2
# Who acts in a step. A scenario has other actors: its hosts and its wires.
DRIVER, HANDLER, ADAPTER, WIRE = "driver", "handler", "adapter", "wire"
ACTORS = (DRIVER, HANDLER, ADAPTER, WIRE)
# Actions that tell the actor; all others are the driver's
OF_ADAPTER = "rxdata", "rxdone", "txtake", "txput", "eeprom", "phy", "raise", "lower", "hold", "fault"
OF_WIRE = "arrive", "frame"
REGISTER_SIZE = 4
MOST_BYTES = 64 << 20  # of a log
UNENDED = "the log has no end: the process of the test ended before"


class LogError(Exception):
    """A text isn't a log."""


class Step(NamedTuple):
    """A step of a run. A size that isn't known is 0, and other values are None. In a page, `data` has the first bytes
    of a long access, or the first and the last bytes of a long frame.
    """
    actor: str
    action: str
    place: str = ""
    name: str = ""
    size: int = 0
    value: Optional[int] = None
    data: Optional[bytes] = None
    outcome: str = ""
    is_deviation: bool = False

    def is_access(self) -> bool:
        return self.action in ("read", "write") and bool(self.name)


class RunLog(NamedTuple):
    """A run: its command, its schedule, its fault (None if it passes), and its steps."""
    command: str
    schedule: Tuple[str, ...] = ()
    fault: Optional[str] = None
    steps: Tuple[Step, ...] = ()


DEFAULTS: Dict[str, Any] = dict(Step._field_defaults)
# The keys of a step in JSON, with the types of their values
KEYS = {"actor": str, "action": str, "place": str, "name": str, "size": int, "value": int, "data": str, "outcome": str,
        "is_deviation": bool}


def plain_step(step: Step) -> Dict[str, Any]:
    """A step as JSON has it: without the fields that have their default values."""
    fields = {key: value for key, value in step._asdict().items() if value != DEFAULTS.get(key, ())}
    if step.data is not None:
        fields["data"] = step.data.hex()
    return fields


def actor_of(action: str) -> str:
    """The actor of a step that names none."""
    return ADAPTER if action in OF_ADAPTER else WIRE if action in OF_WIRE else DRIVER


def short_step(step: Step) -> Dict[str, Any]:
    """A step as a page has it: without what its other keys tell."""
    fields = plain_step(step)
    if step.actor == actor_of(step.action):
        del fields["actor"]
    if step.name and step.value is not None and step.size == REGISTER_SIZE:
        del fields["size"]
    return fields


def plain_run(run: RunLog) -> Dict[str, Any]:
    return {**run._asdict(), "schedule": list(run.schedule), "steps": [plain_step(step) for step in run.steps]}


def text_of(runs: Sequence[RunLog]) -> str:
    """The lines of the logs of these runs."""
    lines: List[Dict[str, Any]] = []
    for run in runs:
        head = {"format": FORMAT, "version": VERSION, "command": run.command, "schedule": list(run.schedule)}
        lines += [head, *map(plain_step, run.steps), {"result": "fails" if run.fault else "passes", "fault": run.fault}]
    return "".join(f"{json.dumps(line)}\n" for line in lines)


def short_text_of(runs: Sequence[RunLog]) -> str:
    """The lines of the logs of one run or two, as a page has them. Steps with which both begin are there once."""
    lines: List[Dict[str, Any]] = []
    for number, run in enumerate(runs):
        ours = runs[0].steps if number else ()
        same = next((at for at, pair in enumerate(zip(run.steps, ours)) if pair[0] != pair[1]),
                    min(len(run.steps), len(ours)))
        head = {"format": FORMAT, "version": VERSION, "command": run.command, "schedule": list(run.schedule)}
        lines += [head, *([{"same": same}] if same else ()), *map(short_step, run.steps[same:]),
                  {"result": "fails" if run.fault else "passes", "fault": run.fault}]
    return "".join(f"{json.dumps(line, separators=(',', ':'))}\n" for line in lines)


def step_in(plain: Dict[str, Any]) -> Step:
    """The step in a line. Raises LogError."""
    if "action" not in plain:
        raise LogError("it is no step: it has no action")
    for key, value in plain.items():
        kind = KEYS.get(key)
        if kind is None:
            raise LogError(f"a step has no key {key!r}")
        if not isinstance(value, kind) or isinstance(value, bool) != (kind is bool):
            raise LogError(f"{key!r} of a step isn't of type {kind.__name__}")
    try:
        data = bytes.fromhex(plain["data"]) if "data" in plain else None
    except ValueError:
        raise LogError("'data' of a step isn't hexadecimal") from None
    if min(plain.get("size", 0), plain.get("value", 0)) < 0:
        raise LogError("a step has a number below 0")
    actor, is_register = actor_of(str(plain["action"])), bool(plain.get("name")) and "value" in plain
    fields: Dict[str, Any] = {"actor": actor, "size": REGISTER_SIZE if is_register else 0, **plain, "data": data}
    return Step(**fields)


def head_in(plain: Dict[str, Any]) -> RunLog:
    """The run that a first line begins. Raises LogError."""
    if plain["format"] != FORMAT or plain.get("version") != VERSION:
        raise LogError(f"it isn't a log with format {FORMAT!r} and version {VERSION}")
    command, schedule = plain.get("command"), plain.get("schedule")
    if not (isinstance(command, str) and isinstance(schedule, list) and all(isinstance(one, str) for one in schedule)):
        raise LogError("the command isn't a text, or the schedule isn't a list of texts")
    return RunLog(command, tuple(schedule), UNENDED)


def runs_in(text: str) -> List[RunLog]:
    """The runs whose logs are in a text: at least one. Raises LogError."""
    reader = Reader()
    for number, line in enumerate(text.splitlines(), 1):
        try:
            reader.take(json.loads(line))
        except (ValueError, RecursionError):
            raise LogError(f"line {number}: it isn't JSON") from None
        except LogError as error:
            raise LogError(f"line {number}: {error}") from None
    if not reader.runs:
        raise LogError("it is empty")
    return reader.all_runs()


class Reader:
    """Reads logs line by line."""

    def __init__(self) -> None:
        self.runs: List[RunLog] = []
        self.steps: List[Step] = []  # of the last run
        self.is_ended = True

    def all_runs(self) -> List[RunLog]:
        return [*self.runs[:-1], self.runs[-1]._replace(steps=tuple(self.steps))]

    def take(self, plain: Any) -> None:
        """Takes a line. Raises LogError."""
        if not isinstance(plain, dict) or self.is_ended and "format" not in plain:
            raise LogError("it isn't the line of a log" if self.runs else "it isn't the first line of a log")
        if "format" in plain:
            head = head_in(plain)
            self.runs = [*(self.all_runs() if self.runs else ()), head]
            self.steps, self.is_ended = [], False
        elif "result" in plain:
            self.end(plain)
        elif "same" in plain:
            self.begin_as_before(plain["same"])
        else:
            self.steps.append(step_in(plain))

    def begin_as_before(self, same: Any) -> None:
        """The run begins with this many steps of the run before. Raises LogError."""
        before = self.runs[-2].steps if len(self.runs) > 1 else ()
        if not isinstance(same, int) or isinstance(same, bool) or not 0 <= same <= len(before) or self.steps:
            raise LogError("no run before has so many steps")
        self.steps = list(before[:same])

    def end(self, plain: Dict[str, Any]) -> None:
        """Takes a last line. Raises LogError."""
        fault = plain.get("fault")
        if not (fault is None or isinstance(fault, str)):
            raise LogError("the fault isn't a text")
        self.runs[-1], self.is_ended = self.runs[-1]._replace(fault=fault), True
