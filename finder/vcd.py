"""A run as a value change dump (IEEE 1364, section 18), for programs that show waves.

The dump has no date, so the same run leads to the same dump. The time of an access is the next multiple of 16. A hold,
an arrival, or a step with another outcome than `nothing` takes one unit. A change of the interrupt line, and a frame on
the wire, have the time of the step or the access that causes them.
"""

from __future__ import annotations

import re
from typing import TYPE_CHECKING, Optional, Sequence

from finder.names import FATES, OF_STEPS, REGISTERS, is_register
from finder.slots import HEADS, Slots

if TYPE_CHECKING:
    from finder.log import RunLog, Step

UNITS = 16
HOLDS = ("hold eeprom", "hold phy")
ACCESSES = ("read_register", "write_register", "read_memory", "write_memory")
ORDER = {name: at for at, name in enumerate(REGISTERS.values())}
FIRST, LAST = 33, 126  # the characters of identifier codes
# The kinds of variables: each with its type in the dump and its size in bits.
KINDS = {"event": ("event", 1), "line": ("wire", 1), "head": ("reg", 16), "register": ("reg", 32),
         "number": ("integer", 32)}


def code_of(number: int) -> str:
    """The identifier code of a variable: one character, or more if there are many variables."""
    code = ""
    while True:
        number, digit = divmod(number, LAST - FIRST + 1)
        code += chr(FIRST + digit)
        if number == 0:
            return code


def identifier(name: str) -> str:
    """A name of letters, digits and `_`: `MTA[3]` becomes `MTA_3`."""
    return re.sub(r"\W+", "_", name, flags=re.ASCII).strip("_")


def registers_of(steps: Sequence[Step]) -> list[str]:
    """The registers that a run accesses, except for heads and tails: named ones in the order of their offsets, then
    others.
    """
    found = {step.name for step in steps if step.is_access() and is_register(step.name)}
    return sorted(found - {*HEADS}, key=lambda name: (ORDER.get(name, len(ORDER)), name))


def scope_of(name: str) -> str:
    """The scope of a register; each table of registers has a scope of its own."""
    return name.partition("[")[0] if name in ORDER and "[" in name else "registers"


def event_of(step: Step) -> str | None:
    """The event of a step of the adapter, of a hold, of an arrival, or of a handler; None for other steps."""
    if step.action in (*OF_STEPS, "arrive", "hold"):
        return identifier(f"{step.action} {step.outcome}")
    return identifier(step.outcome) if step.action == "mark" else None


def variables_of(steps: Sequence[Step]) -> dict[str, dict[str, str]]:
    """The variables of a dump by scope, each with its name and its kind."""
    taken = (f"{kind} {outcome}" for kind, outcomes in OF_STEPS.items() for outcome in outcomes)
    events = [*taken, *HOLDS, *(f"arrive {fate}" for fate in FATES), "frame", "deviation"]
    seen = filter(None, map(event_of, steps))
    scopes = {
        "adapter": {"irq": "line", **dict.fromkeys((*map(identifier, events), *seen), "event")},
        "rings": dict.fromkeys(HEADS, "head"),
        "driver": {"round": "number", "access": "number", **dict.fromkeys(ACCESSES, "event")},
    }
    for name in registers_of(steps):
        scopes.setdefault(scope_of(name), {})[identifier(name)] = "register"
    return scopes


class Dump:
    """The lines of a dump."""

    def __init__(self, scopes: dict[str, dict[str, str]], comment: str) -> None:
        self.codes: dict[str, str] = {}
        self.kinds: dict[str, str] = {}
        self.values: dict[str, Optional[int]] = {}
        self.lines: list[str] = []
        self.now = self.told = 0  # the time, and the last time that is in the lines
        self.lines += ["$version races of nicbench $end", f"$comment {comment} $end", "$timescale 1 ns $end",
                       "$scope module race $end"]
        for scope, variables in scopes.items():
            self.declare(scope, variables)
        self.lines += ["$upscope $end", "$enddefinitions $end", "#0", "$dumpvars"]
        self.begin()
        self.lines.append("$end")

    def declare(self, scope: str, variables: dict[str, str]) -> None:
        """Adds the declarations of a scope and its variables."""
        self.lines.append(f"$scope module {scope} $end")
        for name, kind in variables.items():
            self.codes[name], self.kinds[name] = code_of(len(self.codes)), kind
            word, size = KINDS[kind]
            self.lines.append(f"$var {word} {size} {self.codes[name]} {name} $end")
        self.lines.append("$upscope $end")

    def begin(self) -> None:
        """Adds the first values, which are 0. An event has no value, and a register's value isn't known before an
        access to it.
        """
        for name, kind in self.kinds.items():
            if kind != "event":
                self.change(name, None if kind == "register" else 0)

    def change(self, name: str, value: int | None) -> None:
        """Adds that a variable has this value from now on (None if it isn't known), unless it already has the value."""
        if self.values.get(name, ()) != value:
            self.values[name] = value
            text = "x" if value is None else f"{value:b}"
            self.tell(text + self.codes[name] if self.kinds[name] == "line" else f"b{text} {self.codes[name]}")

    def happen(self, name: str) -> None:
        self.tell(f"1{self.codes[name]}")

    def tell(self, line: str) -> None:
        if self.told != self.now:
            self.lines.append(f"#{self.now}")
            self.told = self.now
        self.lines.append(line)


def dump_access(dump: Dump, step: Step) -> None:
    """Adds an access, and the value of its register, unless this is a head or a tail: `dump_step` adds these."""
    dump.now = (dump.now // UNITS + 1) * UNITS
    dump.happen(f"{step.action}_{'register' if is_register(step.name) else 'memory'}")
    number, _, access = step.place.partition("+")[0].partition(".")
    dump.change("round", int(number))
    dump.change("access", int(access))
    if is_register(step.name) and step.name not in HEADS and step.value is not None:
        dump.change(identifier(step.name), step.value)


def dump_step(dump: Dump, step: Step, slots: Slots) -> None:
    """Adds a step of the log."""
    event = event_of(step)
    slots.play(step)
    if step.is_access():
        dump_access(dump, step)
    elif step.action in ("raise", "lower"):
        dump.change("irq", int(step.action == "raise"))
    elif step.action == "frame":
        dump.happen("frame")
    elif event:
        dump.now += 1
        dump.happen(event)
        if step.is_deviation:
            dump.happen("deviation")
    for name, value in zip(HEADS, slots.heads()):
        dump.change(name, value)


def comment_of(run: RunLog) -> str:
    """The dump's comment on the run: printable ASCII, without the character that begins a keyword."""
    text = run.fault or "the test passes"
    return "".join(letter if " " <= letter <= "~" and letter != "$" else "?" for letter in text)


def vcd(run: RunLog) -> str:
    """The dump of a run."""
    dump, slots = Dump(variables_of(run.steps), comment_of(run)), Slots()
    for step in run.steps:
        dump_step(dump, step, slots)
    dump.now += 1
    dump.lines.append(f"#{dump.now}")
    return "".join(f"{line}\n" for line in dump.lines)
