"""The log of a scenario's run, by the lines that `nicbench run --events` writes, and where the frames are.

A frame has a number, in the order in which hosts accepted frames for sending. Each host has a list of frames for each
of STAGES.
"""

from __future__ import annotations

import re
from typing import Dict, Iterator, List, NamedTuple, Optional, Tuple

from finder.names import FATES
from finder.log import Step

# Where the frames of a host are
RING, BUFFER, COMING, STORED, PROGRESS, FINISHED, TAKEN, DROPPED = STAGES = (
    "transmit ring", "transmit packet buffer", "on the wire to this host", "receive packet buffer",
    "in progress", "finished in the receive ring", "taken by the driver", "not stored")
MOST_SHOWN = 12  # frames of a stage
NUMBER = re.compile(r"\bhandled (\d+)")


class Shown(NamedTuple):
    """A step, its text, and the cells that it changes."""
    step: Step
    text: str
    changes: Dict[str, str]


class Network:
    """The hosts of a run, and where their frames are."""

    def __init__(self, wires: Dict[str, str]) -> None:
        self.wires = wires
        self.frames: Dict[Tuple[str, str], List[int]] = {(host, stage): [] for host in wires for stage in STAGES}
        self.places: Dict[int, Dict[str, str]] = {}  # by frames: the stage at each host that has the frame
        self.accepted = 0
        self.is_last: Dict[str, bool] = {}  # whether the piece in progress is the last one of its frame
        self.changed: Dict[str, str] = {}  # cells that have changed
        self.wrong = 0  # how many frames had to move from a stage without frames

    def note(self, host: str, stage: str, frame: int) -> None:
        """Notes that a frame has come to a stage of a host, or has left it."""
        frames = self.frames[host, stage]
        last = " ".join(map(str, frames[-MOST_SHOWN:]))
        is_long = len(frames) > MOST_SHOWN
        self.changed[f"{host} {stage}"] = f"{len(frames)} frames, the last: {last}" if is_long else last
        where = "; ".join(f"{its}: {place}" for its, place in self.places.get(frame, {}).items())
        self.changed[f"frame {frame}"] = where or "dropped"

    def changes(self) -> Dict[str, str]:
        """The cells that have changed since the last call."""
        changed, self.changed = self.changed, {}
        return changed

    def put(self, host: str, stage: str, frame: int) -> None:
        self.frames[host, stage].append(frame)
        self.places.setdefault(frame, {})[host] = stage
        self.note(host, stage, frame)

    def take(self, host: str, stage: str) -> Optional[int]:
        """Takes the oldest frame from a stage."""
        if not self.frames[host, stage]:
            self.wrong += 1
            return None
        frame = self.frames[host, stage].pop(0)
        if self.places[frame].get(host) == stage:
            del self.places[frame][host]
        self.note(host, stage, frame)
        return frame

    def move(self, host: str, old: str, new: str) -> None:
        """Moves the oldest frame of a stage to another stage."""
        frame = self.take(host, old)
        if frame is not None:
            self.put(host, new, frame)

    def send(self, host: str) -> None:
        self.put(host, RING, self.accepted)
        self.accepted += 1

    def tick(self, kind: str, host: str, outcome: str) -> None:
        """A tick of a host with this outcome."""
        if outcome == "took":
            self.move(host, RING, BUFFER)
        elif outcome == "put":
            frame = self.take(host, BUFFER)
            others = [its for its, wire in self.wires.items() if its != host and wire == self.wires[host]]
            for other in others if frame is not None else ():
                self.put(other, COMING, frame or 0)
        elif kind == "deliver" and outcome in FATES:
            self.move(host, COMING, STORED if outcome == "stored" else DROPPED)
        elif outcome in ("part", "moved"):
            self.receive(host, outcome == "moved")
        elif outcome == "done" and self.is_last.get(host):
            self.move(host, PROGRESS, FINISHED)

    def receive(self, host: str, is_last: bool) -> None:
        """RxData: a piece of the oldest stored frame is written to a buffer."""
        self.is_last[host] = is_last
        if not self.frames[host, PROGRESS] and self.frames[host, STORED]:
            self.put(host, PROGRESS, self.frames[host, STORED][0])
        if is_last:
            self.take(host, STORED)

    def returned(self, call: str, host: str, answer: str) -> None:
        """A call has returned with this answer."""
        taken = NUMBER.search(answer)
        for _ in range(int(taken[1]) if taken else 0):
            self.move(host, FINISHED, TAKEN)
        stages = {"drain": (FINISHED, PROGRESS, STORED), "reset": (RING, BUFFER, FINISHED, PROGRESS, STORED)}
        for stage in stages.get(call, ()):
            while self.frames[host, stage]:
                frame = self.take(host, stage)
                if call == "drain" and frame is not None and frame not in self.frames[host, TAKEN]:
                    self.put(host, TAKEN, frame)


def tick_shown(network: Network, place: str, text: str, wires: Dict[str, str]) -> Optional[Shown]:
    """A tick with its outcome, such as `txput:a put 60`. None for a `go`."""
    tick, outcome, *size = text.split()
    kind, _, host = tick.partition(":")
    if not host:
        return None
    network.tick(kind, host, outcome)
    actor = f"wire {wires[host]}" if kind == "deliver" else f"adapter {host}"
    what = f"{kind} to {host}" if kind == "deliver" else kind
    words = " ".join([f"{what}: {outcome}", *[f"{one} bytes" for one in size]])
    return Shown(Step(actor, kind, place, outcome=outcome), words, network.changes())


def steps_of(lines: List[str], wires: Dict[str, str], network: Optional[Network] = None) -> Iterator[Shown]:
    """Yields the steps of the lines of a log. A call with ticks inside is two steps: it begins, and it returns."""
    network = network or Network(wires)
    for line in lines:
        head, *ticks = line.split(" @")
        number, _, _, call, *words = head.split()
        is_call = call != "tick"
        host, answer = (words[0], " ".join(words[1:])) if is_call else ("", "")
        if call == "send" and re.search(r"\bok\b", answer):
            network.send(host)
        if is_call and ticks:
            yield Shown(Step(f"host {host}", call, number), f"{call} begins", network.changes())
        for tick in ticks:
            accesses, _, text = tick.partition(" ")
            shown = tick_shown(network, f"{number}.{accesses}" if is_call else number, text, wires)
            if shown:
                yield shown
        if is_call:
            network.returned(call, host, answer)
            text = f"{call} returns: {answer}" if ticks else f"{call} {answer}"
            yield Shown(Step(f"host {host}", call, number, outcome=answer), text, network.changes())


def lanes_of(wires: Dict[str, str]) -> List[str]:
    """The lanes: for each wire, its first host, the wire, and its other hosts; each host with its adapter."""
    lanes: List[str] = []
    for wire in dict.fromkeys(wires.values()):
        first, *others = [host for host, its in wires.items() if its == wire]
        lanes += [f"host {first}", f"adapter {first}", f"wire {wire}"]
        for host in others:
            lanes += [f"adapter {host}", f"host {host}"]
    return lanes
