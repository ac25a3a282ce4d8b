"""Where the heads and the tails of the rings are after each step of a run, and which slots the steps use."""

from __future__ import annotations

from typing import TYPE_CHECKING, Dict, List, NamedTuple, Optional, Tuple

if TYPE_CHECKING:
    from finder.log import Step

HEADS = ("RDH", "RDT", "TDH", "TDT")
DESCRIPTOR, LENGTHS, INDEX = 16, 0x000FFF80, 0xFFFF  # bytes; the bits of RDLEN and TDLEN, and of heads and tails
RESET = 1 << 26  # CTRL.RST


class Heads(NamedTuple):
    """RDH, RDT, TDH and TDT."""
    rdh: int = 0
    rdt: int = 0
    tdh: int = 0
    tdt: int = 0


class Slots:
    """The registers of the rings, and the slots of frames in progress."""

    def __init__(self) -> None:
        self.registers: Dict[str, int] = {}
        self.taken: List[int] = []  # the slots of the frames in the transmit packet buffer
        self.piece: Optional[int] = None  # the slot of the piece in progress

    def heads(self) -> Heads:
        return Heads(*(self.registers.get(name, 0) for name in HEADS))

    def access(self, step: Step) -> None:
        """Takes over a register that is written or read."""
        value = step.value or 0
        if step.name == "CTRL" and step.action == "write" and value & RESET:
            self.registers, self.taken, self.piece = {}, [], None
        elif step.name in ("RDLEN", "TDLEN"):
            self.registers[step.name] = value & LENGTHS
        elif step.name in HEADS:
            self.registers[step.name] = value & INDEX

    def advance(self, ring: str) -> int:
        """Advances the head of a ring. Returns the slot at which it was."""
        head, size = self.registers.get(f"{ring}DH", 0), max(1, self.registers.get(f"{ring}DLEN", 0) // DESCRIPTOR)
        self.registers[f"{ring}DH"] = (head + 1) % size
        return head

    def play(self, step: Step) -> Tuple[Optional[str], Optional[str]]:
        """Plays a step. Returns the slot that it used, such as rx[3], and the head that it moved, such as RDH 0x2."""
        slot = None
        if step.is_access() and step.value is not None:
            self.access(step)
        elif step.outcome in ("part", "moved"):
            slot = self.piece = self.advance("R")
        elif step.outcome == "done":
            slot, self.piece = self.piece, None
        elif step.outcome == "took":
            slot = self.advance("T")
            self.taken.append(slot)
        elif step.outcome == "put" and self.taken:
            slot = self.taken.pop(0)
        head = {"part": "RDH", "moved": "RDH", "took": "TDH"}.get(step.outcome)
        return (None if slot is None else f"{step.action[:2]}[{slot}]",
                f"{head} {self.registers[head]:#x}" if head else None)
