"""An adapter that is served in process: each line of `nicbench serve` is answered by a call of the library."""

from __future__ import annotations

import ctypes
from typing import Any, List, NamedTuple, Optional, Sequence, Union

from . import KINDS, MOST_NAME_BYTES
from .calls import Coming, Refused, ServerHandle, default_library, load_library, options_with

# The address of the first register, by default
REGISTERS = 0xFEB00000
# What lines are in a schedule, by their numbers from 1
COMINGS = "read", "write", "arrive", "offer", "step", "settle", "choose"
# What `Server.deviate` plays, by its number
ACTIONS = (*KINDS, "arrive")
# The bit of an arrival in the mask of what can be played
ARRIVAL_BIT = 31


class Place(NamedTuple):
    """What a line is in a schedule."""
    kind: str  # one of COMINGS
    round: int
    access: int  # the number of the access in the round, from 1; 0 if the line begins the round
    address: int  # the address of a read or a write, else 0
    limit: int  # the limit of `choose`, else 0
    name: str  # such as ICR, rx[1]+8 or settle


class Server:
    """A served adapter in process. It is freed at the end of a `with` block, by `close`, or with the object.

    If memory is refused in a call, the call raises Refused, and so does each later call but `close`.
    """

    def __init__(self, library: Union[str, ctypes.CDLL, None] = None, memory: int = 1 << 20, link: int = 1,
                 rxa: int = 48, address: bytes = b"\x02\0\0\0\0\x01", missed: int = 0,
                 image: Optional[Sequence[int]] = None, registers: int = REGISTERS, seed: int = 0) -> None:
        """Makes an adapter with these options of `serve`. `image` has the 64 words of the EEPROM.

        Raises Refused if an option is out of range, or memory is refused.
        """
        self.handle = ServerHandle()
        library = default_library() if library is None else library
        self.library = load_library(library) if isinstance(library, str) else library
        options = options_with(memory, link, rxa, address, missed, image)
        if not (0 <= registers < 1 << 64 and 0 <= seed < 1 << 64 and self.call("serve", options, registers, seed)):
            raise Refused("an option is out of range, or memory is refused")

    def __enter__(self) -> Server:
        return self

    def __exit__(self, *_: object) -> None:
        self.close()

    def __del__(self) -> None:
        if hasattr(self, "library"):
            self.close()

    def call(self, name: str, *words: object) -> Any:
        return getattr(self.library, f"nic82540em_{name}")(ctypes.byref(self.handle), *words)

    def close(self) -> None:
        self.call("close")

    def answer(self, line: bytes) -> bytes:
        """Answers a line, without its line feed. Returns what `nicbench serve` writes for it, and before it what was
        told of `deviate` since the answer before.
        """
        length = self.call("answer", line, len(line), b"", 0)
        if not length:
            raise Refused("memory is refused")
        return self.told(length)

    def told(self, room: int) -> bytes:
        """Returns the first `room` bytes of the last answer."""
        into = ctypes.create_string_buffer(room + 1)
        length = self.call("told", into, room)
        return into.raw[:min(room, length)]

    def comes(self, line: bytes) -> Optional[Place]:
        """Returns what a line would be in a schedule if it came now, or None if it would be no place of a schedule. The
        line isn't answered.
        """
        coming, name = Coming(), ctypes.create_string_buffer(MOST_NAME_BYTES)
        length = self.call("comes", line, len(line), ctypes.byref(coming), name, MOST_NAME_BYTES)
        if not coming.kind:
            return None
        return Place(COMINGS[coming.kind - 1], coming.round, coming.access, coming.address, coming.limit,
                     name.raw[:length].decode())

    def can(self) -> List[str]:
        """Returns those of ACTIONS that would do something now."""
        mask = self.call("can")
        return [kind for number, kind in enumerate(KINDS) if mask >> number & 1] + ["arrive"] * (mask >> ARRIVAL_BIT)

    def deviate(self, action: str) -> bool:
        """Plays one of ACTIONS: a step of a kind, or the arrival of the oldest offered frame. Returns whether it did
        something. What `nicbench serve` would write about it comes before the next answer.
        """
        if action not in ACTIONS:
            raise Refused(f"deviate {action}")
        return self.call("deviate", ACTIONS.index(action))

    def answers(self, number: int) -> None:
        """The next request `choose` is answered by this number, if the number is below its limit, or else by 0. While
        steps are random, its answer is random.
        """
        if not (0 <= number < 1 << 32 and self.call("answers", number)):
            raise Refused(f"answers {number}")

    def state_digest(self, seed: int = 0) -> int:
        """Returns a digest of the adapter's state, as `Nic.state_digest`."""
        if not 0 <= seed < 1 << 64:
            raise Refused(f"state_digest {seed}")
        return self.call("server_digest", seed)
