"""The types and the calls of the library libnic82540em.so, as its header nic82540em.h declares them."""

from __future__ import annotations

import ctypes
import os
from typing import Any, Dict, List, Optional, Sequence, Tuple

# The number of words of the EEPROM
IMAGE_WORDS = 64
FILE = "libnic82540em.so"


class Refused(Exception):
    """A call was refused. In the adapter, nothing changed."""


class Handle(ctypes.Structure):
    """A handle of an adapter, `struct nic82540em`."""
    _fields_ = [("held", ctypes.c_bool), ("state", ctypes.c_void_p)]


class Options(ctypes.Structure):
    """What a new adapter is made of, `struct nic82540em_options`."""
    _fields_ = [("memory", ctypes.c_uint64), ("link", ctypes.c_uint32), ("rxa", ctypes.c_uint32),
                ("address", ctypes.c_uint8 * 6), ("has_image", ctypes.c_bool), ("missed", ctypes.c_uint32),
                ("image", ctypes.c_uint16 * IMAGE_WORDS)]


class Event(ctypes.Structure):
    """Something that happened, `struct nic82540em_event`."""
    _fields_ = [(name, ctypes.c_uint32) for name in ("what", "kind", "value", "reason", "index")]


class ServerHandle(ctypes.Structure):
    """A handle of a served adapter, `struct nic82540em_server`."""
    _fields_ = [("held", ctypes.c_bool), ("state", ctypes.c_void_p)]


class Coming(ctypes.Structure):
    """What a line is in a schedule, `struct nic82540em_coming`."""
    _fields_ = [("kind", ctypes.c_uint32), ("round", ctypes.c_uint32), ("access", ctypes.c_uint32),
                ("address", ctypes.c_uint64), ("limit", ctypes.c_uint32)]


# The calls by their names without `nic82540em_`: the types of their results, and of what they take after the handle
CALLS: Dict[str, Tuple[Any, List[Any]]] = {
    "new": (ctypes.c_bool, [ctypes.POINTER(Options)]),
    "free": (None, []),
    "read": (ctypes.c_uint32, [ctypes.c_uint32]),
    "write": (None, [ctypes.c_uint32, ctypes.c_uint32]),
    "load": (ctypes.c_bool, [ctypes.c_uint64, ctypes.c_void_p, ctypes.c_size_t]),
    "store": (ctypes.c_bool, [ctypes.c_uint64, ctypes.c_char_p, ctypes.c_size_t]),
    "accesses": (ctypes.c_uint64, []),
    "waiting_received": (ctypes.c_uint32, []),
    "waiting_transmit": (ctypes.c_uint32, []),
    "memory": (ctypes.c_uint64, [ctypes.POINTER(ctypes.c_void_p)]),
    "peek": (ctypes.c_bool, [ctypes.c_uint32, ctypes.POINTER(ctypes.c_uint32)]),
    "step": (ctypes.c_uint32, [ctypes.c_uint32]),
    "arrive": (ctypes.c_uint32, [ctypes.c_char_p, ctypes.c_size_t]),
    "take_put": (ctypes.c_size_t, [ctypes.c_void_p, ctypes.c_size_t]),
    "line": (ctypes.c_bool, []),
    "settle": (ctypes.c_uint64, []),
    "interleave": (ctypes.c_bool, [ctypes.c_uint32, ctypes.c_uint64]),
    "pace": (ctypes.c_bool, [ctypes.c_uint32]),
    "choose": (ctypes.c_uint32, [ctypes.c_uint32]),
    "schedule": (ctypes.c_bool, [ctypes.c_uint64, ctypes.c_uint32]),
    "ticks": (None, [ctypes.c_bool]),
    "recount": (None, [ctypes.c_uint64]),
    "possible": (ctypes.c_uint32, []),
    "digest": (ctypes.c_uint64, []),
    "state_digest": (ctypes.c_uint64, [ctypes.c_uint64]),
    "copy": (ctypes.c_bool, [ctypes.POINTER(Handle)]),
    "offer": (ctypes.c_bool, [ctypes.c_char_p, ctypes.c_size_t]),
    "fill_wire": (None, [ctypes.c_bool]),
    "events": (None, [ctypes.c_bool]),
    "take_event": (ctypes.c_bool, [ctypes.POINTER(Event)]),
    "play": (ctypes.c_uint32, [ctypes.c_char_p, ctypes.c_size_t]),
    "begin_round": (ctypes.c_bool, [ctypes.c_uint32]),
    "name": (ctypes.c_size_t, [ctypes.c_uint32, ctypes.c_uint64, ctypes.c_void_p, ctypes.c_size_t]),
}
# The same of the calls that take the handle of a served adapter
SERVER_CALLS: Dict[str, Tuple[Any, List[Any]]] = {
    "serve": (ctypes.c_bool, [ctypes.POINTER(Options), ctypes.c_uint64, ctypes.c_uint64]),
    "close": (None, []),
    "answer": (ctypes.c_size_t, [ctypes.c_char_p, ctypes.c_size_t, ctypes.c_void_p, ctypes.c_size_t]),
    "told": (ctypes.c_size_t, [ctypes.c_void_p, ctypes.c_size_t]),
    "comes": (ctypes.c_size_t, [ctypes.c_char_p, ctypes.c_size_t, ctypes.POINTER(Coming), ctypes.c_void_p,
                                ctypes.c_size_t]),
    "can": (ctypes.c_uint32, []),
    "deviate": (ctypes.c_bool, [ctypes.c_uint32]),
    "answers": (ctypes.c_bool, [ctypes.c_uint32]),
    "server_digest": (ctypes.c_uint64, [ctypes.c_uint64]),
}


def default_library() -> str:
    """The path of the library next to this file, where `pip` installs it. If there is none: its path in the folder
    $NIC82540EM_LIB. If this variable isn't set: only the file's name, and the system looks for the file.
    """
    own = os.path.join(os.path.dirname(os.path.abspath(__file__)), FILE)
    return own if os.path.exists(own) else os.path.join(os.environ.get("NIC82540EM_LIB", ""), FILE)


def load_library(path: str) -> ctypes.CDLL:
    """Loads libnic82540em.so, and sets the types of its calls."""
    library = ctypes.CDLL(path)
    tables: List[Tuple[Any, Dict[str, Tuple[Any, List[Any]]]]] = [(Handle, CALLS), (ServerHandle, SERVER_CALLS)]
    for handle, table in tables:
        for name, (result, words) in table.items():
            call = getattr(library, f"nic82540em_{name}")
            call.restype, call.argtypes = result, [ctypes.POINTER(handle), *words]
    return library


def options_with(memory: int, link: int, rxa: int, address: bytes, missed: int,
                 image: Optional[Sequence[int]]) -> Options:
    """What an adapter with these settings is made of. Raises Refused if one of them doesn't fit its type."""
    for name, value, bits in ("memory", memory, 64), ("link", link, 32), ("rxa", rxa, 32), ("missed", missed, 32):
        if not 0 <= value < 1 << bits:
            raise Refused(f"{name}: {value}")
    if image is not None and (len(image) != IMAGE_WORDS or not all(0 <= word < 1 << 16 for word in image)):
        raise Refused(f"image: {image}")
    return Options(memory, link, rxa, (ctypes.c_uint8 * 6)(*address), image is not None, missed,
                   (ctypes.c_uint16 * IMAGE_WORDS)(*(image or ())))
