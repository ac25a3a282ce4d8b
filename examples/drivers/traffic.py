"""Frames that arrive and are sent in a test, and what is wrong with them."""

SELF, OTHER = bytes.fromhex("020000000001"), bytes.fromhex("020000000009")
# The EtherType of most frames
KIND = b"\x88\xb5"
# The most steps that are played before an access.
STEPS = 3


def frame_of(number, to, source, length, kind=KIND):
    """Returns a frame with this length, whose bytes depend on the number."""
    return (to + source + kind).ljust(length, bytes([number]))


def fault_of(name, wanted, got):
    """Returns what is wrong with a list of frames, or None."""
    for number, frame in enumerate(wanted):
        if number == len(got):
            return f"frame {number} was never {name}"
        if len(got[number]) != len(frame):
            return f"frame {number} was {name} with {len(got[number])} bytes instead of {len(frame)}"
        if got[number] != frame:
            return f"frame {number} was {name} with wrong bytes"
    return None if len(got) == len(wanted) else f"a frame was {name} that never was"


def freed_fault(driver, adapter):
    """Returns what is wrong if the driver has freed the buffer of a frame that isn't on the wire, or None."""
    if driver.sent > len(adapter.wire):
        return f"the buffer of frame {driver.sent - 1} was freed before the frame was on the wire"
    return None
