"""The known departures that the requests of a seed avoid, each with requests that show it on QEMU's e1000.

docs/EMULATORS.md contains the same list, with the section of the manual for each.
"""

from typing import List, NamedTuple

from drawing import ALL, BAM, EN, EOP, IFCS, OTHER, RS, SECRC

# RCTL with the receiver on, for buffers of 2,048 bytes and of 256 bytes
LARGE, SMALL = (f"writel RCTL {EN | BAM | SECRC | size << 16:#x}" for size in (0, 3))
# CTRL with the link up, and in it a reset, and the removal of VLAN tags
LINK, RESET, TAGS = 1 << 6, 1 << 26, 1 << 30
# TDESC.CMD: an extended descriptor, which the model doesn't have
DEXT = 1 << 5


def frame(to=ALL, kind="0800", size=60):
    """A frame of this many bytes, in hexadecimal."""
    return f"{to}{OTHER}{kind}".ljust(2 * size, "5")


class Avoided(NamedTuple):
    """A departure: its name, requests whose effects aren't compared, and requests that show the departure."""

    name: str
    first: List[str]
    shown: List[str]
    has_order: bool = False


AVOIDED = [
    Avoided("a reset", [LARGE], [f"writel CTRL {LINK | RESET:#x}", "readl RCTL"]),
    Avoided("VLAN tags", [LARGE, f"writel CTRL {LINK | TAGS:#x}", "writel VET 0x8100", "offer 2"],
            [f"deliver {frame(kind='81000005')}"]),
    Avoided("TXQE", ["readl ICR"], ["writel TCTL 0x400fa", "readl ICR"]),
    Avoided("frames without room", [SMALL, "offer 1", "readl ICR"], [f"deliver {frame(size=300)}", "readl ICR"]),
    # The number of this address in the group table is 0x090.
    Avoided("the group table", [LARGE, "writel MTA(4) 0x10000", "offer 2"], [f"deliver {frame(to=OTHER)}"]),
    # Two frames of six pieces, and one free slot: the packet buffer of 2 KB has no room for the second frame.
    Avoided("MPC and RNBC", ["writel PBA 2", SMALL, "offer 1", *[f"deliver {frame(size=1518)}"] * 2, "readl MPC"],
            ["readl MPC"]),
    Avoided("short frames", [], [f"send {EOP | IFCS | RS:#x} {frame(size=20)}"]),
    Avoided("faults of rings and descriptors", [f"send {EOP | IFCS | DEXT:#x} {frame()}"],
            [f"send {EOP | IFCS | RS:#x} {frame()}"]),
    Avoided("interrupt order", ["writel IMS 0x3", "readl ICR"], [f"send {EOP | IFCS | RS:#x} {frame()}"],
            has_order=True),
]
