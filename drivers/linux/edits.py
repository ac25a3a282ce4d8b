"""Edits of Linux's driver e1000 that are made when it is built: bugs, and the repair of the race of RACE.md.

Each edit changes e1000_main.c at places that it finds by names.
"""

from __future__ import annotations

from typing import Callable

import bugs
from c_source import Source

MAIN = bugs.MAIN


def repaired(source: Source) -> None:
    """No bug: the carrier is off again after the watchdog's work was cancelled."""
    source.insert_after("e1000_down", r"\be1000_down_and_stop\s*\([^;]*;", "netif_carrier_off(netdev);")


def lost_wake(source: Source) -> None:
    """TDT is written before the queue is stopped, and the ring isn't looked at again after the stop."""
    source.insert_before("e1000_xmit_frame", r"\be1000_maybe_stop_tx\s*\([^;]*\bdesc_needed\s*\)\s*;", """
        writel(tx_ring->next_to_use, hw->hw_addr + tx_ring->tdt);""")
    source.remove("__e1000_maybe_stop_tx", r"\bif\s*\([^;]*\bE1000_DESC_UNUSED\s*\([^;]*\bsize\s*\)\s*\)")


def kept_mapping(source: Source) -> None:
    """The mapping of a sent frame isn't removed."""
    source.remove("e1000_unmap_and_free_tx_resource", r"\bdma_unmap_single\s*\([^;]*;")


def late_reset(source: Source) -> None:
    """The driver goes down, and frees the buffers while the adapter still receives."""
    source.remove("e1000_down", r"\bew32\s*\(\s*RCTL[^;]*;")
    source.remove("e1000_down", r"\be1000_reset\s*\([^;]*;")
    source.insert_after("e1000_down", r"\be1000_clean_all_rx_rings\s*\([^;]*;", "e1000_reset(adapter);")


def direct_restart(source: Source) -> None:
    """The driver restarts in the stack's timeout, in which it mustn't sleep."""
    source.remove("e1000_tx_timeout", r"\bschedule_work\s*\([^;]*;")
    source.insert_after("e1000_tx_timeout", r"\btx_timeout_count\s*\+\+\s*;|\+\+[^;]*\btx_timeout_count\s*;",
                        "e1000_reinit_locked(adapter);")


def running_watchdog(source: Source) -> None:
    """The watchdog's work isn't cancelled when the driver goes down."""
    source.remove("e1000_down_and_stop", r"\bcancel_delayed_work_sync\s*\(\s*&adapter->watchdog_task\s*\)\s*;")


EDITS: dict[str, Callable[[Source], None]] = {
    "repaired": repaired, **{name: bug for name, bug in bugs.BUGS.items() if name != "no-barrier"},
    "lost-wake": lost_wake, "kept-mapping": kept_mapping, "late-reset": late_reset, "direct-restart": direct_restart,
    "running-watchdog": running_watchdog}
