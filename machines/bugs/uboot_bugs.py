"""Bugs for U-Boot's driver. Each changes e1000.c at places that it finds by names."""

from __future__ import annotations

from c_source import Source

MAIN = "drivers/net/e1000.c"


def early_tail(source: Source) -> None:
    """RDT is moved on before the slot's descriptor is cleared."""
    source.insert_before("fill_rx", r"\bmemset\s*\(\s*rd\b", "E1000_WRITE_REG(hw, RDT, rx_tail);")


def early_free(source: Source) -> None:
    """The buffer of a received frame is offered again before the frame is read."""
    source.insert_after("e1000_eth_recv", r"\blen\s*=\s*_e1000_poll\s*\([^;]*;", "if (len) fill_rx(hw);")
    source.remove("e1000_free_pkt", r"\bfill_rx\s*\([^;]*;")


def no_wait(source: Source) -> None:
    """The driver doesn't wait for DD of a frame, whose buffer is then used for the next one."""
    source.insert_before("_e1000_transmit", r"\bwhile\s*\(\s*1\s*\)", "return 1;")


BUGS = {"early-tail": early_tail, "early-free": early_free, "no-wait": no_wait}
