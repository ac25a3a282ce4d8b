"""Bugs for Linux's e1000 driver. Each changes e1000_main.c at places that it finds by names."""

from __future__ import annotations

from c_source import Source

MAIN = "e1000_main.c"


def late_end(source: Source) -> None:
    """EOP and RS of a frame's last descriptor are stored after the tail is written."""
    source.remove("e1000_tx_queue", r"\w+->lower\.data\s*\|=[^;]*\btxd_cmd\b[^;]*;")
    source.insert_after("e1000_xmit_frame", r"\bwritel\s*\([^;]*\btdt\b[^;]*;", """
        E1000_TX_DESC(*tx_ring, (tx_ring->next_to_use + tx_ring->count - 1) % tx_ring->count)->lower.data |=
            cpu_to_le32(adapter->txd_cmd);""")


def early_length(source: Source) -> None:
    """The length of a received frame is read before DD."""
    source.remove("e1000_clean_rx_irq", r"\blength\s*=[^;]*->length\b[^;]*;")
    source.change_condition("e1000_clean_rx_irq", "E1000_RXD_STAT_DD", lambda condition: f"""
        ({{ length = le16_to_cpu(READ_ONCE(rx_desc->length)); barrier(); {condition}; }})""")


def early_tail(source: Source) -> None:
    """RDT is moved on before the addresses of the new slots are stored."""
    source.insert_before("e1000_alloc_rx_buffers", r"\bwhile\s*\([^)]*\bcleaned_count\b", """
        if (cleaned_count)
            writel((i + cleaned_count + rx_ring->count - 1) % rx_ring->count, adapter->hw.hw_addr + rx_ring->rdt);""")


def cleared_causes(source: Source) -> None:
    """ICR is cleared between the scan of the rings and the enabling of interrupts."""
    source.insert_before("e1000_clean", r"\bif\s*\([^;]*\be1000_irq_enable\s*\(", """
        readl(adapter->hw.hw_addr + E1000_ICR);""")


def two_freed(source: Source) -> None:
    """DD of one frame frees the next frame's slots, too."""
    source.begin("e1000_clean_tx_irq", "bool one_more = false;")
    source.change_condition("e1000_clean_tx_irq", "E1000_TXD_STAT_DD", lambda condition: f"""
        {condition} ? (one_more = true) : one_more && i != READ_ONCE(tx_ring->next_to_use) && !(one_more = false)""")


def freed_by_head(source: Source) -> None:
    """Slots are freed up to TDH, without DD."""
    source.change_condition("e1000_clean_tx_irq", "E1000_TXD_STAT_DD", lambda condition: """
        i != readl(hw->hw_addr + tx_ring->tdh) && count < tx_ring->count""")


def no_barrier(source: Source) -> None:
    """There is no barrier after DD of a received frame is read."""
    source.remove("e1000_clean_rx_irq", r"\bdma_rmb\s*\(\s*\)\s*;")


BUGS = {"late-end": late_end, "early-length": early_length, "early-tail": early_tail, "cleared-causes": cleared_causes,
        "two-freed": two_freed, "freed-by-head": freed_by_head, "no-barrier": no_barrier}
