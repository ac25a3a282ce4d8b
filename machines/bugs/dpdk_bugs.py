"""Bugs for DPDK's driver net_e1000_em. Each changes em_rxtx.c at places that it finds by names."""

from __future__ import annotations

from c_source import Source

MAIN = "em_rxtx.c"
RECEIVE = "eth_em_recv_pkts"


def early_length(source: Source) -> None:
    """The descriptor is copied, with its length, before DD is read."""
    source.remove(RECEIVE, r"\brxd\s*=\s*\*rxdp;")
    source.insert_before(RECEIVE, r"\bstatus\s*=\s*rxdp->status;", "rxd = *rxdp;")


def early_tail(source: Source) -> None:
    """RDT is moved on before the address of the slot is stored."""
    source.insert_before(RECEIVE, r"\brxm\s*=\s*rxe->mbuf;", "E1000_PCI_REG_WRITE(rxq->rdt_reg_addr, rx_id);")


def full_ring(source: Source) -> None:
    """RDT is moved one slot too far, so that a full ring looks like an empty one."""
    source.remove(RECEIVE, r"\brx_id\s*=\s*\(uint16_t\)[^;]*;")


BUGS = {"early-length": early_length, "early-tail": early_tail, "full-ring": full_ring}
