#!/usr/bin/env python3
"""Finds whether the order of a step and an access of the driver matters, as both_orders.c does.

usage: PYTHONPATH=bindings/python NIC82540EM_LIB=FOLDER examples/library/both_orders.py

FOLDER contains libnic82540em.so. If the package is installed by pip, neither variable is needed.
"""

from nic82540em import Nic

ICR, RCTL, RDBAL, RDLEN, RDT = 0xC0, 0x100, 0x2800, 0x2808, 0x2818
TCTL, TDBAL, TDLEN, TDT = 0x400, 0x3800, 0x3808, 0x3818
EN, BAM, EOP, RS = 1 << 1, 1 << 15, 1 << 0, 1 << 3
RECEIVE_RING, TRANSMIT_RING, BUFFER, STATUS = 0x1000, 0x2000, 0x4000, 12
DESCRIPTOR = BUFFER.to_bytes(8, "little") + bytes([60, 0, 0, EOP | RS, 0, 0, 0, 0])
ACCESSES = {
    "read ICR": lambda nic: nic.read(ICR),
    "load status": lambda nic: nic.load(TRANSMIT_RING + STATUS, 1),
    "write RCTL": lambda nic: nic.write(RCTL, 0),
    "store in buffer": lambda nic: nic.store(BUFFER, b"\x55"),
}


def difference(nic, kind, access):
    """Tries both orders in copies of the adapter, and returns what differs."""
    with nic.copy() as first, nic.copy() as second:
        first.step(kind)
        if access(first) != access(second):
            return "value"
        second.step(kind)
        if first.state_digest() != second.state_digest():
            return "state"
        return "nothing" if first.digest() == second.digest() else "memory"


with Nic() as nic:
    nic.store(RECEIVE_RING, DESCRIPTOR)
    nic.store(TRANSMIT_RING, 2 * DESCRIPTOR)
    for register, value in ((RDBAL, RECEIVE_RING), (RDLEN, 128), (RCTL, EN | BAM), (RDT, 1), (TDBAL, TRANSMIT_RING),
                            (TDLEN, 128), (TCTL, EN), (TDT, 2)):
        nic.write(register, value)
    nic.arrive(b"\xff" * 60)
    nic.step("txtake")
    for name, access in ACCESSES.items():
        for kind in nic.possible():
            print(f"{name}, {kind}: {difference(nic, kind, access)} differs")
