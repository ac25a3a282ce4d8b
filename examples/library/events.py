#!/usr/bin/env python3
"""Prints what happened to an adapter in process: a frame that was offered, and a descriptor without EOP.

usage: PYTHONPATH=bindings/python NIC82540EM_LIB=FOLDER examples/library/events.py

FOLDER contains libnic82540em.so. If the package is installed by pip, neither variable is needed.
"""

from nic82540em import Nic

IMS, TCTL, TDLEN, TDT = 0xD0, 0x400, 0x3808, 0x3818
TXDW, EN, EOP, RS = 1, 2, 1, 8
BUFFER, SIZE, SLOT = 0x800, 60, 16


def descriptor(command):
    """A transmit descriptor of the buffer."""
    return BUFFER.to_bytes(8, "little") + SIZE.to_bytes(3, "little") + bytes([command, 0, 0, 0, 0])


with Nic() as nic:
    nic.events(True)
    nic.store(BUFFER, bytes(SIZE))
    nic.store(0, descriptor(EOP | RS))
    nic.store(SLOT, descriptor(RS))  # EOP is missing
    for register, value in (IMS, TXDW), (TDLEN, 128), (TCTL, EN), (TDT, 2):
        nic.write(register, value)
    nic.offer(b"\xff" * SIZE)
    nic.settle()
    for event in nic.take_events():
        print(" ".join(map(str, event)).lower())
