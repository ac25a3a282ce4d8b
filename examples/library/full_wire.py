#!/usr/bin/env python3
"""Back-pressure of a full wire, and of a receive ring without offered descriptors, as in full_wire.c.

usage: PYTHONPATH=bindings/python NIC82540EM_LIB=FOLDER examples/library/full_wire.py

FOLDER contains libnic82540em.so. If the package is installed by pip, neither variable is needed.
"""

from nic82540em import Nic

ICR, IMS, RCTL, RDBAL, RDLEN, RDT = 0xC0, 0xD0, 0x100, 0x2800, 0x2808, 0x2818
TCTL, TDBAL, TDLEN, TDH, TDT, MPC = 0x400, 0x3800, 0x3808, 0x3810, 0x3818, 0x4010
TXDW, RXO, EN, BAM, EOP, RS = 1 << 0, 1 << 6, 1 << 1, 1 << 15, 1 << 0, 1 << 3
RECEIVE_RING, TRANSMIT_RING, BUFFER, FRAME_BYTES, FRAMES, OFFERED = 0x1000, 0x2000, 0x4000, 60, 7, 27
DESCRIPTOR = BUFFER.to_bytes(8, "little") + bytes([FRAME_BYTES, 0, 0, EOP | RS, 0, 0, 0, 0])


def settle(nic, name):
    """Lets the adapter do its work, and prints where the frames are."""
    nic.settle()
    received, transmit = nic.waiting()
    print(f"{name}: TDH {nic.peek(TDH)}, waiting {transmit} to be sent and {received} received, "
          f"MPC {nic.peek(MPC):08x}, line {nic.line():d}")


with Nic(rxa=2, missed=0xFFFFFFFE) as nic:  # the receive packet buffer has 2 KB, and MPC doesn't wrap
    memory = nic.memory()
    for ring in RECEIVE_RING, TRANSMIT_RING:
        memory[ring:ring + 16 * FRAMES] = DESCRIPTOR * FRAMES
    nic.fill_wire(True)
    for register, value in ((IMS, TXDW | RXO), (RDBAL, RECEIVE_RING), (RDLEN, 128), (TDBAL, TRANSMIT_RING),
                            (TDLEN, 128), (RCTL, EN | BAM), (TCTL, EN), (TDT, FRAMES)):
        nic.write(register, value)
    settle(nic, "full wire")
    nic.fill_wire(False)
    settle(nic, "free wire")
    count = 0
    while nic.take_put():
        count += 1
    print(f"taken off the wire: {count}, ICR {nic.read(ICR):08x}")
    for _ in range(OFFERED):
        nic.offer(b"\xff" * FRAME_BYTES)
    settle(nic, "no descriptors")
    nic.write(RDT, FRAMES)
    settle(nic, "descriptors")
