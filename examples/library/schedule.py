#!/usr/bin/env python3
"""Plays the same test without and with a schedule, as schedule.c does.

usage: PYTHONPATH=bindings/python NIC82540EM_LIB=FOLDER examples/library/schedule.py

FOLDER contains libnic82540em.so. If the package is installed by pip, neither variable is needed.
"""

from nic82540em import Nic, Refused

RCTL, RDBAL, RDLEN, RDH, RDT = 0x100, 0x2800, 0x2808, 0x2810, 0x2818
EN, BAM = 1 << 1, 1 << 15


def head_after_arrival(schedule=b""):
    """RDH after the arrival of a frame, as the test reads it."""
    with Nic() as nic:
        try:
            nic.play(schedule)
        except Refused as error:
            print(error, "is faulty")
        for register, value in (RDBAL, 0x1000), (RDLEN, 128), (RCTL, EN | BAM), (RDT, 7):
            nic.write(register, value)
        nic.begin_round("arrive")
        nic.arrive(b"\xff" * 60)
        return nic.read(RDH)


print("RDH", head_after_arrival())
print("RDH", head_after_arrival(b"1.1 rx before read RDH\n"))
print("RDH", head_after_arrival(b"# no action\n1.1 rxd before read RDH\n"))
