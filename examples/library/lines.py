#!/usr/bin/env python3
"""Lines of a test for `nicbench serve`, answered in process, as in lines.c.

usage: PYTHONPATH=bindings/python NIC82540EM_LIB=FOLDER examples/library/lines.py

FOLDER contains libnic82540em.so. If the package is installed by pip, neither variable is needed.
"""

from nic82540em import Nic
from nic82540em.server import Server

ICR = b"readl 0xFEB000C0"
LINES = [b"writel 0xFEB02800 0x1000", b"writel 0xFEB02808 128", b"writel 0xFEB02818 7", b"writel 0xFEB00100 0x8002",
         b"writel 0xFEB000D0 0x80", b"choose 5", b"offer ffffffffffff0200000000010800" + b"00" * 46, ICR, ICR,
         b"read 0x1008 5", b"bogus"]


def deviate(server):
    """Lets offered frames arrive, and the adapter take steps, until there is nothing to do. Returns their number."""
    done = 0
    while can := server.can():
        done += server.deviate(can[0])
    return done


with Server() as server:
    for number, line in enumerate(LINES):
        before, place = server.state_digest(1), server.comes(line)
        words = [f"{place.round}.{place.access} {place.name}:" if place else "no place:"]
        if place and place.kind == "choose":
            server.answers(3)
        if server.state_digest(1) != before:
            words.append("the adapter changed")
        if line == ICR and ICR in LINES[:number]:
            words.append(f"{deviate(server)} steps and arrivals,")
        text = server.answer(line)
        assert server.told(len(text)) == text
        print(*words, *(f"{told};" for told in text.decode().splitlines()))
with Nic() as nic:
    # In process, the calls have no lines, but the same names.
    print(nic.name("register", 0xC0))
