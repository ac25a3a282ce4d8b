#!/usr/bin/env python3
"""A driver reads a word of the EEPROM, which answers at a moment that the test chooses, as in moments.c.

usage: PYTHONPATH=bindings/python NIC82540EM_LIB=FOLDER examples/library/moments.py

FOLDER contains libnic82540em.so. If the package is installed by pip, neither variable is needed.
"""

from nic82540em import IMAGE_WORDS, Nic

EERD, START, DONE = 0x14, 1 << 0, 1 << 4
MOST_READS = 4
SCHEDULE = b"""1.1 choose 2 before choose
1.3 hold eeprom before read EERD
1.4 hold eeprom before read EERD
"""


def play(nic):
    nic.play(SCHEDULE)
    nic.begin_round("settle")
    nic.settle()


WAYS = {
    "no steps": lambda nic: None,
    "ticks": lambda nic: nic.ticks(True),
    "pace": lambda nic: nic.pace(10),
    "schedule": lambda nic: nic.schedule(3, "eeprom"),
    "interleave": lambda nic: nic.interleave(2, 7),
    "play": play,
}


def read_word(nic):
    """The driver. Returns a text with the word, and with the number of the read that returned it."""
    word, value = nic.choose(3), 0
    nic.recount(0)  # the write is access 0, and the reads are accesses 1 to 4
    nic.write(EERD, word << 8 | START)
    while not value & DONE and nic.accesses() <= MOST_READS:
        value = nic.read(EERD)
    if not value & DONE:
        return f"word {word} isn't returned"
    return f"read {nic.accesses() - 1} returns word {word}, {value >> 16:04x}"


for name, choose_moments in WAYS.items():
    with Nic(image=range(0xE000, 0xE000 + IMAGE_WORDS)) as nic:
        choose_moments(nic)
        print(f"{name}: {read_word(nic)}")
