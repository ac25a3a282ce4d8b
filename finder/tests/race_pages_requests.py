"""Sends random requests, as a command of `tools/races`: accesses of both rings, resets, steps, and frames.

usage: race_pages_requests.py SEED COUNT
"""

import sys
from random import Random

REGISTERS = 0xFEB00000
OFFSETS = {"CTRL": 0, "STATUS": 8, "ICR": 0xC0, "ICS": 0xC8, "IMS": 0xD0, "IMC": 0xD8, "RCTL": 0x100, "TCTL": 0x400,
           "RDBAL": 0x2800, "RDBAH": 0x2804, "RDLEN": 0x2808, "RDH": 0x2810, "RDT": 0x2818, "TDBAL": 0x3800,
           "TDBAH": 0x3804, "TDLEN": 0x3808, "TDH": 0x3810, "TDT": 0x3818, "MPC": 0x4010, "GPRC": 0x4074,
           "GPTC": 0x4080, "RNBC": 0x40A0, "PBA": 0x1000, "VET": 0x38,
           "EERD": 0x14, "MDIC": 0x20}
RX, TX = 0x1000, 0x2000
HEAD = "ffffffffffff0200000000090800"
STEPS = "txtake", "txput", "rxdata", "rxdone", "phy", "eeprom"


def ask(request):
    """Sends a request, and reads the lines up to its answer."""
    print(request, flush=True)
    for line in sys.stdin:
        if line.startswith(("OK", "ERR", "FAIL")):
            return
    sys.exit(1)


def write(register, value):
    ask(f"writel {REGISTERS + OFFSETS[register]:#x} {value:#x}")


def begin(random):
    """Initializes both rings, with one of several sizes of buffers; BSEX makes the receive engine stop."""
    for register, values in [("RDBAL", (RX,)), ("RDLEN", (128, 256)), ("TDBAL", (TX,)), ("TDLEN", (128,)),
                             ("RCTL", (0x8002, 0x38002, 0x8012, 0x2008002)), ("TCTL", (0xA, 2)),
                             ("IMS", (0xFFFF, 0x80, 0xD1))]:
        write(register, random.choice(values))


def descriptor(random, base):
    slot = random.randrange(16 if base == RX else 8)
    buffer = (0x10000 * (1 if base == RX else 2) + 0x800 * slot).to_bytes(8, "little").hex()
    length, command = random.choice((60, 14, 100, 1518)), random.choice(("09", "01", "0b"))
    rest = "00" * 8 if base == RX else f"{length.to_bytes(2, 'little').hex()}00{command}00000000"
    ask(f"write {base + 16 * slot:#x} 16 0x{buffer}{rest}")


def frame(random):
    return HEAD + f"{random.randrange(256):02x}" * random.choice((46, 46, 46, 240, 242, 500, 1500))


def reset(random):
    write("CTRL", random.choice((1 << 26, 0x40)))
    if random.random() < 0.8:
        begin(random)


# What is done, each with its weight
CHOICES = {
    lambda random: ask(f"readl {REGISTERS + random.choice([*OFFSETS.values()]):#x}"): 15,
    lambda random: ask(f"readl {REGISTERS + OFFSETS['ICR']:#x}"): 3,
    lambda random: descriptor(random, RX): 10, lambda random: descriptor(random, TX): 8,
    lambda random: write("RDT", random.randrange(9)): 7, lambda random: write("TDT", random.randrange(9)): 7,
    lambda random: ask(f"arrive {frame(random)}"): 8, lambda random: ask(f"offer {frame(random)}"): 1,
    lambda random: ask(f"step {random.choice(STEPS)}"): 25, lambda random: ask("settle"): 1,
    lambda random: ask(f"read {RX + 16 * random.randrange(16):#x} 16"): 4,
    lambda random: ask(f"readb {random.choice((RX, TX)) + 16 * random.randrange(8) + 12:#x}"): 4,
    lambda random: ask(f"writeb {RX + 16 * random.randrange(8) + 12:#x} 0"): 1,
    lambda random: write(random.choice(("ICS", "IMS", "IMC", "ICR")), random.randrange(1024)): 2,
    reset: 1, lambda random: write("RCTL", random.choice((0, 0x8002, 0x38002, 0x28002))): 1,
    lambda random: write("PBA", random.choice((2, 4, 48, 3))): 1,
    lambda random: write(random.choice(("RDH", "TDH")), random.randrange(8)): 1,
    lambda random: write("EERD", random.randrange(64) << 8 | 1): 1,
    lambda random: write("MDIC", random.choice((0x08210000, 0x28210000, 0x24201200))): 1,
    lambda random: write("RDBAL", RX + random.choice((0, 0x100))): 1,
}


def main(seed, count):
    random = Random(seed)
    begin(random)
    for act in random.choices([*CHOICES], [*CHOICES.values()], k=count):
        act(random)
        for name in ("RDH", "RDT", "TDH", "TDT"):
            ask(f"readl {REGISTERS + OFFSETS[name]:#x}")


main(*map(int, sys.argv[1:]))
