"""Requests that are drawn by a seed.

A request is a line. In `readl` and `writel` it names a register, as in `readl ICR`. Four requests stand for several:
`offer N` offers up to N free receive slots. `arrive HEX` is the arrival of a frame, or no request: see
`Session.arrives`. `send COMMAND HEX` sends a frame by a descriptor with this command byte. `transmitter VALUE` writes
TCTL and records TXQE. A seed doesn't draw `deliver HEX`, which always is the arrival of a frame.
"""

import random

from registers import TABLES

EN, UPE, MPE, BAM, VFE, SECRC = 1 << 1, 1 << 3, 1 << 4, 1 << 15, 1 << 18, 1 << 26
EOP, IFCS, RS = 1, 2, 8
# The causes of ICR without RXDMT0, which the two adapters record at different moments: their interrupt lines would
# differ.
CAUSES = 0x2C7
MAC, ALL, GROUP, OTHER = "020000000001", "ffffffffffff", "01005e000001", "020000000009"
READ = ["CTRL", "STATUS", "EERD", "MDIC", "VET", "ICR", "ICS", "IMS", "IMC", "RCTL", "TCTL", "PBA", "RDBAL", "RDBAH",
        "RDLEN", "RDH", "RDT",
        "TDBAL", "TDBAH", "TDLEN", "TDH", "TDT", "MPC", "GPRC", "GPTC", "RNBC"]


class Drawing:
    """Draws requests."""

    def __init__(self, seed):
        self.draw = random.Random(seed)

    def word(self):
        return self.draw.choice([0, 0xFFFFFFFF, self.draw.getrandbits(32), 1 << self.draw.randrange(32)])

    def entry(self, name, first=0):
        """A register of a table."""
        return f"{name}({self.draw.randrange(first, TABLES[name][2])})"

    def read(self):
        return [f"readl {self.draw.choice(READ + [self.entry(name) for name in TABLES])}"]

    def interrupts(self):
        name = self.draw.choice(["IMS", "IMS", "IMC", "ICS", "ICR"])
        mask = self.draw.choice([CAUSES, CAUSES & 1 << self.draw.randrange(10), CAUSES & self.draw.getrandbits(10)])
        return [f"writel {name} {mask:#x}", f"readl {self.draw.choice(['IMS', 'ICR'])}"]

    def setting(self):
        values = {"CTRL": [0x40, 0x41, 0x60, 0x61], "PBA": [0x30, 0x20, 2, 0x10], "VET": [0x8100, 0x88A8, self.word()]}
        name = self.draw.choice([*values, *TABLES])
        if name in values:
            return [f"writel {name} {self.draw.choice(values[name]):#x}", f"readl {name}"]
        # RAL(0) and RAH(0) keep the address that frames are sent to.
        entry = self.entry(name, 1 if name in ("RAL", "RAH") else 0)
        return [f"writel {entry} {self.word():#x}", f"readl {entry}"]

    def receiver(self):
        """The filter, and the size of receive buffers."""
        bits = sum(bit for bit in (UPE, MPE, BAM, VFE) if self.draw.random() < 0.4)
        return [f"writel RCTL {EN | SECRC | bits | self.draw.randrange(4) << 12 | self.draw.randrange(4) << 16:#x}",
                "readl RCTL"]

    def transmitter(self):
        return [f"transmitter {self.draw.choice([0x400FA, 0xFA, 0x400F2, 0x3FFFFA]):#x}", "readl TCTL"]

    def eeprom(self):
        return [f"writel EERD {self.draw.randrange(64) << 8 | 1:#x}", "readl EERD"]

    def phy(self):
        return [f"writel MDIC {2 << 26 | 1 << 21 | self.draw.randrange(6) << 16:#x}", "readl MDIC"]

    def offer(self):
        return [f"offer {self.draw.randint(1, 7)}"]

    def frame(self):
        size = self.draw.choice([60, 61, 64, 255, 256, 257, 1514, 1517, 1518, self.draw.randint(60, 1518)])
        to = self.draw.choice([MAC, MAC, ALL, GROUP, OTHER, f"01{self.draw.getrandbits(40):010x}"])
        kind = self.draw.choice(["0800", "0806", f"8100{self.draw.getrandbits(16):04x}",
                                 f"{self.draw.getrandbits(16):04x}"])
        return ((bytes.fromhex(to + OTHER + kind) + self.draw.randbytes(size))[:size]).hex()

    def arrive(self):
        return [f"arrive {self.frame()}", f"readl {self.draw.choice(['RDH', 'ICR', 'GPRC'])}"]

    def send(self):
        command = EOP | self.draw.choice([0, IFCS]) | self.draw.choice([0, RS, RS])
        return [f"send {command:#x} {self.frame()}", f"readl {self.draw.choice(['TDH', 'ICR', 'GPTC'])}"]

    def requests(self, count):
        kinds = [self.read] * 6 + [self.interrupts] * 3 + [self.setting] * 3 + [self.receiver, self.transmitter,
                                                                                self.eeprom, self.phy] \
            + [self.offer] * 3 + [self.arrive] * 8 + [self.send] * 6
        found = []
        while len(found) < count:
            found += self.draw.choice(kinds)()
        return found[:count]


def drawn(seed, count):
    """The first requests of a seed."""
    return Drawing(seed).requests(count)
