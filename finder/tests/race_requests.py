"""Requests that reach all registers, all outcomes of steps, and all fates of frames."""

from race_finder import FRAME, LONG_FRAME

REGISTERS = {
    "CTRL": 0x0, "STATUS": 0x8, "EERD": 0x14, "MDIC": 0x20, "VET": 0x38, "ICR": 0xC0, "ICS": 0xC8, "IMS": 0xD0,
    "IMC": 0xD8, "RCTL": 0x100, "TCTL": 0x400, "PBA": 0x1000, "MPC": 0x4010, "GPRC": 0x4074, "GPTC": 0x4080,
    "RNBC": 0x40A0, "RDBAL": 0x2800, "RDBAH": 0x2804, "RDLEN": 0x2808, "RDH": 0x2810, "RDT": 0x2818, "TDBAL": 0x3800,
    "TDBAH": 0x3804, "TDLEN": 0x3808, "TDH": 0x3810, "TDT": 0x3818, "MTA": 0x5204, "VFTA": 0x57FC, "RAL": 0x5408,
    "RAH": 0x547C,
}
READ = [name for name in REGISTERS if name not in ("ICS", "IMC")]
WRITTEN = [name for name in REGISTERS if name not in ("STATUS", "MPC", "GPRC", "GPTC", "RNBC")]


def write(name, value):
    return f"writel {0xFEB00000 + REGISTERS[name]:#x} {value:#x}"


def read(name):
    return f"readl {0xFEB00000 + REGISTERS[name]:#x}"


def whole():
    """Yields the requests."""
    other = f"{FRAME[:10]}00{FRAME[12:]}".replace("ff", "02", 1)  # to another address
    yield f"arrive {FRAME}"  # off
    yield from (write(name, 0) for name in WRITTEN if name not in ("EERD", "MDIC"))
    # Reads the EEPROM. Restarts autonegotiation of the PHY, with an interrupt. Records causes of both rings. Receives a
    # piece and a whole frame, and then fills the packet buffer.
    yield from [write("CTRL", 0x40), write("EERD", 1), read("EERD"), write("MDIC", 0x24201200), read("MDIC"),
                read("MDIC")]
    yield from [write("RDLEN", 128), write("RDT", 7), "writeq 0 0x800", "writeq 16 0x800", "writeq 32 0x800",
                "writeq 48 0x800", write("RCTL", 0x38002)]
    yield from ["arrive 00", f"arrive {other}", f"arrive {FRAME.ljust(1200, '0')}", "settle", write("PBA", 2),
                *[f"arrive {LONG_FRAME}"] * 2]
    yield from [write("RCTL", 0x8002), write("RDT", 3), "settle"]
    yield from [write("TDBAL", 0x400), write("TDLEN", 128), "write 0x400 16 0x00100000000000004000000900000000",
                write("TDT", 1), write("TCTL", 0xA)]
    yield from ["wire full", "settle", "wire free", "settle"]
    yield from [write("RDH", 0), write("RDT", 1), f"arrive {FRAME}", "settle", write("TDT", 0), write("TDH", 8),
                "step txtake", "readb 0x400", write("RDH", 8), f"arrive {FRAME}", "step rxdata"]
    yield from map(read, READ)
