"""Known departures: how QEMU's e1000 differs from the model, which follows the part's manual or our choice.

docs/EMULATORS.md contains the same list, with the section of the manual for each.
"""

from registers import table_of
from session import DESCRIPTOR

# The bits of a register's value that aren't compared, and what they show
BITS = {
    "CTRL": [(0xFFFFFFFF & ~0x40000061, "CTRL: bits that the model doesn't keep")],
    "STATUS": [(0xFFFFFFFF & ~0x83, "STATUS: bits that the model doesn't have")],
    "VET": [(0xFFFF0000, "VET: reserved bits are kept")],
    "ICS": [(0xFFFFFFFF, "ICS: can be read")],
    "ICR": [(1 << 4, "ICR: RXDMT0 is recorded in other moments")],
    "PBA": [(0xFFFF0000, "PBA: TXA isn't derived from RXA")],
    "RAH": [(0x7FFF0000, "RAH: reserved bits are kept")],
}
# For registers of the PHY: what differs there, and the bits that are compared. All bits of registers 2 and 3 are
# compared.
PHY = {
    0: ("PHY register 0: bits that the model doesn't have", 0x1000),
    1: ("PHY register 1: abilities, and the latch of the link", 0x20),
    2: ("", 0xFFFF), 3: ("", 0xFFFF)}
OTHER_PHY = ("PHY registers after register 3", 0)
# The byte of a receive descriptor that has the status, and the status bit IXSM
STATUS_BYTE, IXSM = 12, 1 << 2


def without_bits(name, ours, theirs):
    """The departures in two values of a register, and both values without the bits that show them."""
    found = []
    for mask, departure in BITS.get(table_of(name), []):
        if (ours ^ theirs) & mask:
            found.append(departure)
            ours, theirs = ours & ~mask, theirs & ~mask
    return found, ours, theirs


def without_checksum_bit(ring):
    """A receive ring without the bit IXSM of each descriptor."""
    return bytes(byte & ~IXSM if at % DESCRIPTOR == STATUS_BYTE else byte for at, byte in enumerate(ring))


def without_phy(ours, theirs):
    """The departures in two values of MDIC after a read of a register of the PHY, and both values without these
    departures.
    """
    number = ours >> 16 & 0x1F
    found, mask = PHY.get(number, OTHER_PHY)
    if (ours ^ theirs) & 0xFFFF & ~mask:
        return [found], ours & (mask | ~0xFFFF), theirs & (mask | ~0xFFFF)
    return [], ours, theirs


def departures_of(request, what, ours, theirs):
    """Returns the names of the departures that a difference shows, and both sides without them. Sides that are answers
    are numbers, if both have numbers.
    """
    word, *rest = request.split()
    if what == "answer" and word == "readl":
        if not isinstance(ours, int):
            return [], ours, theirs
        if table_of(rest[0]) == "MDIC":
            return without_phy(ours, theirs)
        return without_bits(rest[0], ours, theirs)
    if what == "receive ring" and isinstance(theirs, bytes):
        one, other = without_checksum_bit(ours), without_checksum_bit(theirs)
        if (one, other) != (ours, theirs):
            return ["receive descriptor: IXSM is set"], one, other
    return [], ours, theirs
