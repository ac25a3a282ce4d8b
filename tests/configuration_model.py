"""A model of the adapter's I/O ports (PCI 2.2, 3.2.2.3.2) and configuration space, written from docs/REQUESTS.md."""

ADDRESS_PORT, DATA_PORT, ENABLE = 0xCF8, 0xCFC, 1 << 31
# The bits of the address that are stored
ADDRESS_BITS = 0x80FFFFFC
DEVICE = 4
# Offsets in configuration space (PCI 2.2, 6.1), and bits of the command and the status in the double word at COMMAND
COMMAND, BAR0 = 0x04, 0x10
MEMORY_SPACE, INTERRUPT_STATUS = 1 << 1, 1 << 19
# The double words of a new adapter that aren't 0, except BAR0; and the bits of each double word that can be written
FIRST = {0x00: 0x100E8086, COMMAND: 0x02200006, 0x08: 0x02000002, 0x2C: 0x001E8086, 0x3C: 0x00FF0100}
WRITABLE = {COMMAND: 0x0157, BAR0: 0xFFFE0000, 0x3C: 0xFF}


class Configuration:
    """The two ports, and configuration space."""

    def __init__(self, registers):
        self.address = 0
        self.words = {**FIRST, BAR0: registers & WRITABLE[BAR0]}
        self.base = registers

    def registers(self):
        """The address of the first register, or None if the command word disables memory space."""
        return self.base if self.words[COMMAND] & MEMORY_SPACE else None

    def place(self, port, width):
        """The offset in configuration space that an access of the data port goes to, or None if it goes to no byte of
        this device.
        """
        lane, address = port - DATA_PORT, self.address
        is_ours = address & ENABLE and address >> 8 & 0xFFFF == DEVICE << 3  # bus 0, this device, function 0
        return (address & 0xFC) + lane if is_ours and 0 <= lane <= 4 - width else None

    def read(self, port, width, is_asserted):
        if port == ADDRESS_PORT and width == 4:
            return self.address
        place = self.place(port, width)
        if place is None:
            return (1 << 8 * width) - 1
        word = self.words.get(place & ~3, 0)
        if place & ~3 == COMMAND and is_asserted:
            word |= INTERRUPT_STATUS
        return word >> 8 * (place & 3) & (1 << 8 * width) - 1

    def write(self, port, width, value):
        if port == ADDRESS_PORT and width == 4:
            self.address = value & ADDRESS_BITS
        place = self.place(port, width)
        if place is None:
            return
        word, shift = place & ~3, 8 * (place & 3)
        mask = ((1 << 8 * width) - 1 << shift) & WRITABLE.get(word, 0)
        self.words[word] = self.words.get(word, 0) & ~mask | value << shift & mask
        if word == BAR0:
            self.base = self.words[BAR0]
