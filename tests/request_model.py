"""A model of `nicbench serve` whose adapter is idle, written from docs/REQUESTS.md and docs/ADAPTER.md.

The model has no answer to the few requests that start something in the adapter.
"""

import copy

from adapter_sessions import (
    BASE, CTRL, EERD, EN, GPRC, GPTC, ICR, ICS, IMC, IMS, MDIC, MPC, MTA, PBA, PLAIN, RAH, RAL, RCTL, RDBAH, RDBAL, RDH,
    RDLEN, RDT, RESET, RNBC, STATUS, TCTL, TDBAH, TDBAL, TDH, TDLEN, TDT, VET, VFTA)
from configuration_model import Configuration
from request_forms import KINDS, PORT_WIDTHS, Refused, access_in, answer_of, request_in
from server import ZERO, number

# The last offset of a register, and the size of the area of all registers in bytes
LAST, AREA = 131_068, 131_072
CAUSES = 0x2D7
# The names of registers (13.4 "Main Register Descriptions")
NAMES = {
    CTRL: "CTRL", STATUS: "STATUS", EERD: "EERD", MDIC: "MDIC", VET: "VET", ICR: "ICR", ICS: "ICS", IMS: "IMS",
    IMC: "IMC", RCTL: "RCTL", TCTL: "TCTL", PBA: "PBA", RDBAL: "RDBAL", RDBAH: "RDBAH", RDLEN: "RDLEN", RDH: "RDH",
    RDT: "RDT", TDBAL: "TDBAL", TDBAH: "TDBAH", TDLEN: "TDLEN", TDH: "TDH", TDT: "TDT", MPC: "MPC", GPRC: "GPRC",
    GPTC: "GPTC", RNBC: "RNBC",
    **{MTA + 4 * number: f"MTA[{number}]" for number in range(128)},
    **{VFTA + 4 * number: f"VFTA[{number}]" for number in range(128)},
    **{RAL + 8 * number: f"RAL[{number}]" for number in range(16)},
    **{RAH + 8 * number: f"RAH[{number}]" for number in range(16)},
}
PBA_RESET = 0x00100030
MOST_RXA = 48
# The sum of the two halves of PBA, in kilobytes.
ALL_KILOBYTES = 64
# The lines of a cycle of an idle adapter
ROUND = [f"# step {kind} -> nothing" for kind in KINDS]


class Unknown(Exception):
    """The model doesn't know what a request does."""


class Model:
    """A server with this number of bytes of memory, and the registers at their default address."""

    def __init__(self, size):
        self.memory = bytearray(size)
        self.is_logged = self.has_targets = self.has_events = False
        self.rounds = self.clock = 0
        self.offered = []
        self.saved = None
        self.configuration = Configuration(BASE)
        self.power_on()
        self.packet_buffer = PBA_RESET

    def power_on(self):
        """Sets all registers except PBA to their values after a reset."""
        self.plain = {offset: reset for offset, (_, reset) in PLAIN.items()}
        self.causes = self.mask = 0

    def copy(self):
        return copy.deepcopy(self)

    def state(self):
        """A copy of all that `save` keeps."""
        return copy.deepcopy({name: value for name, value in vars(self).items() if name != "saved"})

    def is_asserted(self):
        """Whether the interrupt line is asserted."""
        return bool(self.causes & self.mask)

    def read(self, offset):
        """Reads a register, and returns its value. A read of ICR clears the causes."""
        value = {ICR: self.causes, IMS: self.mask, PBA: self.packet_buffer}.get(offset, self.plain.get(offset, 0))
        if offset == ICR:
            self.causes = 0
        return value

    def write(self, offset, value):
        """Writes a register. Raises Unknown if the write starts something in the adapter."""
        if offset in (EERD, MDIC) or offset in (RCTL, TCTL) and value & EN:
            raise Unknown
        if offset == CTRL and value & RESET:
            self.power_on()
        elif offset in PLAIN:
            self.plain[offset] = value & PLAIN[offset][0]
        elif offset == PBA:
            kilobytes = value & 0xFFFF
            if kilobytes % 2 == 0 and 2 <= kilobytes <= MOST_RXA:
                self.packet_buffer = ALL_KILOBYTES - kilobytes << 16 | kilobytes
        self.causes = {ICR: self.causes & ~value, ICS: self.causes | value & CAUSES}.get(offset, self.causes)
        self.mask = {IMS: self.mask | value & CAUSES, IMC: self.mask & ~value}.get(offset, self.mask)

    def register_at(self, address, size):
        """The offset of the register that an access goes to, or None if the access goes to memory. Raises Refused if it
        goes to neither.
        """
        first = self.configuration.registers()
        offset = AREA if first is None else address - first
        if size == 4 and 0 <= offset <= LAST and offset % 4 == 0:
            return offset
        if address + size > len(self.memory):
            raise Refused("ERR register" if size and -size < offset < AREA else "ERR address")
        return None

    def target(self, address, size):
        """The name of what an access reads or writes."""
        offset = self.register_at(address, size)
        if offset is not None:
            return NAMES.get(offset, f"register[{offset:#x}]")
        for name, low, high, length in (("rx", RDBAL, RDBAH, RDLEN), ("tx", TDBAL, TDBAH, TDLEN)):
            at = address - (self.plain[low] | self.plain[high] << 32)
            if 0 <= at < self.plain[length]:
                return f"{name}[{at // 16}]" + (f"+{at % 16}" if at % 16 else "")
        return f"{address:#x}"

    def access(self, address, size, data):
        """Makes an access. Returns the bytes that it reads, or no bytes if it writes."""
        offset = self.register_at(address, size)
        if offset is not None:
            if data is None:
                return self.read(offset).to_bytes(4, "little")
            self.write(offset, int.from_bytes(data, "little"))
            return b""
        if data is None:
            return bytes(self.memory[address:address + size])
        self.memory[address:address + size] = data
        return b""

    # The lines before an answer. Those that begin with # are printed only if the log is on.

    def line_changes(self, before):
        """The line that reports the change of the interrupt line, or no line if it hasn't changed."""
        after = self.is_asserted()
        return [] if before == after else ["IRQ raise 0" if after else "IRQ lower 0"]

    def arrivals(self):
        """The lines of the arrivals of all offered frames, at an adapter that is off."""
        told = []
        for frame in self.offered:
            told += [f"# arrive {frame.hex()}", *([f"arrived off {frame.hex()}"] if self.has_events else [])]
        self.offered = []
        return told

    def paced(self):
        """The lines of the cycles after an access or an arrival: with `pace`, an idle adapter has one, which does
        nothing.
        """
        return ROUND if self.rounds else []

    # Requests: each returns the lines before the answer, and the answer.

    def does_access(self, name, values):
        before, (address, size, data) = self.is_asserted(), access_in(name, values)
        target = f" -> {self.target(address, size)}" if self.has_targets else ""
        got = self.access(address, size, data)
        return ["# {}" + target, *self.line_changes(before), *self.paced()], answer_of(name, got)

    def does_port(self, name, values):
        width = PORT_WIDTHS[name[-1]]
        if name.startswith("in"):
            return [], number(self.configuration.read(values[0], width, self.is_asserted()))
        self.configuration.write(values[0], width, values[1])
        return [], "OK"

    def does_clock(self, name, values):
        """Offered frames arrive, and a cycle does nothing; then the clock moves."""
        clock = self.clock + values[0] if name == "clock_step" else max(self.clock, values[0])
        if clock >= 1 << 64:
            raise Refused("ERR value")
        self.clock = clock
        return [*self.arrivals(), *ROUND], f"OK {clock}"

    def does_setting(self, name, values):
        if name == "log":
            self.is_logged, self.has_targets = values[0] != "off", values[0] == "targets"
        elif name == "events":
            self.has_events = values[0] == "on"
        elif name == "pace":
            self.rounds = values[0]
        elif name == "interleave" and values[0]:
            raise Unknown
        return [], "OK"  # `wire`: no frame waits for it; `irq_intercept_in`: `IRQ` lines always come

    def does_state(self, name, _):
        before = self.is_asserted()
        if name == "save":
            self.saved = self.state()
        elif self.saved is None:
            raise Refused("ERR saved")
        else:
            vars(self).update(copy.deepcopy(self.saved))
        return self.line_changes(before), "OK"

    def does_adapter(self, name, values):
        """A step, an arrival, an offered frame, or `settle`, at an adapter that is off."""
        if name == "offer":
            self.offered.append(values[0])
            return [], "OK"
        if name == "step":
            return [f"# step {values[0]} -> nothing"], "OK nothing"
        return ([*self.arrivals(), *ROUND], ZERO) if name == "settle" else (["# {}", *self.paced()], "OK off")

    def does_look(self, name, values):
        """Answers `target` by the name of what the access goes to, and `rings` by the registers of both rings. Nothing
        changes.
        """
        if name == "target":
            return [], f"OK {self.target(*values)}"
        words = [(RDBAL, RDBAH), (RDLEN,), (RDH,), (RDT,), (TDBAL, TDBAH), (TDLEN,), (TDH,), (TDT,)]
        values = [sum(self.plain[offset] << 32 * at for at, offset in enumerate(word)) for word in words]
        return [], " ".join(["OK", *(f"0x{value:016x}" for value in values)])

    def does_question(self, name, _):
        """A request that changes nothing. No frame was put on the wire, no engine had a fault, and no step would do
        something.
        """
        return [], {"endianness": "OK little", "line": number(int(self.is_asserted())), "frames": "OK",
            "faults": "OK", "enabled": "OK", "choose": ZERO}[name]

    def does(self, name, values):
        """The lines before the answer of a request, and the answer."""
        for names, does in [
            (("endianness", "line", "frames", "faults", "enabled", "choose"), self.does_question),
            (("target", "rings"), self.does_look),
            (("clock_step", "clock_set"), self.does_clock),
            (("step", "settle", "arrive", "offer"), self.does_adapter), (("save", "restore"), self.does_state),
            (("log", "events", "pace", "interleave", "wire", "irq_intercept_in", "irq_intercept_out"),
            self.does_setting),
        ]:
            if name in names:
                return does(name, values)
        return self.does_port(name, values) if name.startswith(("in", "out")) else self.does_access(name, values)

    def answer(self, line):
        """The bytes of the lines up to the answer, and whether the line is refused. A refused line doesn't change the
        model. Raises Unknown if the model has no answer.
        """
        try:
            told, answer = self.does(*request_in(line))
        except Refused as refused:
            return f"{refused}\n".encode(), True
        texts = [text.encode().replace(b"{}", line) for text in told if self.is_logged or not text.startswith("#")]
        return b"".join(text + b"\n" for text in [*texts, answer.encode()]), False
