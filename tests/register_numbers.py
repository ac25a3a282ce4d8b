"""Compares the numbers of registers in texts and in code with the table of the proofs.

`row_of` and `IsInTable` in crates/adapter_model/specs/Table.antt are the definitions that the contracts of
`Adapter::read` and `Adapter::write` use. This module reads them by itself, and compares them with

- the tables of docs/ADAPTER.md and above the offsets in crates/adapter_model/src/offsets.rt, with the sizes of arrays
  and the numbers in the rules of registers;
- the constants of the code;
- the offsets that clients and tests in other languages type by hand.

It also compares the places of bits in contracts, and the bits of MDIC that a write keeps, with the code's constants.
Places of bits that the C header and the finder type by hand are compared with those in contracts.
"""

import glob
import os
import re
import sys

ADAPTER = os.path.join(os.path.dirname(os.path.dirname(os.path.abspath(__file__))), "crates", "adapter_model")
RING = {"BAL": "BaseLow", "BAH": "BaseHigh", "LEN": "Length", "H": "Head", "T": "Tail"}
HEX = r"0x[0-9A-F]+"
# The files in which offsets are typed: clients don't use the crates, and tests must not take offsets from the tables.
CLIENTS = ("examples/drivers/*", "examples/emulators/*", "machines/board/*", "tests/*.py", "tests/*/*.py",
           "bindings/*/*", "bindings/rust/src/*")
# NAME = 0x1234, NIC_NAME = .., "NAME": 0x1234, const NAME: u32 = ..; or names and as many numbers, in a line of Python.
ONE = re.compile(r"""(?<![A-Z], )\b(?:NIC_)?([A-Z]+)(?:(?:: u32)? = |": \(?)(0x[0-9A-Fa-f]{1,5})\b(?!, 0x)""")
MANY = re.compile(r"^((?:[A-Z]+, )+[A-Z]+) = ((?:0x[0-9A-Fa-f]+, )+0x[0-9A-Fa-f]+)$", re.M)


def text_of(*names):
    with open(os.path.join(ADAPTER, *names)) as file:
        return file.read()


def number(text):
    return int(text, 0)


def offsets():
    """The constants of the code: the offset of each register by its name."""
    constants = re.findall(rf"^pub const ([A-Z]+): u32 = ({HEX});", text_of("src", "offsets.rt"), re.M)
    found = {name: number(value) for name, value in constants}
    found["RAH"] = found["RAL"] + 4
    return found


def with_numbers(text):
    """A text in which the names of masks and of bits' places are numbers."""
    words = {}
    for crate, name in [("registers", "Kept"), ("registers", "Places"), ("rx_filter", "Registers")]:
        words.update(re.findall(rf"^(\w+) = ({HEX}|\d+)$", text_of(os.pardir, crate, "specs", name + ".antt"), re.M))
    text = re.sub(rf"alone ({'|'.join(words)})\b", lambda found: f"0x{1 << number(words[found.group(1)]):08X}", text)
    return re.sub(r"(?<![\w.])[a-z]\w*(?![\w.])", lambda found: words.get(found.group(), found.group()), text)


def proved():
    """The proved table. For each register's name, it has the offset, the kept bits or None, and the reset value, or
    None if the EEPROM determines it. The last item is the number of bytes from one register of an array to the next, or
    None."""
    table, rings = with_numbers(text_of("specs", "Table.antt")), text_of("specs", "Rings.antt")
    rows = {}
    for name, rule, offset, rest in re.findall(rf"^row_of (\w+) = (plain|ruled) ({HEX}) (.*)$", table, re.M):
        words = [number(word) for word in rest.split()]
        rows[name.upper()] = (number(offset), words[0] if rule == "plain" else None, words[-1], None)
    arrays = rf"^row_of \((Mta|Vfta) word\) = plain \(({HEX}) \+ (\d+) \* word\) ({HEX}) 0$"
    for name, offset, step, kept in re.findall(arrays, table, re.M):
        rows[name.upper()] = (number(offset), number(kept), 0, int(step))
    pairs = rf"^row_of \((Ral|Rah) entry\) = record {{ offset = ({HEX}) \+ (\d+) \* entry; kept = Some ({HEX});"
    for name, offset, step, kept in re.findall(pairs, table, re.M):
        rows[name.upper()] = (number(offset), number(kept), None, int(step))
    for way, letter in [("Receive", "R"), ("Transmit", "T")]:
        ring = rf"^row_of \({way} part\) = plain \(({HEX}) \+ ring_distance part\) \(ring_kept part\) 0$"
        base = number(re.search(ring, table, re.M).group(1))
        for end, part in RING.items():
            distance = number(re.search(rf"^ring_distance {part} = ({HEX})$", rings, re.M).group(1))
            kept = number(re.search(rf"^ring_kept {part} = ({HEX})$", rings, re.M).group(1))
            rows[f"{letter}D{end}"] = (base + distance, kept, 0, None)
    return rows


def counts():
    """The number of registers of each array."""
    found = re.findall(r"^IsInTable \((\w+) \w+\) = \w+ < (\d+)$", text_of("specs", "Table.antt"), re.M)
    return {name.upper(): int(count) for name, count in found}


def eeprom_words():
    """For RAL and RAH: the numbers of the EEPROM's words that entry 0 has after a reset. Also the place of the bit that
    is set then, or None.
    """
    table = with_numbers(text_of("specs", "Table.antt"))
    found = {}
    for name, which in [("RAL", "low"), ("RAH", "high")]:
        clause = rf"^address_{which}_at_reset entry words = if entry == 0 then (.*) else 0$"
        rule = re.search(clause, table, re.M).group(1)
        bit = re.match(HEX, rule)
        words = sorted(map(int, re.findall(r"slice_index words (\d+)", rule)))
        found[name] = (words, number(bit.group()).bit_length() - 1 if bit else None)
    return found


def rules():
    """The numbers in rules other than kept bits. For each register's name: a pattern for its rule in a table, and what
    the pattern's groups must be.
    """
    registers = with_numbers(text_of("specs", "Registers.antt"))
    buffer = text_of(os.pardir, "registers", "specs", "PacketBuffer.antt")
    kept = text_of(os.pardir, "registers", "specs", "Kept.antt")
    reset = re.search(r"^is_reset Ctrl value = is_set value (\d+)$", registers, re.M).groups()
    link_up = re.search(rf"^status_of_link_up = ({HEX})$", kept, re.M).groups()
    causes = re.search(rf"^all_causes = ({HEX})$", kept, re.M).groups()
    allocation = re.search(r"^is_allocation kilobytes = nat_le (\d+) kilobytes && \(nat_le kilobytes (\d+) && "
                           r"kilobytes % 2 == 0\)$", buffer, re.M).groups()
    shown = r"^allocation_shown kilobytes = \((\d+) - kilobytes\) \* 65536 \+ kilobytes$"
    all_kilobytes = re.search(shown, buffer, re.M).groups()
    return {
        "CTRL": (r"RST, bit (\d+),", reset),
        "STATUS": (rf"read only: ({HEX}) while", link_up),
        "ICR": (rf"causes ({HEX});", causes),
        "PBA": (r"an even number from (\d+) to (\d+), .* reads (\d+) - RXA", allocation + all_kilobytes),
    }


def bit_places():
    """Yields the name of each bit in contracts, the bit's place there, and the place of the lowest bit of the code's
    constant.
    """
    registers = {"ctrl": "Ctrl", "status": "Status", "rctl": "Rctl", "tctl": "Tctl", "": "Cause"}
    others = {
        "rah_av": ("rx_filter", "address", "ADDRESS_VALID"),
        "control_reset": ("mdic_phy", "phy", "RESET"),
        "control_enable": ("mdic_phy", "phy", "ENABLE"),
        "control_restart": ("mdic_phy", "phy", "RESTART"),
        "status_complete": ("mdic_phy", "phy", "NEGOTIATED"),
        "status_link": ("mdic_phy", "phy", "LINK"),
        "mdic_r": ("mdic_phy", "mdic", "READY"),
        "mdic_i": ("mdic_phy", "mdic", "INTERRUPT"),
        "mdic_e": ("mdic_phy", "mdic", "ERROR"),
        "mdic_regadd": ("bring_up", "link", "STATUS_REGISTER"),
        "mdic_phyadd": ("bring_up", "link", "PHY_ADDRESS"),
        "mdic_op": ("bring_up", "link", "OP_WRITE"),
        "dd": ("descriptors", "flags", "RxStatus::DD"),
        "eop": ("descriptors", "flags", "RxStatus::EOP"),
        "tx_eop": ("descriptors", "flags", "TxCommand::EOP"),
        "tx_ifcs": ("descriptors", "flags", "TxCommand::IFCS"),
        "tx_rs": ("descriptors", "flags", "TxCommand::RS"),
        "tx_dext": ("descriptors", "flags", "TxCommand::DEXT"),
        "tx_dd": ("descriptors", "flags", "TxStatus::DD"),
    }
    files = [("registers", "Places"), ("mdic_phy", "PhyPlaces"), ("descriptors", "RxStatus"),
             ("descriptors", "TxFields")]
    for crate, file in files:
        for name, place in re.findall(r"^(\w+) = (\d+)$", text_of(os.pardir, crate, "specs", file + ".antt"), re.M):
            if name == "mdic_reserved":
                continue
            register, bit = name.split("_") if "_" in name else ("", name)
            where, source, constant = others.get(name) or ("registers", "bits", f"{registers[register]}::{bit.upper()}")
            code = text_of(os.pardir, where, "src", source + ".rt")
            flags, _, constant = constant.rpartition("::")
            code = code[code.index(f"impl {flags}: "):] if flags else code
            head = rf"^ *(?:pub )?const {constant}(?:: u(?:16|32))?"
            shift = re.search(rf"{head} = (?:1|3|0b01|{HEX}) << (\d+);$", code, re.M)
            yield name, number(place), number(shift.group(1))


def kept_of_mdic():
    """The bits of MDIC that a write keeps: by the specification, all except those that it names; and by the constant.
    """
    specification = text_of(os.pardir, "mdic_phy", "specs", "Mdic.antt")
    code = text_of(os.pardir, "mdic_phy", "src", "mdic.rt")
    places = dict(re.findall(r"^(\w+) = (\d+)$", text_of(os.pardir, "mdic_phy", "specs", "PhyPlaces.antt"), re.M))
    rule = re.search(r"^kept_bits value = difference value (.*)$", specification, re.M).group(1)
    cleared = sum(1 << number(places[name]) for name in re.findall(r"alone (\w+)", rule))
    return 0xFFFFFFFF - cleared, number(re.search(r"^const KEPT: u32 = (0x[0-9A-F_]+);$", code, re.M).group(1))


def typed_offsets(text):
    """Yields the names of registers and their offsets that a text of a program states."""
    yield from ((name, number(value)) for name, value in ONE.findall(text))
    for names, values in MANY.findall(text):
        if names.count(",") == values.count(","):
            yield from zip(names.split(", "), map(number, values.split(", ")))


def lines(text):
    """Yields the registers of a table in a text. A register has a name, a first offset and texts: the offsets, the
    registers, the kept bits or rule, and the reset value.
    """
    for line in re.findall(r"^(?://! )?\| (0x.*) \|$", text, re.M):
        places, registers, kept, reset = line.split(" | ")
        names = [re.match(r"[A-Z]+", name).group() for name in registers.split(", ") if re.match(r"[A-Z]", name)]
        firsts = [number(place) for place in re.findall(HEX, places.split(" to ")[0])]
        if len(firsts) != len(names):
            sys.exit(f"a line has as many offsets as names: {line}")
        for name, first in zip(names, firsts):
            yield name, first, places, registers, kept, reset


def numbers_of(pattern, text):
    """The numbers that a pattern finds in a text, or None."""
    found = re.search(pattern, text)
    return found and tuple(map(number, found.groups()))


def check_array(check, name, row, count, places, registers):
    """Checks the line of an array. It has the last offset and the number of registers, or the bytes from one register
    to the next and the range of indices.
    """
    offset, _, _, step = row
    if " to " in places:
        check(f"{name}: last offset", numbers_of(rf" to ({HEX})$", places), (offset + step * (count - 1),))
        check(f"{name}: step", step, 4)
        check(f"{name}: words", numbers_of(r", (\d+) words$", registers), (count,))
    else:
        check(f"{name}: step", numbers_of(r" \+ (\d+)n$", places), (step,))
        check(f"{name}: numbers", numbers_of(r"\(n\), n (\d+) to (\d+)$", registers), (0, count - 1))


def check_table(check, place, text):
    """Compares a table of registers in a text with the table of the proofs."""
    constants, rows, counted, words, ruled, seen = offsets(), proved(), counts(), eeprom_words(), rules(), []
    for name, first, places, registers, kept, reset in lines(text):
        offset, bits, value, step = rows[name]
        seen.append(name)
        check(f"{place}: {name}: offset", (first, constants[name]), (offset, offset))
        if step is not None:
            check_array(check, f"{place}: {name}", rows[name], counted[name], places, registers)
        check(f"{place}: {name}: kept", numbers_of(rf"^({HEX})(?:;|$)", kept), None if bits is None else (bits,))
        if name in ruled:
            pattern, numbers = ruled[name]
            check(f"{place}: {name}: rule", numbers_of(pattern, kept), tuple(map(number, numbers)))
        if value is not None:
            check(f"{place}: {name}: reset", number(reset), value)
            continue
        told = re.match(rf"{name}\(0\) (?:from|is) words? (\d+)(?: and (\d+))?[ ,]", reset)
        check(f"{place}: {name}: reset", told and [int(word) for word in told.groups() if word], words[name][0])
        bit = None if words[name][1] is None else (words[name][1],)
        check(f"{place}: {name}: set bit", numbers_of(r"bit (\d+)", reset), bit)
    check(f"{place}: each register once", sorted(seen), sorted(rows))


def check_clients(check):
    """Compares the offsets that programs in other languages state with the table of the proofs."""
    rows, top = proved(), os.path.dirname(os.path.dirname(ADAPTER))
    paths = {path for pattern in CLIENTS for path in glob.glob(os.path.join(top, pattern)) if os.path.isfile(path)}
    for path in sorted(paths):
        with open(path, encoding="utf-8", errors="replace") as file:
            found = [(name, offset) for name, offset in typed_offsets(file.read()) if name in rows]
        wrong = [f"{name} 0x{offset:04X}" for name, offset in found if not is_of(rows[name], offset)]
        if found:
            check(f"{os.path.relpath(path, top)}: offsets", wrong, [])


def is_of(row, offset):
    """Whether an offset is that of this register, or of a register in this array."""
    first, _, _, step = row
    return offset == first if step is None else first <= offset < first + 0x200 and (offset - first) % step == 0


def typed_bits():
    """Yields the places of bits that the C header and the finder of races type by hand. Each has the file, a name such
    as ctrl_slu, and the place.
    """
    top = os.path.join(os.pardir, os.pardir)
    macro = r"^#define NIC_(\w+?)(?:\(\w+\))? \((?:1u|\(uint32_t\)\(\w+\)) << (\d+)\)$"
    for name, place in re.findall(macro, text_of(top, "bindings", "c", "nic82540em.h"), re.M):
        yield "nic82540em.h", name.lower(), int(place)
    bits = re.search(r"^BITS = \{(.*?)^\}", text_of(top, "finder", "names.py"), re.M | re.S).group(1)
    for register, names in re.findall(r'"([A-Z]+)": \{([^}]*)\}', bits):
        for place, name in re.findall(r'(\d+): "(\w+)"', names):
            yield "finder/names.py", f"{register}_{name}".lower(), int(place)


def check_bits(check):
    """Compares the typed places of bits with those in contracts, for all bits that contracts name."""
    places = {name: place for name, place, _ in bit_places()}
    seen = set()
    for file, name, place in typed_bits():
        if name in places:
            seen.add(file)
            check(f"{file}: place of {name}", place, places[name])
    check("files that type places of bits", sorted(seen), ["finder/names.py", "nic82540em.h"])


def check_all(check):
    """Makes all comparisons; `check(name, got, want)` counts one."""
    for name, place, shift in bit_places():
        check(f"place of {name}", place, shift)
    check("bits of MDIC that a write keeps", *kept_of_mdic())
    check("arrays", sorted(counts()), sorted(name for name, row in proved().items() if row[3] is not None))
    check_table(check, "docs/ADAPTER.md", text_of(os.pardir, os.pardir, "docs", "ADAPTER.md"))
    check_table(check, "offsets.rt", text_of("src", "offsets.rt"))
    check_clients(check)
    check_bits(check)
