"""Compares objects (ELF, 64 bits, little-endian): the code and the data, with relocations and symbols."""

import struct
from collections import namedtuple

ALLOCATED, RELA, SYMTAB, NOBITS = 0x2, 4, 2, 8
Section = namedtuple("Section", "name kind flags data link info size")


def string_at(table, place):
    return table[place:table.index(b"\0", place)].decode()


def sections_of(data):
    """The sections of an object, in their order."""
    if data[:6] != b"\x7fELF\x02\x01":
        raise ValueError("this is no object of ELF, 64 bits, little-endian")
    start, = struct.unpack_from("<Q", data, 0x28)
    size, count, names = struct.unpack_from("<HHH", data, 0x3A)
    raw = [struct.unpack_from("<IIQQQQIIQQ", data, start + size * place) for place in range(count)]
    bodies = [b"" if it[1] == NOBITS else data[it[4]:it[4] + it[5]] for it in raw]
    return [Section(string_at(bodies[names], it[0]), it[1], it[2], body, it[6], it[7], it[5])
            for it, body in zip(raw, bodies)]


def symbols_of(sections, table):
    """The symbols of a section: name, section, value, size, and type with binding. A section's symbol has its name."""
    strings, found = sections[table.link].data, []
    for name, info, _, section, value, size in struct.iter_unpack("<IBBHQQ", table.data):
        place = sections[section].name if 0 < section < len(sections) else section
        named = string_at(strings, name) if name else place if info & 15 == 3 else ""
        found.append((named, place, value, size, info))
    return found


def contents_of(data):
    """What a linker takes of an object, in three parts. For each section of code or data its flags, size and bytes; the
    relocations of each such section; the symbols that have a name.
    """
    sections = sections_of(data)
    table = next(it for it in sections if it.kind == SYMTAB)
    symbols = symbols_of(sections, table)
    parts = {it.name: (it.flags, it.size, it.data) for it in sections if it.flags & ALLOCATED and it.size}
    moves = {}
    for it in (it for it in sections if it.kind == RELA and sections[it.info].flags & ALLOCATED):
        places = moves.setdefault(sections[it.info].name, [])
        for offset, info, addend in struct.iter_unpack("<QQq", it.data):
            named, place, value, _, _ = symbols[info >> 32]
            # a local symbol stands for its place in its section
            target = named if place == 0 else (place, value)
            places.append((offset, info & 0xFFFFFFFF, target, addend))
    named = sorted(it for it in symbols if it[0] and it[4] & 15 in (1, 2) and it[1] != 0)
    return parts, {name: sorted(it, key=str) for name, it in moves.items()}, named


def members_of(archive):
    """The bytes of the members of an archive, by their names."""
    if archive[:8] != b"!<arch>\n":
        raise ValueError("this is no archive")
    found, at, names = {}, 8, b""
    while at + 60 <= len(archive):
        name, size = archive[at:at + 16].rstrip().decode(), int(archive[at + 48:at + 58])
        body = archive[at + 60:at + 60 + size]
        at += 60 + size + size % 2
        if name == "//":
            names = body
        elif name not in ("/", "/SYM64/"):
            if name[1:].isdigit():
                begin = int(name[1:])
                name = names[begin:names.index(b"/", begin)].decode()
            found[name.rstrip("/")] = body
    return found


def differences(one, other):
    """The names of what differs between two objects: sections, relocations of sections, symbols."""
    first, second = contents_of(one), contents_of(other)
    found = []
    for what, left, right in (("section", first[0], second[0]), ("relocations of", first[1], second[1])):
        found += [f"{what} {name}" for name in sorted({*left, *right}) if left.get(name) != right.get(name)]
    return found + [f"symbol {it[0]}" for it in sorted({*first[2]} ^ {*second[2]}, key=str)]
