"""The registers of the adapter, from its table in specs: `row_of` of adapter/specs/Table.antt, and what it names."""

import re
from dataclasses import dataclass

# The names of rings' registers: a letter by the ring, and the rest by the part, as specs name them.
RINGS = {"Receive": "R", "Transmit": "T"}
RING_PARTS = {"BaseLow": "DBAL", "BaseHigh": "DBAH", "Length": "DLEN", "Head": "DH", "Tail": "DT"}
TABLE, KEPT = "adapter_model.specs.Table", "registers.specs.Kept"


@dataclass
class Register:
    """A register, or an array of `count` registers, `step` bytes from one to the next."""
    name: str
    offset: int
    # The mask of the kept bits, or None if the register has another rule; the rule in words, which may add to the mask.
    kept: object
    rule: str
    # The value after a reset, or in words what it depends on.
    reset: object
    count: int = 1
    step: int = 0

    def last(self) -> int:
        """The offset of the last register of an array."""
        return self.offset + self.step * (self.count - 1)


def clauses(repository, module: str, name: str) -> list[tuple[str, str, str]]:
    """The clauses of a word of specs: for each the pattern, the result, and the comment above the clause."""
    out = []
    for _, comment, text in repository.modules[module].defs[name].parts:
        left, _, right = text.partition(" = ")
        out.append((left.partition(" ")[2].strip("()"), " ".join(right.split()), " ".join(comment.split())))
    return out


def number(repository, text: str) -> int:
    """A number: a literal, or a word of specs that is one."""
    text = text.strip("() ")
    if re.fullmatch(r"0x[0-9A-Fa-f]+|\d+", text):
        return int(text, 0)
    for definition in repository.by_name.get(text, []):
        if definition.kind == "abbrev" and len(definition.parts) == 1:
            return number(repository, definition.parts[0][2].partition(" = ")[2])
    raise ValueError(f"{text} is no number")


def arguments(text: str) -> list[str]:
    """The words and the groups in parentheses of an application."""
    return re.findall(r"\([^()]*(?:\([^()]*\)[^()]*)*\)|\S+", text)


def written_rules(repository) -> dict[str, str]:
    """The rules that the table in the comment of adapter/src/offsets.rt states, by register."""
    rules = {}
    for line in repository.modules["adapter_model.src.offsets"].text.splitlines():
        cells = [cell.strip() for cell in line.removeprefix("//! ").strip("|").split("|")]
        if line.startswith("//! | 0x"):
            rule = re.sub(r"^0x[0-9A-F]+(; )?", "", cells[2])
            rules.update({re.match(r"\w+", name).group(): rule for name in cells[1].split(", ") if name[0].isalpha()})
    return rules


def ring_registers(repository, way: str, text: str) -> list[Register]:
    """The five registers of a ring."""
    base = number(repository, re.search(r"0x[0-9A-F]+", text).group())
    kept = {key: value for key, value, _ in clauses(repository, "adapter_model.specs.Rings", "ring_kept")}
    distances = clauses(repository, "adapter_model.specs.Rings", "ring_distance")
    return [Register(RINGS[way] + RING_PARTS[part], base + number(repository, distance),
                     number(repository, kept[part]), "", 0) for part, distance, _ in distances]


def fields_of(repository, text: str) -> tuple[str, object, object]:
    """The offset as a text, the kept bits or None, and the reset value, of a row of the table."""
    if text.startswith("record"):
        offset, kept, reset = re.search(r"offset = ([^;]+); kept = Some ([^;]+); reset = (\w+)", text).groups()
        comment = repository.modules[TABLE].defs[reset].comment
        return offset, number(repository, kept), " ".join(comment.split()).replace(" (our choice)", "")
    form, offset, *rest = arguments(text)
    return offset, number(repository, rest[0]) if form == "plain" else None, number(repository, rest[-1])


def registers(repository) -> list[Register]:
    """All registers, by offset."""
    sizes = clauses(repository, TABLE, "IsInTable")
    counts = {key.split()[0]: int(value.partition("<")[2]) for key, value, _ in sizes if "<" in value}
    rules, out = written_rules(repository), []
    for key, text, comment in clauses(repository, TABLE, "row_of"):
        word = key.split()[0]
        if word in RINGS:
            out += ring_registers(repository, word, text)
            continue
        place, kept, reset = fields_of(repository, text)
        step = re.search(r"\+ (\d+) \*", place)
        out.append(Register(word.upper(), number(repository, re.search(r"0x[0-9A-F]+", place).group()), kept,
                            comment or rules.get(word.upper(), ""), reset, counts.get(word, 1),
                            int(step.group(1)) if step else 0))
    return sorted(out, key=lambda register: register.offset)


def causes(repository) -> list[tuple[str, int]]:
    """The interrupt causes with the places of their bits, which the comment at `all_causes` lists."""
    comment = " ".join(repository.modules[KEPT].defs["all_causes"].comment.split()).rpartition("): ")[2]
    listed = [(name, int(place)) for name, place in re.findall(r"([A-Z0-9]+) (\d+)", comment)]
    if sum(1 << place for _, place in listed) != number(repository, "all_causes"):
        raise ValueError("the causes in the comment at all_causes aren't those of the mask")
    return listed


# Tables

def place_text(register: Register) -> str:
    """The offset of a register, or those of an array."""
    if register.count == 1:
        return f"0x{register.offset:04X}"
    if register.step == 4:
        return f"0x{register.offset:04X} to 0x{register.last():04X}"
    return f"0x{register.offset:04X} + {register.step}n"


def name_text(register: Register) -> str:
    """The name of a register; for an array also its size, or the range of n."""
    if register.count == 1:
        return register.name
    if register.step == 4:
        return f"{register.name}, {register.count} words"
    return f"{register.name}(n), n 0 to {register.count - 1}"


def register_table(repository) -> str:
    """The table of registers."""
    rows = {}
    for register in registers(repository):
        kept = [f"0x{register.kept:08X}"] if register.kept is not None else []
        cell = "; ".join(kept + ([register.rule] if register.rule else []))
        reset = str(register.reset)
        if isinstance(register.reset, int) and register.reset > 9:
            reset = f"0x{register.reset:0{4 if register.reset < 1 << 16 else 8}X}"
        # Registers with the same cells share a row if they are one part of both rings, or have no mask of kept bits.
        same = register.name[1:] if register.name[1:] in RING_PARTS.values() else register.name
        group = (cell, reset, "" if register.kept is None else same)
        rows.setdefault(group, []).append((place_text(register), name_text(register)))
    out = ["| Offset | Register | Kept bits, or rule | Reset |", "|---|---|---|---|"]
    for (cell, reset, _), places in rows.items():
        offsets, names = (", ".join(part) for part in zip(*places))
        out.append(f"| {offsets} | {names} | {cell} | {reset} |")
    return "\n".join(out) + "\n"


def c_offsets(repository) -> str:
    """The offsets as an enum of C."""
    rows = []
    for register in registers(repository):
        note = ""
        if register.count > 1:
            kind = "words" if register.step == 4 else "entries"
            note = f"  /* {register.count} {kind}, {register.step} bytes apart */"
        rows.append((f"    NIC_{register.name} = 0x{register.offset:04X}", note))
    lines = [f"{text}{',' if number < len(rows) else ''}{note}" for number, (text, note) in enumerate(rows, 1)]
    return "enum {\n" + "\n".join(lines) + "\n};\n"


def c_causes(repository) -> str:
    """The interrupt causes as macros of C."""
    return "".join(f"#define NIC_{name} (1u << {place})\n" for name, place in causes(repository))


def rust_offsets(repository) -> str:
    """The offsets as constants of Rust."""
    return "".join(f"    pub const {one.name}: u32 = 0x{one.offset:04X};\n" for one in registers(repository))


def wrapped(items: list[str], indent: str, limit: int = 118) -> str:
    """These items, each with a comma after it, in lines of at most `limit` characters unless one item is longer."""
    lines = [indent]
    for item in items:
        if len(lines[-1]) + len(item) + 2 > limit:
            lines.append(indent)
        lines[-1] += ("" if lines[-1] == indent else " ") + item + ","
    return "\n".join(lines) + "\n"


def report_order(register: Register) -> tuple:
    """The key by which the finder sorts registers: single ones, those of rings, words of tables, pairs."""
    of_ring = register.name[1:] in RING_PARTS.values()
    return (register.step, of_ring, register.offset) if register.step < 8 else (8, False, register.offset)


def emulator_names(repository) -> str:
    """The offsets of single registers by name, and of arrays with steps and counts, for the comparison of models."""
    rows = registers(repository)
    single = [f'"{one.name}": 0x{one.offset:04X}' for one in rows if one.count == 1]
    arrays = [f'"{one.name}": (0x{one.offset:04X}, {one.step}, {one.count})' for one in rows if one.count > 1]
    return (f"SINGLE = {{\n{wrapped(single, '    ')}}}\n"
            "# Tables: the first offset, the distance, and the number of registers\n"
            f"TABLES = {{{', '.join(arrays)}}}\n")
