"""Reads the definitions of a file of specs."""

import re

from .definitions import Definition, Module, read_use
from .texts import comment_text

USE = re.compile(r"((pub|unfoldable)\s+)*use\s+")
DATA = re.compile(r"(pub )?(record|data)\s+(\S+)")
WORD = re.compile(r"((?:abbrev |unfoldable |pub |irrelevant |ruleset )*)(\S+)(?:\s+\{[^}]*\})*\s+:(\s|$)")
FIELD = re.compile(r"\s+(?:pub )?(?P<name>[^\s(){}]+)\s+:")
CASE = re.compile(r"\s+(?P<name>[^\s(){}|]+)(?:\s+[^\s(){}|:]+)*\s*:")


def lines_of(module: Module) -> list[str]:
    """The lines of a file; those of a `module _ where` of the kit without their indent."""
    lines = module.text.split("\n")
    if not module.kit:
        return lines
    inside = False
    for number, line in enumerate(lines):
        if re.match(r"(pub )?module .* where$", line):
            inside, lines[number] = True, ""
        elif line.strip() and not line.startswith(" "):
            inside = False
        elif inside:
            lines[number] = line[2:]
    return lines


def end_of(lines: list[str], at: int) -> int:
    """The number, from 0, of the line after an item. `at` is the number of the line after the item's first one."""
    while at < len(lines):
        line = lines[at]
        blank = not line.strip() and at + 1 < len(lines) and lines[at + 1].startswith("  ")
        if not line.startswith((" ", "\t", ")", "}", "]")) and not blank:
            break
        at += 1
    return at


class SpecReader:
    """Reads one file into its module."""

    def __init__(self, module: Module):
        self.module, self.lines = module, lines_of(module)
        self.pending, self.last, self.in_head = [], None, True

    def read(self):
        """Reads the whole file."""
        at = 0
        while at < len(self.lines):
            line = self.lines[at]
            if not line.strip():
                self.flush()
                at += 1
            elif line.startswith("--"):
                self.pending.append(line)
                at += 1
            else:
                end = end_of(self.lines, at + 1)
                self.item(at, end)
                at = end
        self.flush()

    def flush(self):
        """Keeps the comment that was read last as a paragraph of its own, if no definition has followed."""
        if self.pending:
            text = comment_text(self.pending)
            self.module.chunks.append(("prose", text))
            if self.in_head and not self.module.head:
                self.module.head = text
            self.pending = []

    def item(self, begin: int, end: int):
        """Reads an import, a definition, or a clause of the last definition."""
        text = "\n".join(self.lines[begin:end]).rstrip()
        if USE.match(text):
            return self.use(text)
        if re.match(r"(pub )?mod\b|infix", text):
            if not text.startswith("infix"):
                self.pending = []
            return None
        comment, self.pending = comment_text(self.pending), []
        found = DATA.match(text)
        if found:
            new = Definition(found.group(2), found.group(3), self.module, begin + 1, end, comment, text,
                             public=bool(found.group(1)))
            self.members(new, begin, end)
            self.last = new
            return self.module.add(new, True)
        found = WORD.match(text)
        if found:
            kind = "abbrev" if re.search("abbrev|unfoldable", found.group(1)) else "word"
            self.last = Definition(kind, found.group(2), self.module, begin + 1, end, comment, text, text,
                                   public="pub" in found.group(1))
            return self.module.add(self.last, True)
        is_clause = self.last is not None and self.last.kind in ("abbrev", "word")
        if is_clause and not re.match(r"(pub )?(open|ruleset)\s", text):
            self.last.parts.append((begin + 1, comment, text))
            self.last.text += "\n" + text
            self.last.end = end
        else:
            self.module.chunks.append(("other", text))
        return None

    def use(self, text: str):
        """Reads an import."""
        if self.pending and self.in_head:
            self.module.head = self.module.head or comment_text(self.pending)
        elif self.pending:
            self.module.chunks.append(("prose", comment_text(self.pending)))
        self.pending, self.in_head = [], False
        found = read_use(self.module.scope, USE.sub("", text, count=1))
        if not text.startswith("use"):
            self.module.exports += found

    def members(self, definition: Definition, begin: int, end: int):
        """Reads the fields of a record or the cases of data: each with its comment and its whole text."""
        lines, pattern = self.lines[begin:end], FIELD if definition.kind == "record" else CASE
        first = next((i for i, line in enumerate(lines) if re.search(r"\bwhere\s*$", line)), len(lines)) + 1
        definition.head = "\n".join(lines[:first])
        pending, current, indent = [], None, None
        for number, line in enumerate(lines[first:], begin + first + 1):
            if not line.strip():
                continue
            depth = len(line) - len(line.lstrip())
            if line.strip().startswith("--"):
                pending.append(line)
                current = None
                continue
            found = pattern.match(line)
            indent = depth if indent is None and found else indent
            if found and depth == indent:
                current = self.member(definition, found.group("name"), number, line, comment_text(pending))
                pending = []
            elif current is not None:
                current.text += "\n" + line[(indent or 0):]

    def member(self, definition: Definition, name: str, line: int, text: str, comment: str) -> Definition:
        """Adds a field, or all cases that a line names, to their definition. Returns the member with the given name."""
        kind = "field" if definition.kind == "record" else "case"
        current = Definition(kind, name, self.module, line, comment=comment, text=text.strip(), owner=definition)
        definition.members[name] = current
        if kind == "case":
            for other in text.split(":")[0].split()[1:]:
                definition.members[other] = Definition(kind, other, self.module, line, text=text.strip(),
                                                       owner=definition)
            for case in definition.members.values():
                self.module.defs.setdefault(case.name, case)
        return current


def read_spec(module: Module):
    """Fills a module from the text of a file of specs."""
    SpecReader(module).read()
