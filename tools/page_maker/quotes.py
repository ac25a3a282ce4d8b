"""Definitions that Markdown pages quote from specs.

A quote is between the lines `<!-- words quoted by tools/pages --tables: NAMES -->` and `<!-- end of quote -->`. It is a
table of the words with their comments; with `code` in place of `words`, it is the text of the definitions. NAMES are
words such as `wire/Equations: MeetsEquations HostStands`, for definitions of wire/specs/Equations.antt. A field is
`MeetsEquations.sent_is_accepted`. A name that isn't there is an error. So is a word without a comment in a table.
"""

import re

QUOTE = re.compile(r"^<!-- (words|code) quoted by tools/pages --tables:\s+([^>]*?)\s*-->\n", re.M)
END = "<!-- end of quote -->"
# The marks that are removed from a quoted definition.
MARKS = re.compile(r"\b(?:pub|abbrev|unfoldable) ")


def found(repository, names: str) -> list[tuple[str, object]]:
    """The definitions of a list of names, each with its file. Raises ValueError for a name that isn't there."""
    out, file = [], ""
    for word in names.split():
        if word.endswith(":"):
            file = word[:-1]
            continue
        module = repository.modules.get(file.replace("/", ".specs.", 1).replace("/", "."))
        name, _, member = word.partition(".")
        definition = module.defs.get(name) if module else None
        if definition is not None and member:
            definition = definition.members.get(member)
        if definition is None:
            raise ValueError(f"it quotes {file}: {word}, which isn't there")
        out.append((file, definition))
    return out


def cell(text: str) -> str:
    """A comment as a cell of a table."""
    text = " ".join(text.split()).replace("|", r"\|")
    return text[:1].upper() + text[1:].removesuffix(".")


def words(repository, names: str) -> str:
    """A table of words: the name of each, its comment, and its file in specs."""
    out = ["| Word | Meaning | File |", "|---|---|---|"]
    for file, definition in found(repository, names):
        if not definition.comment.strip():
            raise ValueError(f"it quotes {file}: {definition.name}, which has no comment")
        out.append(f"| `{definition.name}` | {cell(definition.comment)} | `{file}` |")
    return "\n".join(out) + "\n"


def code(repository, names: str) -> str:
    """The text of definitions, with their comments."""
    out = []
    for _, definition in found(repository, names):
        lines = definition.module.text.split("\n")
        begin, end = definition.line - 1, definition.end
        while begin and lines[begin - 1].startswith("--"):
            begin -= 1
        while not lines[end - 1].strip() or lines[end - 1].startswith("--"):
            end -= 1
        out += [MARKS.sub("", line) for line in lines[begin:end]] + [""]
    return "```\n" + "\n".join(out).strip("\n") + "\n```\n"


def with_quotes(repository, text: str) -> str:
    """A page's text with its quotes made again. Raises ValueError if a name, a comment for a table, or the end of a
    quote is missing.
    """
    at = 0
    while (mark := QUOTE.search(text, at)) is not None:
        end = text.find(END, mark.end())
        after = QUOTE.search(text, mark.end())
        if end < 0 or after is not None and after.start() < end:
            raise ValueError(f"the line `{END}` is missing")
        part = (words if mark.group(1) == "words" else code)(repository, mark.group(2))
        text = text[:mark.end()] + "\n" + part + "\n" + text[end:]
        at = mark.end() + len(part)
    return text
