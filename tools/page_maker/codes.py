"""The codes that the program prints if it fails: their table, and the rows of the help made from it.

An error's message contains the code and its name, as in `#[error("E61 Magic")]`. The first paragraph of the variant's
comment is the meaning for users, without a full stop at its end. For the faults of a file, whose meaning is also
printed with a path, EXPLANATION contains it; the comment then ends with a full stop.
"""

from __future__ import annotations

import os
import re
import textwrap
from typing import Iterator, NamedTuple, Optional

EXPLANATION = "program_jobs/src/explanation.rt"
# The number of the first code with a row in the table. Smaller ones are those of calls of libraries.
FIRST = 40


class Source(NamedTuple):
    """A type of errors, and the file in crates that declares it. If another error contains it and determines the exit
    status, `holder` is the file and the variant of that error.
    """

    file: str
    error: str
    holder: Optional[tuple[str, str]] = None


# The types whose messages are in the table. If two messages have the same code, the first one has the meaning.
SOURCES = (
    Source("network_plan/src/plan_error.rt", "PlanError"),
    Source("network_plan/src/reply.rt", "Stopped", ("scenario_bench/src/bench_error.rt", "BenchError::Run")),
    Source("scenario/src/refusal.rt", "Fault", ("scenario/src/refusal.rt", "Refusal::Line")),
    Source("scenario_bench/src/bench_error.rt", "BenchError"),
    Source("pcap_trace/src/fault.rt", "ReadError"),
    Source("pcap_trace/src/fault.rt", "WriteError"),
    Source("drive/src/bus_fault.rt", "BusFault"),
    Source("program_files/src/file_error.rt", "FileError"),
    Source("program_jobs/src/fault.rt", "Fault"),
)
# A text that begins with a code; a message with a code, and the declaration that follows it, with its comment.
CODE = re.compile(r'"(E\d+) ([A-Z]\w*)')
MESSAGE = re.compile(r'#\[error\("(E\d+) (\w+)')
DECLARED = re.compile(r"((?: *///.*\n)*)(?: *#\[derive.*\n)?( *)" + MESSAGE.pattern
                      + r'(?:: [^"]*)?"\)\]\n *(?:pub struct )?(\w+)')
# An arm of a function that returns statuses: its patterns, and the status.
STATUS = re.compile(r"^ {12}((?:\w+::\w+(?:\([^()]*\)|\s*{[^{}]*})?[\s|]*)+)=> (\d),$", re.M)
# A text with the meaning of a code: an arm for a variant, or a constant.
STRING = r'\s*"((?:[^"\\]|\\.|\\\n)*)"'
ADVICE = re.compile(r"^ +(ReadError::\w+) =>(?: {)?" + STRING, re.M)
CONSTANT = re.compile(r"^const (\w+_ADVICE): &str =" + STRING, re.M)
# The variants that the constants are for.
CONSTANTS = {"OPEN_ADVICE": "FileError::Open", "SAME_FILE_ADVICE": "Fault::SameFile"}
# A row of the help: a code, its name, and its meaning, which may go on in lines that begin with 16 spaces.
ROW = re.compile(r"^  (E\d+) (\w+) +\S.*(?:\n {16}\S.*)*", re.M)
HELP_TEXT = re.compile(r'(?P<name>\b(?:RUN|PROGRAM)_NOTE: &str =\s+")(?P<text>(?:[^"\\]|\\.)*)')
WIDTH, INDENT = 100, 16


class Code(NamedTuple):
    """A row of the table: `E61`, `Magic`, 1, and the meaning with what a user can do."""

    code: str
    name: str
    status: int
    text: str


class Declared(NamedTuple):
    """A declaration with a code in its message. `variant` is `ReadError::Magic`, or the name of a struct."""

    code: str
    name: str
    variant: str
    comment: str


def read(root: str, file: str) -> str:
    with open(os.path.join(root, "crates", file), encoding="utf-8") as opened:
        return opened.read()


def statuses_in(source: str) -> dict[str, int]:
    """The statuses of the variants, such as `ReadError::Magic`, from the functions of a file that return them."""
    return {variant: int(status) for arm, status in STATUS.findall(source) for variant in re.findall(r"\w+::\w+", arm)}


def declared_in(source: str, error: str) -> Iterator[Declared]:
    """Yields the declarations with codes of a type of errors: its variants, or the type itself if it is a struct."""
    whole = re.search(rf"^pub enum {error}\b.*?^}}", source, re.M | re.S)
    for comment, indent, code, name, variant in DECLARED.findall(whole.group() if whole else source):
        if indent or variant == error:
            first = re.split(r"^ *///$", comment, maxsplit=1, flags=re.M)[0]
            text = " ".join(line.strip(" /") for line in first.splitlines())
            yield Declared(code, name, f"{error}::{variant}" if indent else variant, text)


def advice(root: str) -> dict[str, str]:
    """The meanings that are also printed with a path, each of a variant."""
    source = read(root, EXPLANATION)
    found = dict(ADVICE.findall(source))
    found.update((CONSTANTS[name], text) for name, text in CONSTANT.findall(source))
    return {variant: re.sub(r"\\\n\s*", "", text) for variant, text in found.items()}


def meaning(declared: Declared, texts: dict[str, str]) -> str:
    """The meaning of a code. Raises ValueError if the comment and EXPLANATION both contain one, or neither does."""
    has_stop = declared.comment.endswith(".")
    if not declared.comment or has_stop != (declared.variant in texts):
        raise ValueError(f"{declared.variant} ({declared.code}) doesn't have one meaning: its comment must end with a "
                         f"full stop exactly if {EXPLANATION} has the meaning")
    return texts.get(declared.variant, declared.comment)


def status(root: str, source: Source, declared: Declared) -> int:
    """The exit status of a code. Raises ValueError if there is none."""
    file, variant = source.holder or (source.file, declared.variant)
    statuses = statuses_in(read(root, file))
    if variant not in statuses:
        raise ValueError(f"crates/{file} has no status for {variant}")
    return statuses[variant]


def names_in(root: str) -> dict[str, str]:
    """The names of all codes in the crates. Raises ValueError if a code has two names."""
    names: dict[str, str] = {}
    for folder, _, files in os.walk(os.path.join(root, "crates")):
        for file in files if os.path.basename(folder) == "src" else []:
            with open(os.path.join(folder, file), encoding="utf-8") as opened:
                for code, name in CODE.findall(opened.read()):
                    if names.setdefault(code, name) != name:
                        raise ValueError(f"{code} is both {names[code]} and {name} ({os.path.join(folder, file)})")
    return names


def read_codes(root: str) -> list[Code]:
    """The codes, in their order. Raises ValueError if a code has two names, no status, or not one meaning. Each code
    from FIRST on must be one of SOURCES.
    """
    texts = advice(root)
    found: dict[str, Code] = {}
    for source in SOURCES:
        for declared in declared_in(read(root, source.file), source.error):
            if declared.code not in found:
                found[declared.code] = Code(declared.code, declared.name, status(root, source, declared),
                                            meaning(declared, texts))
    missing = {code for code in names_in(root) if int(code[1:]) >= FIRST} - set(found)
    if missing:
        raise ValueError(f"the table has no row for {sorted(missing)}")
    return sorted(found.values())


def code_table(codes: list[Code]) -> str:
    """The table of docs/ERRORS.md."""
    return "\n".join(["| Code | Name | Status | Meaning, and what to do |", "|---|---|---|---|",
                      *(f"| {row.code} | {row.name} | {row.status} | {row.text} |" for row in codes)]) + "\n"


def help_row(row: Code) -> str:
    """A row of the help."""
    start = f"  {row.code} {row.name}".ljust(INDENT)
    return textwrap.fill(row.text, WIDTH, initial_indent=start, subsequent_indent=" " * INDENT,
                         break_long_words=False, break_on_hyphens=False)


def with_codes(source: str, codes: list[Code]) -> str:
    """The source of the help texts with the rows of the table. A row with the same words keeps its line breaks.

    Raises ValueError if the codes in the source aren't those of the table, in the table's order.
    """
    rows = {row.code: row for row in codes}
    found = []

    def new_row(match: re.Match) -> str:
        found.append(match.group(1))
        row = rows.get(match.group(1))
        if row is None or match.group().split() == [row.code, row.name, *row.text.split()]:
            return match.group()
        return help_row(row)

    out = HELP_TEXT.sub(lambda match: match["name"] + ROW.sub(new_row, match["text"]), source)
    if found != [row.code for row in codes]:
        wanted = [row.code for row in codes]
        raise ValueError(f"the help texts have rows of {found}, and the errors have {wanted}")
    return out
