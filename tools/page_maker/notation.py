"""The notation of contracts, from docs/CONTRACTS.md."""

import os
import re


def read_notation(root: str) -> str:
    """The section `Notation` of the page."""
    with open(os.path.join(root, "docs", "CONTRACTS.md"), encoding="utf-8") as file:
        return file.read().partition("\n## Notation\n")[2].partition("\n## ")[0].strip()


def table_rows(block: str) -> list[list[str]]:
    """The cells of each row of a table, its head included."""
    return [[cell.replace("\\|", "|") for cell in line.strip("| ").split(" | ")]
            for line in block.split("\n") if not line.startswith("|---")]


def meanings(section: str) -> dict[str, str]:
    """What signs and words mean: for each, its first example with the meaning. A row of several examples counts if it
    has a meaning for each.
    """
    found = {}
    section = re.sub(r"\[([^\]]+)\]\([^)]*\)", r"\1", section)
    for block in section.split("\n\n"):
        for examples, said in table_rows(block) if block.startswith("|") else ():
            shown = re.findall(r"`([^`]+)`", examples)
            parts = [said] if len(shown) == 1 else said.partition(". ")[0].split("; ")
            for example, part in zip(shown, parts) if len(shown) == len(parts) else ():
                signs = [word for word in example.split() if not re.match(r"\w", word)] or example.split()[:1]
                found.setdefault(signs[0], f"{example}: {part}".replace("`", ""))
    return found
