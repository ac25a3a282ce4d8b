"""Changes a C source at places that are found by names."""

from __future__ import annotations

import re
from typing import Callable

IGNORED = re.compile(r"/\*.*?\*/|//[^\n]*|\"(?:\\.|[^\"\\])*\"|'(?:\\.|[^'\\])*'", re.S)
PAIRS = {"(": ")", "{": "}"}


class NotFound(Exception):
    """The source doesn't have exactly one such place, or a bracket in it isn't closed."""


def without_comments(text: str) -> str:
    """The text with spaces in the place of comments, strings and characters."""
    return IGNORED.sub(lambda found: re.sub(r"[^\n]", " ", found[0]), text)


def end_of_group(text: str, begin: int) -> int:
    """The place after the bracket that closes the one at `begin`."""
    depth, opening = 0, text[begin]
    for at in range(begin, len(text)):
        depth += (text[at] == opening) - (text[at] == PAIRS[opening])
        if depth == 0:
            return at + 1
    raise NotFound("a bracket isn't closed")


class Source:
    """A C source."""

    def __init__(self, text: str) -> None:
        self.text = text

    def function(self, name: str) -> tuple[int, int]:
        """The places of a function's body: of its first `{`, and after its last `}`."""
        code = without_comments(self.text)
        for found in re.finditer(rf"\b{name}\s*\(", code):
            after = end_of_group(code, found.end() - 1)
            body = re.match(r"\s*\{", code[after:])
            if body:
                begin = after + body.end() - 1
                return begin, end_of_group(code, begin)
        raise NotFound(f"there is no function {name}")

    def place(self, function: str, pattern: str) -> tuple[int, int]:
        """Where the only text in a function's body that matches a pattern begins and ends."""
        begin, end = self.function(function)
        found = list(re.finditer(pattern, without_comments(self.text)[begin:end]))
        if len(found) != 1:
            raise NotFound(f"{function} has {len(found)} places for {pattern}")
        return begin + found[0].start(), begin + found[0].end()

    def replace(self, begin: int, end: int, text: str) -> None:
        self.text = self.text[:begin] + text + self.text[end:]

    def remove(self, function: str, pattern: str) -> None:
        self.replace(*self.place(function, pattern), "")

    def insert_before(self, function: str, pattern: str, text: str) -> None:
        begin, _ = self.place(function, pattern)
        self.replace(begin, begin, f"{text}\n")

    def insert_after(self, function: str, pattern: str, text: str) -> None:
        _, end = self.place(function, pattern)
        self.replace(end, end, f"\n{text}")

    def begin(self, function: str, text: str) -> None:
        """Inserts declarations at the beginning of a function's body."""
        begin, _ = self.function(function)
        self.replace(begin + 1, begin + 1, f"\n{text}")

    def change_condition(self, function: str, name: str, change: Callable[[str], str]) -> None:
        """Changes the condition of the only loop `while` of a function that has this name in its condition."""
        begin, end = self.function(function)
        code = without_comments(self.text)
        loops = [begin + found.end() - 1 for found in re.finditer(r"\bwhile\s*\(", code[begin:end])]
        loops = [loop for loop in loops if re.search(rf"\b{name}\b", code[loop:end_of_group(code, loop)])]
        if len(loops) != 1:
            raise NotFound(f"{function} has {len(loops)} loops on {name}")
        last = end_of_group(code, loops[0])
        self.replace(loops[0], last, f"({change(self.text[loops[0]:last])})")
