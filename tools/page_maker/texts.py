"""Texts of sources: tokens, brackets, comments, and the names that a text binds."""

import re

TOKENS = re.compile(r'(--[^\n]*)|(\s+)|("(?:[^"\\\n]|\\.)*")|([(){};,])|([^\s(){};,"]+)')
KINDS = ("comment", "space", "string", "mark", "word")
HIDDEN = re.compile(r"""//[^\n]*|/\*.*?\*/|b?r(\#*)"(?:.|\n)*?"\1|b?"(?:[^"\\]|\\.|\\\n)*"
    |b?'(?:\\[^\n']+|[^\\'\n])'""", re.S | re.X)
# What binds names without a type in specs.
BINDERS = (r"λ\s+((?:[^\s(){}.,]+\s*)+)\.(?=\s|$)", r"[\[|]\s*((?:[^\s(){}\[\]|↦]+\s+)+)↦", r"\blet\s+([^\s:=]+)")
OPENING, CLOSING = "([{", ")]}"


def tokens_of(text: str):
    """Yields (kind, text) for each token of specs: comment, space, string, mark or word."""
    for found in TOKENS.finditer(text):
        yield KINDS[found.lastindex - 1], found.group()


def masked(text: str) -> str:
    """Rust text with blanks in place of comments, strings and characters in quotes, of the same length."""
    return HIDDEN.sub(lambda found: re.sub(r"[^\n]", " ", found.group()), text)


def turn(sign: str, opening: str = OPENING, closing: str = CLOSING) -> int:
    """1 for an opening bracket, -1 for a closing one, else 0."""
    return (sign in opening) - (sign in closing)


def closing(text: str, at: int) -> int:
    """The place after the bracket that closes the one at `at`, or the end of the text."""
    depth = 0
    for place in range(at, len(text)):
        depth += turn(text[place])
        if depth == 0:
            return place + 1
    return len(text)


def angle_end(text: str) -> int:
    """The place of the `>` that closes the `<` at the beginning of a Rust text, or the end of the text."""
    depth = 0
    for place, sign in enumerate(text):
        depth += (sign == "<") - (sign == ">" and text[place - 1] != "-")
        if depth == 0:
            return place
    return len(text)


def split_top(text: str, angles: bool = True) -> list[str]:
    """The parts of a text between commas outside of all brackets, or outside of `{}` only if `angles` isn't set."""
    parts, depth, begin = [], 0, 0
    for at, sign in enumerate(text):
        depth += turn(sign) if angles else turn(sign, "{", "}")
        if angles:
            depth += (sign == "<") - (sign == ">" and text[at - 1:at] not in ("-", "="))
        if sign == "," and depth == 0:
            parts.append(text[begin:at])
            begin = at + 1
    return parts + [text[begin:]]


def comment_text(lines: list[str]) -> str:
    """The text of comment lines, without their marks."""
    return "\n".join(re.sub(r"^\s*(--|///|//!|//) ?", "", line) for line in lines)


def first_sentence(text: str) -> str:
    """The first sentence of a text, in one line."""
    text = " ".join(text.split())
    found = re.match(r"(.*?[.])(?=\s|$)", text)
    return found.group(1) if found else text


def first_paragraph(text: str) -> str:
    """The first paragraph of a text, in one line."""
    return " ".join(re.split(r"\n\s*\n", text.strip("\n"))[0].split())


def braces(text: str) -> list[tuple[str, str]]:
    """The items of `a, b as c, X.{d, e}`: for each its path, and its name in scope."""
    items = []
    for item in (part.strip() for part in split_top(text, angles=False)):
        inner = re.fullmatch(r"([\w.\-«»]+)\.\{(.*)\}", item, re.S)
        if inner:
            items += [(f"{inner.group(1)}.{path}", name) for path, name in braces(inner.group(2))]
        elif " as " in item:
            path, name = item.split(" as ")
            items.append((path.strip(), name.strip()))
        elif item:
            items.append((item, item))
    return items


# Binders of specs

def binder_groups(text: str) -> list[tuple[list[str], str]]:
    """The groups `(a b : T)` of one argument, each as its names and its type; empty if it is a plain type. A group in
    braces has no names.
    """
    out, rest = [], text.strip()
    while rest and rest[0] in "({":
        end = closing(rest, 0)
        found = re.match(r"([^():{}]+?)\s+:\s(.*)$", rest[1:end - 1], re.S)
        if not found:
            return []
        out.append((found.group(1).split() if rest[0] == "(" else [], found.group(2)))
        rest = rest[end:].strip()
    return [] if rest else out


def split_arguments(text: str) -> list[tuple[list, str]]:
    """The arguments of a signature of specs, and its result last: for each its names, [None] if there is none, and its
    type.
    """
    out, depth, current = [], 0, ""
    for kind, word in [*tokens_of(text), ("word", "→")]:
        if kind == "word" and word == "→" and depth == 0:
            groups = binder_groups(current)
            out += groups or ([([None], current.strip())] if current.strip() else [])
            current = ""
            continue
        depth += kind == "mark" and turn(word)
        current += word
    return out


def all_binders(text: str) -> dict[str, str]:
    """The names that a text of specs binds anywhere, each with the text of its type, empty for λ, ↦ and let."""
    out = {}
    for found in re.finditer(r"[({]\s*((?:[^\s(){}:,;.]+\s+)+):\s+", text):
        depth, at = 0, found.end()
        while at < len(text) and depth >= 0:
            depth += turn(text[at], "({", ")}")
            at += 1
        for name in found.group(1).split():
            out.setdefault(name, text[found.end():at - 1])
    for pattern in BINDERS:
        for names in re.findall(pattern, text):
            for name in names.split():
                out.setdefault(name, "")
    return out


def atoms(text: str) -> list[str]:
    """The patterns of a clause: words, and groups in parentheses."""
    out, depth, current = [], 0, ""
    for kind, word in tokens_of(text):
        if kind == "space" and depth == 0:
            out += [current] if current else []
            current = ""
            continue
        depth += kind == "mark" and turn(word, "(", ")")
        current += word
    return out + ([current] if current else [])
