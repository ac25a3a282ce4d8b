"""The texts of clauses, cut at signs and brackets."""

import re


def cut(text, sign):
    """The pieces of a text between these signs that are outside brackets."""
    pieces, depth = [""], 0
    for part in re.split(rf"([(){{}}\[\]⟦⟧]|{re.escape(sign)})", text):
        depth += (part in "({[⟦" and part != "") - (part in ")}]⟧" and part != "")
        if part == sign and depth == 0:
            pieces.append("")
        else:
            pieces[-1] += part
    return [piece.strip() for piece in pieces]


def words_of(text):
    """The arguments of an application: words, or texts in brackets with what follows them."""
    words, depth = [], 0
    for part in re.findall(r"[(\[{⟦]|[)\]}⟧]|\s+|[^\s()\[\]{}⟦⟧]+", text):
        if depth == 0 and part.isspace():
            words.append("")
            continue
        depth += part in "([{⟦"
        depth -= part in ")]}⟧"
        words = words or [""]
        words[-1] += part
    return [word for word in words if word]


def bare(text):
    """The text without brackets around all of it."""
    text = text.strip()
    while text.startswith("(") and end_of(text) == len(text) - 1:
        text = text[1:-1].strip()
    return text


def end_of(text):
    """The place of the bracket that closes the one at the beginning."""
    depth = 0
    for place, sign in enumerate(text):
        depth += (sign in "([{⟦") - (sign in ")]}⟧")
        if depth == 0:
            return place
    return -1


def inner_of(text):
    """The applications in a text: the text itself, and each text in round brackets."""
    found, opened = [text], []
    for place, sign in enumerate(text):
        if sign == "(":
            opened.append(place + 1)
        elif sign == ")" and opened:
            found.append(text[opened.pop():place])
    return found
