"""Writes C sources and their private headers as one file.

Names of a file's own (static functions and variables, enumerators, tags) may be those of another file. In the one file,
such a name gets the file's name in front. Macros of a source are undefined after it.
"""

import os
import re

TOKEN = re.compile(r"//[^\n]*|/\*.*?\*/|\"(?:\\.|[^\"\\\n])*\"|'(?:\\.|[^'\\\n])*'|\w+|->|\s+|.", re.S)
NAME = re.compile(r"[A-Za-z_]\w*")
SYSTEM = re.compile(r"^#include (<.*>)\n", re.M)
OWN = re.compile(r'^#include "(.*)"\n', re.M)
MACRO = re.compile(r"^[ \t]*#[ \t]*define[ \t]+(\w+)", re.M)
FEATURE = re.compile(r"^#define _GNU_SOURCE\n", re.M)


def is_blank(token):
    return token.isspace() or token.startswith(("//", "/*"))


def tokens_of(text):
    """The tokens of a text, with blanks and comments. A directive is one token."""
    found = []
    for line in re.split(r"(^[ \t]*#(?:[^\n]*\\\n)*[^\n]*\n)", text, flags=re.M):
        found += [line] if line.lstrip(" \t").startswith("#") else TOKEN.findall(line)
    return found


class Names:
    """The names of a source's own: `ordinary` ones, and the `tags` of structures, unions and enumerations."""

    def __init__(self, text):
        self.ordinary, self.tags, self.declaration = set(), set(), []
        depth = 0
        for token in (it for it in tokens_of(text) if not is_blank(it) and not it.lstrip().startswith("#")):
            self.declaration.append(token)
            depth += token in ("{", "(", "[")
            depth -= token in ("}", ")", "]")
            is_body = depth == 0 and token == "}" and ")" in self.declaration[:self.declaration.index("{")]
            if depth == 0 and (token == ";" or is_body):
                self.read(self.declaration)
                self.declaration = []

    def read(self, declaration):
        """Reads a declaration at the top of a file, or a function."""
        before, depth, value, within = "", 0, False, []
        for token, after in zip(declaration, [*declaration[1:], ""]):
            if before in ("struct", "union", "enum") and after == "{" and depth == 0:
                self.tags.add(token)
            if within == ["enum"] and before in ("{", ",") and NAME.fullmatch(token):
                self.ordinary.add(token)
            if declaration[0] == "static" and depth == 0 and not value and NAME.fullmatch(token):
                if after in ("(", "[", "=", ",", ";") and before not in ("struct", "enum", "union"):
                    self.ordinary.add(token)
                    if after == "(":
                        return
            if token == "{":
                within.append("enum" if "enum" in (before, declaration[max(0, declaration.index(token) - 2)]) else "")
            if token == "}" and within:
                within.pop()
            depth += token in ("{", "(", "[")
            depth -= token in ("}", ")", "]")
            if depth == 0:
                value = token == "=" or (value and token != ",")
            before = token


def renamed(text, ordinary, tags):
    """The text with other names, by the old ones. A member of a structure keeps its name."""
    found, before, structures, opens = [], "", [], False
    for token in tokens_of(text):
        if is_blank(token):
            found.append(token)
            continue
        if token.lstrip().startswith("#"):
            found.append(re.sub(r"\w+", lambda word: ordinary.get(word[0], word[0]), token))
            continue
        is_tag = before in ("struct", "union", "enum")
        in_structure = bool(structures) and structures[-1] == "members"
        if is_tag and token in tags:
            found.append(tags[token])
        elif token in ordinary and not is_tag and before not in (".", "->") and not in_structure:
            found.append(ordinary[token])
        else:
            found.append(token)
        if token in ("struct", "union"):
            opens = True
        elif token == "{":
            structures.append("members" if opens else "")
            opens = False
        elif token == "[":
            structures.append("")  # the number of an array's elements isn't a member
        elif token in ("}", "]") and structures:
            structures.pop()
        elif not is_tag:
            opens = False
        before = token
    return "".join(found)


def read(path):
    with open(path, encoding="utf-8") as file:
        return file.read()


def without_guard(text):
    """The text of a header without its guard: it is in the file once."""
    return re.sub(r"^#ifndef \w+_H\n#define \w+_H\n(.*)^#endif\n\Z", r"\1", text, flags=re.M | re.S)


def always(text):
    """The beginning of a text, up to its first condition: what is included there is included always."""
    return re.split(r"^#if", text, 1, flags=re.M)[0]


def in_order(headers):
    """The headers by their names, each after those that it includes."""
    order = []

    def add(name):
        for other in OWN.findall(headers[name]):
            if other in headers:
                add(other)
        if name not in order:
            order.append(name)

    for name in headers:
        add(name)
    return order


def strip(text):
    """A text without what it always includes."""
    head = always(text)
    return (OWN.sub("", SYSTEM.sub("", head)) + text[len(head):]).strip("\n")


def one_file(folder, names, public, about):
    """Sources of a folder as one text. The headers `public` are included, other headers of the folder are in the text.
    `about` is the comment at its top.
    """
    texts = {name: FEATURE.sub("", read(os.path.join(folder, name))) for name in names}
    headers = {name: without_guard(read(os.path.join(folder, name))) for name in sorted(os.listdir(folder))
               if name.endswith(".h") and name not in public}
    every = [*texts.values(), *headers.values()]
    known = sorted({name for text in every for name in SYSTEM.findall(always(text))})
    own = {name: Names(text) for name, text in texts.items()}
    parts = [f"/* {about} */", "#define _GNU_SOURCE", "\n".join(f'#include "{name}"' for name in public),
             "\n".join(f"#include {name}" for name in known)]
    parts += [f"/* ==== {name} ==== */\n\n{strip(headers[name])}" for name in in_order(headers)]
    for name, text in texts.items():
        maps = []
        for kind in ("ordinary", "tags"):
            others = {it for other in own if other != name for it in getattr(own[other], kind)}
            shared = sorted(getattr(own[name], kind) & others)
            maps.append({it: f"{os.path.splitext(name)[0]}_{it}" for it in shared})
        macros = "".join(f"#undef {macro}\n" for macro in dict.fromkeys(MACRO.findall(text)))
        parts.append(f"/* ==== {name} ==== */\n\n{strip(renamed(text, *maps))}\n\n{macros}".rstrip("\n"))
    return "\n\n".join(parts) + "\n"
