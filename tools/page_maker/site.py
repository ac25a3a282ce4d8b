"""The site: addresses of definitions, links, lines of code, and files."""

import html
import os
import re
import shutil
from urllib.parse import quote

from .contract_links import ContractLinker
from .definitions import KINDS, PARTS_OF_TYPES
from .edits import made_twice, read_edits, target
from .notation import meanings, read_notation
from .texts import first_sentence

HERE = os.path.dirname(os.path.abspath(__file__))
HOME = "nicbench"
# The page that explains the notation of contracts.
NOTATION = "notation.html"
KEYWORDS = re.compile(r"record|where|abbrev|pub|data|let|in|elim|unfolding|unfoldable|if|then|else")
# Kinds of definitions of the kit that have a place only if something uses them.
HIDDEN_UNUSED = ("word", "fn", "const", "ghost", "type")
# The most characters of a title that a link shows.
TITLE = 180


class Page:
    """A page while it is made: its address, the words that open in place on it, and names that aren't links on it."""

    def __init__(self, url: str):
        self.url, self.jump, self.skip = url, {}, set()

    def relative(self, url: str) -> str:
        """An address of the site, from this page."""
        path, _, place = url.partition("#")
        return f"#{place}" if path == self.url and place else "../" * self.url.count("/") + url


class Site:
    """All pages. `linked` makes the tokens of each definition once."""

    def __init__(self, repository, out: str):
        self.repository, self.out = repository, out
        self.linker = ContractLinker(repository)
        self.tokens, self.titles, self.pages = {}, {}, 0
        self.meanings = meanings(read_notation(repository.root))
        self.edits = read_edits(repository.root, repository.crates)
        # Definition -> its edits, each with the name of a clause or an empty text.
        self.edits_of = {}
        for edit in self.edits:
            for call, clause in edit.calls():
                found = target(repository, edit.crate, call)
                if found is not None:
                    self.edits_of.setdefault(found, []).append((edit, clause))
        self.twice_of = made_twice(repository)

    # Links of definitions

    def linked(self, definition):
        """The linked text of a definition: see `ContractLinker`."""
        if definition not in self.tokens:
            linker = self.linker
            if not definition.module.rust:
                found = linker.definition(definition)
            elif definition.kind == "fn":
                found = linker.function(definition)
            else:
                found = linker.ghost(definition) if definition.kind == "ghost" else None
            self.tokens[definition] = found
        return self.tokens[definition]

    def link_all(self):
        """Links the repository's words of specs, functions and ghost members. Sets the addresses of all that the site
        shows.
        """
        for module in self.repository.own():
            for definition in module.all:
                if not module.rust or definition.kind in ("fn", "ghost"):
                    self.linked(definition)
        for module in self.shown():
            self.assign(module)

    def shown(self) -> list:
        """The modules that have a page: those of the repository, and those of the kit that it uses."""
        def is_used(module):
            return any(one.used or any(member.used for member in one.members.values()) for one in module.all)
        known = [module for module in self.repository.modules.values() if module is not None]
        return [module for module in known if not module.kit or is_used(module)]

    def address(self, module) -> str:
        """The address of a module's page."""
        _, folder, part = module.path.split(".", 2)
        return f"{'kit/' if module.kit else ''}{module.crate}/{folder}/{part.replace('.', '/')}.html"

    def code_address(self, module) -> str:
        """The address of the page with a module's text."""
        return f"{module.crate}/code/{self.address(module).split('/', 1)[1]}"

    def assign(self, module):
        """Sets the address of a module's page, and those of its definitions. A definition of the kit that nothing uses
        has no address if its kind is in HIDDEN_UNUSED.
        """
        taken = set()
        module.url = self.address(module)
        for definition in module.all:
            if definition.kind == "outer" or module.kit and definition.kind in HIDDEN_UNUSED and not definition.used:
                continue
            name = definition.name if definition.owner is None else f"{definition.owner.name}.{definition.name}"
            while name in taken:
                name += "+"
            taken.add(name)
            definition.id, definition.url = name, f"{module.url}#{quote(name)}"
            for member in definition.members.values():
                if member.kind in PARTS_OF_TYPES and member.module is module:
                    member.id = f"{name}.{member.name}"
                    member.url = f"{module.url}#{quote(member.id)}"

    # Pieces of HTML

    def title(self, definition) -> str:
        """What a link to a definition shows when the pointer is on it."""
        if definition not in self.titles:
            text = first_sentence(definition.comment) or f"{KINDS.get(definition.kind, '')} of {definition.crate}"
            text = re.sub(r"[\[\]`]|\]\([^)]*\)", "", text)[:TITLE]
            is_word = definition.owner is None or definition.kind == "case"
            if definition.kit and is_word and not (definition.module and definition.module.rust):
                text = self.meanings.get(definition.name.strip("◌"), text)
            self.titles[definition] = html.escape(text, True)
        return self.titles[definition]

    def anchor(self, page: Page, definition, text: str, css: str = "") -> str:
        """A text as a link to a definition; plain if the definition has no address."""
        if definition.url is None:
            shown = html.escape(text)
            return f'<i title="{self.title(definition)}">{shown}</i>' if definition.kind == "primitive" else shown
        kind = "w"
        if definition.kit:
            kind = "x"
        elif definition.kind in ("field", "ghost", "case", "variant"):
            kind = definition.kind[0] if definition.kind != "ghost" else "f"
        jump = page.jump.get(definition) if not css else None
        more = f' data-w="{jump}"' if jump else ""
        return (f'<a class="{kind}{css}"{more} href="{page.relative(definition.url)}" '
                f'title="{self.title(definition)}">{html.escape(text)}</a>')

    def piece(self, page: Page, text: str, definition, kind: str) -> str:
        """A token as HTML."""
        if definition is not None:
            return self.anchor(page, definition, text)
        shown = html.escape(text)
        if kind == "comment":
            return f'<i class="c">{shown}</i>'
        if kind == "own":
            return f"<b>{shown}</b>"
        if kind in ("keyword", "string"):
            return f'<b class="{kind[0]}">{shown}</b>'
        return f'<b class="k">{shown}</b>' if kind == "builtin" and KEYWORDS.fullmatch(text) else shown

    def code(self, page: Page, tokens: list) -> str:
        """Lines of code, each with its indent, so that a long line wraps inside it."""
        lines = [[]]
        for text, definition, kind in tokens:
            for number, part in enumerate(text.split("\n")):
                if number:
                    lines.append([])
                if part:
                    lines[-1].append((part, definition, kind))
        return f'<div class="code">{"".join(self.line(page, line) for line in lines)}</div>'

    def line(self, page: Page, line: list) -> str:
        """A line of code."""
        plain = "".join(text for text, _, _ in line)
        indent = blank = len(plain) - len(plain.lstrip())
        body = []
        for text, definition, kind in line:
            cut = min(blank, len(text) - len(text.lstrip()))
            blank = blank - cut if cut == len(text) else 0
            if cut < len(text):
                body.append(self.piece(page, text[cut:], definition, kind))
        style = f' style="--i:{indent}"' if indent else ""
        return f"<div{style}>{''.join(body) or ' '}</div>"

    # Files

    def write(self, page: Page, title: str, crumbs: list, body: str):
        """Writes a page. `crumbs`: the names on the way to it, each with an address or None."""
        up = "../" * page.url.count("/")
        names = [(html.escape(name), url) for name, url in crumbs]
        trail = " <span>›</span> ".join(
            f'<a href="{page.relative(url)}">{name}</a>' if url else f"<b>{name}</b>" for name, url in names)
        self.store(page.url, (
            '<!doctype html>\n<html lang="en"><head><meta charset="utf-8">'
            '<meta name="viewport" content="width=device-width, initial-scale=1">'
            f'<title>{html.escape(title)}</title><link rel="stylesheet" href="{up}style.css">'
            f'<script src="{up}search.js" defer></script></head>\n<body data-up="{up}"><header><nav>{trail}</nav>'
            f'<a class="all" href="{page.relative(NOTATION)}">Notation</a>'
            f'<a class="all" href="{page.relative("names.html")}">All names</a></header>\n'
            f"<main>{body}</main></body></html>\n"))
        self.pages += 1

    def store(self, url: str, text: str):
        """Writes a file of the site."""
        path = os.path.join(self.out, url)
        os.makedirs(os.path.dirname(path), exist_ok=True)
        with open(path, "w", encoding="utf-8") as file:
            file.write(text)

    def copy(self, name: str):
        """Copies a file from the folder of this script to the site."""
        shutil.copyfile(os.path.join(HERE, name), os.path.join(self.out, name))
