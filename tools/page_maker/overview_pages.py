"""The pages that lead to others: the first page, the pages of crates, the index of names, and the notation."""

import html
import json
import re

from .definitions import KINDS
from .doc_pages import BEGIN, FIRST, LIMITS, READ
from .notation import read_notation, table_rows
from .site import HOME, NOTATION, Page
from .texts import first_paragraph, first_sentence

# The example of a page of a run, and texts of the first page
RACE = "docs/race.html"
BEGIN_TEXT = ('<p>In <a href="docs/STABLE.html#releases">a release</a>, no toolchain is needed, and the command below'
              " takes less than a minute.</p>")
RACE_TEXT = (f'This is <a href="{RACE}">the page</a> that the command above stores: click on a step, or press the'
             " arrow keys. It begins at the step that loses frame 1.")


def one_line(tokens: list) -> list:
    """The tokens of a signature in one line."""
    text = "".join(text for text, _, _ in tokens)
    if "\n" not in text:
        return tokens
    out = [(re.sub(r"\s*\n\s*", " ", text), found, kind) for text, found, kind in tokens]
    return [(text.replace("( ", "(").replace(", )", ")"), found, kind) for text, found, kind in out]


def plain_markdown(text: str) -> str:
    """A text of a Markdown page as HTML, without its links."""
    text = re.sub(r"\[([^\]]*)\]\([^)]*\)", r"\1", text)
    return re.sub(r"`([^`]+)`", r"<code>\1</code>", html.escape(text, False))


class OverviewPages:
    """Makes these pages."""

    def __init__(self, site, blocks):
        self.site, self.repository, self.prose = site, site.repository, blocks.prose

    # A crate

    def mine(self, crate: str) -> list:
        """The modules of a crate."""
        return [module for module in self.repository.own() if module.crate == crate]

    def crate_page(self, crate: str):
        """Writes the page of a crate: its purpose, its calls, its words and its files."""
        page, lib = Page(f"{crate}/index.html"), self.repository.lib(crate)
        said = self.prose.block(page, lib.head, lib.scope) if lib else ""
        body = [f'<h1>{crate}</h1><div class="intro">{said}</div>']
        uses = self.repository.uses_of(crate)
        users = [name for name in self.repository.crates if crate in self.repository.uses_of(name)]
        body.append(f'<p class="facts">Uses {self.crate_links(page, uses)}.<br>'
                    f'Used by {self.crate_links(page, users)}. <a href="README.html">README</a></p>')
        body += [self.calls(page, crate), self.words(page, crate), self.files(page, crate)]
        self.site.write(page, crate, [(HOME, "index.html"), (crate, None)], "".join(body))

    def crate_links(self, page, crates: list) -> str:
        """The names of crates as links."""
        return ", ".join(f'<a href="{page.relative(f"{name}/index.html")}">{name}</a>' for name in crates) or "no crate"

    def calls(self, page, crate: str) -> str:
        """The public types and functions of a crate, with the names of the clauses of each call."""
        items = [one for module in self.mine(crate) if module.rust for one in module.all if one.public and one.url]
        types = sorted((one for one in items if one.kind in ("struct", "enum", "trait")), key=lambda one: one.name)
        functions = [one for one in items if one.kind == "fn" and one.owner is None]
        out = []
        for item in types:
            methods = [one for one in item.members.values() if one.kind == "fn" and one.public and one.url]
            own = self.call_list(page, [one for one in methods if not one.impl_of])
            others = ", ".join(self.site.anchor(page, one, one.name) for one in methods if one.impl_of)
            others = f'<p class="facts others">Of traits: <code>{others}</code></p>' if others else ""
            said = self.prose.inline(page, first_sentence(item.comment), item.scope, item)
            name = self.site.anchor(page, item, item.name)
            out.append(f'<div class="type"><p><b>{name}</b> {said}</p>{own}{others}</div>')
        if functions:
            out.append(f'<div class="type"><p><b>Functions</b></p>{self.call_list(page, functions)}</div>')
        return f"<h2>Calls</h2>{''.join(out)}" if out else ""

    def call_list(self, page, functions: list) -> str:
        """Calls, each with its signature, its first sentence and the names of its clauses."""
        rows = []
        for one in functions:
            clauses = " ".join(f'<span class="{keyword}">{html.escape(name or keyword)}</span>'
                               for keyword, name, _, _ in one.clauses)
            said = self.prose.inline(page, first_sentence(one.comment), one.scope, one.owner)
            name = self.site.anchor(page, one, one.name)
            signature = self.site.code(page, one_line(self.site.linked(one)[0]))
            rows.append(f'<dt>{name}</dt><dd>{signature}{said} <span class="clauses">{clauses}</span></dd>')
        return f'<dl class="calls">{"".join(rows)}</dl>' if rows else ""

    def words(self, page, crate: str) -> str:
        """The public words that a crate defines, by file."""
        out = []
        for module in sorted((one for one in self.mine(crate) if not one.rust and one.all), key=lambda one: one.path):
            said = self.prose.inline(page, first_sentence(module.head), module.scope)
            rows = "".join(
                f"<dt>{self.site.anchor(page, one, one.name)}</dt>"
                f"<dd>{self.prose.inline(page, first_sentence(one.comment), module.scope, one)}</dd>"
                for one in module.all if one.public)
            name = f'<a href="{page.relative(module.url)}">{html.escape(module.name)}</a>'
            out.append(f'<details class="words"><summary>{name} {said}</summary><dl>{rows}</dl></details>')
        return f"<h2>Words</h2>{''.join(out)}" if out else ""

    def files(self, page, crate: str) -> str:
        """Links to the code of the files of a crate."""
        links = ""
        for module in self.mine(crate):
            name = html.escape(f'{module.path.split(".", 2)[1]}/{module.name}')
            links += f'<a href="{page.relative(self.site.code_address(module))}">{name}</a> '
        return f'<h2>Code</h2><p class="toc">{links}</p>'

    # The first page

    def first_page(self, statements: list, docs):
        """Writes the first page: how to begin, a race to step through, the pages, the statements, what isn't proved,
        and the crates by layer. A statement is an address, a call, a title and a number of definitions.
        """
        page = Page("index.html")
        first, begin = docs.part(page, FIRST, "\n\n"), docs.part(page, BEGIN)
        read = docs.part(page, READ, "\n\n")
        body = [f'<h1>nicbench</h1><div class="sentence">{first}</div>',
                f'<h2 id="begin">Begin here: test a driver</h2><div class="page">{BEGIN_TEXT}{begin}</div>',
                f'<h2 id="race">A race, step by step</h2><p class="intro">{RACE_TEXT}</p>',
                f'<iframe class="race" src="{RACE}" title="A race, step by step" loading="lazy"></iframe>',
                f'<h2 id="read">What to read</h2><div class="page">{read}</div>',
                f'<p class="toc">{self.page_links(page, docs)}</p>',
                '<h2 id="proved">What is proved</h2><p class="intro">Every function is proved. Each word of a contract'
                " is a link to its definition.</p>", '<div class="cards">']
        for url, function, title, count in statements:
            plain = re.sub(r"\[([^\]]*)\](\([^)]*\))?", r"\1", first_paragraph(function.comment))
            said = re.sub(r"`([^`]*)`", r"<code>\1</code>", html.escape(plain))
            body.append(f'<a class="card" href="{url}"><b>{html.escape(title)}</b><p>{said}</p>'
                        f"<small>{html.escape(function.full())} · {count} definitions</small></a>")
        limits = f'<div class="intro page">{docs.part(page, LIMITS)}</div>'
        body.append(f"</div><h2>What isn't proved</h2>{limits}<h2>Crates</h2>")
        for layer, crates in self.repository.layers:
            body.append(f"<h3>{html.escape(layer)}</h3>" if layer else "")
            body.append('<dl class="crates">')
            for crate in crates:
                lib = self.repository.lib(crate)
                said = self.prose.inline(page, first_sentence(lib.head), lib.scope) if lib else ""
                body.append(f'<dt><a href="{crate}/index.html">{crate}</a></dt><dd>{said}</dd>')
            body.append("</dl>")
        self.site.write(page, HOME, [(HOME, None)], "".join(body))

    def page_links(self, page, docs) -> str:
        """Links to README, to the pages of docs, and to the list of pages."""
        shown = [path for path in docs.paths if path.startswith("docs/") or path == "README.md"]
        links = [f'<a href="{page.relative(docs.target(path))}">{path.removeprefix("docs/").removesuffix(".md")}</a>'
                 for path in shown]
        return " ".join(links + ['<a href="pages.html">all pages</a>'])

    # Notation and names

    def notation_page(self):
        """Writes the page of the notation of contracts, from docs/CONTRACTS.md."""
        page, body = Page(NOTATION), ["<h1>Notation</h1>"]
        for block in read_notation(self.repository.root).split("\n\n"):
            text = plain_markdown(block)
            if not block.startswith("|"):
                body.append(f'<p class="intro">{text}</p>')
                continue
            lines = "".join(f"<tr><td>{'</td><td>'.join(row)}</td></tr>" for row in table_rows(text))
            body.append(f"<table>{lines}</table>")
        self.site.write(page, "Notation", [(HOME, "index.html"), ("notation", None)], "".join(body))

    def names_page(self, docs):
        """Writes the index of names, and the file in which the search looks: names, and headings and rows of the pages
        in `docs`.
        """
        rows = []
        for module in self.repository.own():
            rows += [(one.full(), KINDS.get(one.kind, one.kind), one.crate, one.url) for one in module.all
                     if one.url and one.public and one.kind not in ("outer", "ghost")]
        rows.sort(key=lambda row: (row[0].lower(), row))
        page = Page("names.html")
        items = "".join(f'<li><a href="{url}">{html.escape(name)}</a> <small>{kind}, {crate}</small></li>'
                        for name, kind, crate, url in rows)
        body = f'<h1>Names</h1><ul class="names">{items}</ul>'
        self.site.write(page, "Names", [(HOME, "index.html"), ("names", None)], body)
        names = json.dumps(rows + docs.sections(), ensure_ascii=False, separators=(",", ":"))
        self.site.store("names.js", f"found({names});\n")
        texts = json.dumps(docs.paragraphs(), ensure_ascii=False, separators=(",", ":"))
        self.site.store("texts.js", f"foundTexts({texts});\n")
