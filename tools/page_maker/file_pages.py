"""The pages of files: words of specs, items of code, and the code with line numbers."""

import html
import os
import re

from .site import HOME, Page


class FilePages:
    """Makes the pages of each module."""

    def __init__(self, site, blocks):
        self.site, self.blocks, self.prose = site, blocks, blocks.prose

    def make(self, module):
        """Makes the pages of a module."""
        page = Page(module.url)
        (self.rust_page if module.rust else self.spec_page)(page, module)
        if not module.kit:
            self.code_page(module)

    def crumbs(self, module, name: str) -> list:
        """The names on the way to a module's page, each with an address or None."""
        crate = (f"toolchain: {module.crate}", None) if module.kit else (module.crate, f"{module.crate}/index.html")
        return [(HOME, "index.html"), crate, (name, None)]

    def contents(self, page, definitions: list) -> str:
        """Links to the definitions of a page, if there are more than three."""
        if len(definitions) <= 3:
            return ""
        return f'<p class="toc">{" ".join(self.site.anchor(page, one, one.full()) for one in definitions)}</p>'

    def intro(self, page, text: str, scope) -> str:
        """A comment that belongs to no definition, as HTML. A numbered title at its beginning becomes a heading."""
        section = re.match(r"(\d+\. [^.\n]+)\.\s*(.*)", text, re.S)
        if not section:
            return f'<div class="intro">{self.prose.block(page, text, scope)}</div>'
        said = self.prose.block(page, section.group(2), scope)
        said = f'<div class="intro">{said}</div>' if said else ""
        return f"<h2>{self.prose.inline(page, section.group(1), scope)}</h2>{said}"

    def spec_page(self, page, module):
        """Writes the page of a file of specs: its words, with the comments between them."""
        shown = [one for one in module.all if one.url and (one.public or not module.kit)]
        body = [f"<h1>{html.escape(module.name)} <small>words of {module.crate}</small></h1>",
                self.intro(page, module.head, module.scope) if module.head else "", self.contents(page, shown)]
        head = module.head
        for kind, chunk in module.chunks:
            if kind == "prose" and chunk == head:
                head = None
            elif kind == "prose":
                body.append(self.intro(page, chunk, module.scope))
            elif kind == "def" and chunk.url:
                body.append(self.blocks.spec_section(page, chunk))
        self.site.write(page, f"{module.name} · {module.crate}", self.crumbs(module, module.name), "".join(body))

    def rust_page(self, page, module):
        """Writes the page of a file of code: its items, the public ones first."""
        name = module.name + ".rt"
        shown = sorted((one for one in module.all if one.id), key=lambda one: (not one.public, one.line))
        public = [one for one in shown if one.public and one.kind != "ghost"]
        body = [f"<h1>{html.escape(name)} <small>of {module.crate}</small></h1>",
                f'<div class="intro">{self.prose.block(page, module.head, module.scope)}</div>',
                self.contents(page, public)]
        inner = False
        for item in shown:
            if not item.public and not inner:
                body.append("<h2>Inner</h2>")
                inner = True
            shown_with_type = item.kind == "ghost" and item.owner is not None and item.owner.module is module
            if shown_with_type and item.owner.kind != "outer":
                continue
            body.append((self.blocks.function_section if item.kind == "fn" else self.blocks.item_section)(page, item))
        self.site.write(page, f"{name} · {module.crate}", self.crumbs(module, name), "".join(body))

    def code_page(self, module):
        """Writes the page with the text of a file, with line numbers."""
        page, mark = Page(self.site.code_address(module)), "//" if module.rust else "--"
        lines = []
        for number, line in enumerate(module.text.rstrip("\n").split("\n"), 1):
            shown = html.escape(line)
            shown = f'<i class="c">{shown}</i>' if line.strip().startswith(mark) else shown
            lines.append(f'<span id="L{number}"></span>{shown}')
        name = os.path.relpath(module.file, self.site.repository.root)
        crumbs = [(HOME, "index.html"), (module.crate, f"{module.crate}/index.html"), (module.name, module.url),
                  ("code", None)]
        text = "\n".join(lines)
        title = html.escape(name).replace("/", "/<wbr>")
        self.site.write(page, name, crumbs, f'<h1>{title}</h1><pre class="source">{text}</pre>')
