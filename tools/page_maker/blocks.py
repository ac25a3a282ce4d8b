"""Blocks of pages: a definition with its comment on the left, and its text on the right."""

import html
import re
from urllib.parse import quote

from .definitions import KINDS
from .doc_pages import edits_link
from .prose import Prose

GHOSTS = {"Value": "What it is in contracts.", "view": "How its fields give this value.",
          "invariant": "What holds before and after each public call."}
LEFT_OUT = ("pub", "abbrev", "unfoldable", "record", "data")


def bare(tokens: list, definition) -> list:
    """Tokens without the words that the page shows by its layout, and with the definition's name in bold."""
    begin = 0
    while begin < len(tokens) and (tokens[begin][0] in LEFT_OUT or not tokens[begin][0].strip()):
        begin += 1
    out = tokens[begin:]

    def is_own(number, text, found):
        """Whether a token is the definition's own name."""
        return found is definition or not number and text == definition.name
    return [(text, None, "own") if is_own(number, text, found) else (text, found, kind)
            for number, (text, found, kind) in enumerate(out)]


def bare_rust(tokens: list, definition) -> list:
    """Tokens of Rust with the definition's name in bold, and doc comments without their marks."""
    return [(text, None, "own") if found is definition else (re.sub("^/// ?", "", text), found, kind)
            for text, found, kind in tokens]


def dedent(tokens: list) -> list:
    """Tokens without the indent that all lines after the first have in common. Four blanks of it remain, unless a line
    begins with `)`.
    """
    lines = "".join(text for text, _, _ in tokens).split("\n")[1:]
    least = min((len(line) - len(line.lstrip()) for line in lines if line.strip()), default=0)
    keep = 0 if any(re.match(r"\s*\)", line) for line in lines) else 4
    if least <= keep:
        return tokens
    return [(re.sub(r"\n {%d}" % (least - keep), "\n", text), found, kind) for text, found, kind in tokens]


def row(left: str, right: str, css: str = "", identity: str = "", below: str = "") -> str:
    """A comment next to its text; `below` spans both columns."""
    place = f' id="{html.escape(identity, True)}"' if identity else ""
    below = f'<div class="below">{below}</div>' if below else ""
    return f'<div class="row{css}"{place}><div class="say">{left}</div><div class="show">{right}</div>{below}</div>'


def nothing_below(_tokens: list) -> str:
    """What pages without unfolding show below a row: an empty text."""
    return ""


class Blocks:
    """Makes blocks. A method's argument `after` is a function: `after(tokens)` is what the page shows below a row with
    these tokens.
    """

    def __init__(self, site):
        self.site, self.prose = site, Prose(site)

    # Heads

    def users(self, page, definition) -> str:
        """The definitions that use a definition, as a list of links that unfolds; empty if there are none."""
        users = [user for user in definition.used if user.url and user is not definition]
        users.sort(key=lambda user: (user.crate != definition.crate, user.crate, user.name))
        if not users:
            return ""

        def link(user):
            crate = f" <small>{user.crate}</small>" if user.crate != definition.crate else ""
            return self.site.anchor(page, user, user.full()) + crate
        shown = ", ".join(link(user) for user in users)
        return f'<details class="users"><summary>used by {len(users)}</summary><p>{shown}</p></details>'

    def source_link(self, page, definition) -> str:
        """A link to the line of a definition in its file. For the toolchain, a text with the crate and the line."""
        if definition.kit:
            return f'<span class="at">toolchain: {definition.crate}, line {definition.line}</span>'
        url = f"{self.site.code_address(definition.module)}#L{definition.line}"
        return f'<a class="at" href="{page.relative(url)}">line {definition.line}</a>'

    def heading(self, page, definition, kind: str) -> str:
        """The head of a block: the name of a definition, its kind, its users and its line."""
        name = f'<a href="#{quote(definition.id)}">{html.escape(definition.full())}</a>'
        return (f'<div class="head"><h3>{name}</h3><em>{kind}</em><span class="gap"></span>'
                f"{self.users(page, definition)}{self.source_link(page, definition)}</div>")

    def section(self, page, definition, kind: str, rows: str) -> str:
        """A block with its head."""
        return (f'<section class="def {definition.kind}" id="{html.escape(definition.id, True)}">'
                f"{self.heading(page, definition, kind)}{rows}</section>")

    # Words of specs

    def spec_rows(self, page, definition, after=nothing_below, ids: bool = True) -> str:
        """The rows of a word of specs."""
        scope, code, prose = definition.module.scope, self.site.code, self.prose
        head, rows = self.site.linked(definition)
        said = prose.block(page, definition.comment, scope, definition)
        if definition.kind in ("record", "data"):
            out = [row(said, code(page, bare(head, definition)), " top", below=after(head))]
            for member, tokens in rows:
                out.append(row(prose.block(page, member.comment, scope, definition), code(page, bare(tokens, member)),
                               " field", member.id if ids and member.id else "", after(tokens)))
            return "".join(out)
        body = [code(page, bare(head, definition))]
        for _, comment, tokens in rows:
            note = prose.block(page, comment, scope, definition)
            body += [f'<div class="note">{note}</div>'] if comment else []
            body.append(code(page, bare(tokens, definition)))
        whole = head + [token for _, _, tokens in rows for token in tokens]
        return row(said, "".join(body), " top", below=after(whole))

    def spec_section(self, page, definition) -> str:
        """The block of a word of specs."""
        return self.section(page, definition, KINDS[definition.kind], self.spec_rows(page, definition))

    # Functions

    def function_rows(self, page, function, comment: str, after=nothing_below) -> str:
        """The rows of a function: a comment next to its signature, and its clauses with their headings and edits. After
        them are the edits that fit no clause, and the functions that prove its outcome."""
        signature, clauses = self.site.linked(function)
        page.skip = set(re.findall(r"(\w+)\s*:", function.text)) | {"self", "result", "true", "false"}
        said = self.prose.block(page, comment, function.scope, function.owner)
        out = [row(said, self.site.code(page, dedent(signature)), " top", below=after(signature))]
        edits = self.site.edits_of.get(function, [])
        ensured = [name for keyword, name, _, _ in clauses if keyword == "ensures"]
        placed = []
        for number, (keyword, name, _, tokens) in enumerate(clauses):
            if number in function.headings:
                above = self.prose.inline(page, function.headings[number], function.scope, function.owner)
                out.append(f'<p class="over">{above}</p>')
            label = f'<p class="clause"><b class="{keyword}">{keyword}</b> {html.escape(name)}</p>'
            only = keyword == "ensures" and len(ensured) == 1
            here = [edit for edit, clause in edits if keyword == "ensures" and clause == (name or keyword) or only]
            placed += here
            out.append(row(label, self.site.code(page, dedent(tokens)), " field clause",
                           below=after(tokens) + self.edit_list(page, function, here, "Tested")))
        page.skip = set()
        others = [edit for edit, _ in edits if edit not in placed]
        out.append(self.edit_list(page, function, others, "Also tested" if placed else "The contract is tested"))
        return "".join(out) + self.outcome(page, function)

    def outcome(self, page, function) -> str:
        """A line with the functions that make a call twice, and so prove that its contract determines its outcome. It
        is an empty text if no function does.
        """
        links = [f'<a href="{page.relative(one.url)}"><code>{one.crate}::{html.escape(one.name)}</code></a>'
                 for one in self.site.twice_of.get(function, [])]
        shown = edits_link(page, "A contract that determines the outcome",
                           "What two calls from equal states have in common")
        return f'<p class="outcome">{shown}: {", ".join(links)}.</p>' if links else ""

    def function_section(self, page, function) -> str:
        """The block of a function."""
        kind = "" if function.public else "inner"
        if function.impl_of:
            of = re.sub(r"<.*?> ?", "", function.impl_of.split(" for ")[0].replace("impl", "").strip())
            kind = f"of the trait {html.escape(of)}"
        return self.section(page, function, kind, self.function_rows(page, function, function.comment))

    def edit_list(self, page, definition, edits: list, tested: str = "The contract is tested") -> str:
        """The edits of a contract, or of a clause, that the prover rejects."""
        if not edits:
            return ""
        rows = "".join(self.edit_row(page, definition, edit) for edit in edits)
        many = "s" if len(edits) > 1 else ""
        link = edits_link(page, "What a rejection shows", f"{len(edits)} edit{many} that the prover rejects")
        return f'<div class="edits"><p>{tested} by {link}:</p>{rows}</div>'

    def edit_row(self, page, definition, edit) -> str:
        """The rule of an edit; its changes unfold."""
        diff, last = "", ""
        for file, old, new in edit.changes:
            diff += f'<div class="file">{html.escape(file)}</div>' if file != last else ""
            for css, sign, text in (("old", "-", old), ("new", "+", new)):
                diff += f'<div class="{css}">{sign} {html.escape(text.strip())}</div>'
            last = file
        rule = re.sub(r"\[([^\]]*)\]\([^)]*\)", r"\1", edit.rule)
        said = self.prose.inline(page, rule, definition.scope or definition.module.scope)
        return (f"<details><summary>{said} <small><code>{edit.crate}/{edit.name}</code></small></summary>"
                f'<div class="diff">{diff}</div></details>')

    # Types and constants

    def type_rows(self, page, item, ids: bool = True) -> str:
        """The rows of a Rust type: its head, and its fields or variants. If `ids` isn't set, a trait has rows for its
        members.
        """
        scope, linker = item.scope or item.module.scope, self.site.linker

        def code(definition):
            return self.site.code(page, bare_rust(linker.rust(definition.text, definition), definition))
        out = row(self.prose.block(page, item.comment, scope, item), code(item), " top")
        for member in item.members.values():
            if member.kind in ("field", "variant"):
                out += row(self.prose.block(page, member.comment, scope, item), code(member), " field",
                           member.id if ids and member.id else "")
        return out if ids or item.kind != "trait" else out + self.trait_rows(page, item)

    def trait_rows(self, page, item) -> str:
        """The ghost members and the functions of a trait: what each means, and its type or its signature."""
        out = ""
        for member in item.members.values():
            if member.kind in ("ghost", "fn") and member.module is item.module:
                linked = self.site.linked(member)
                said = self.prose.block(page, member.comment, member.scope or item.module.scope, item)
                out += row(said, self.site.code(page, dedent(linked if member.kind == "ghost" else linked[0])),
                           " field")
        return out

    def item_section(self, page, item) -> str:
        """The block of a type, a constant or a ghost member."""
        scope = item.scope or item.module.scope
        if item.kind in ("const", "type", "ghost"):
            tokens = self.site.linked(item) if item.kind == "ghost" else self.site.linker.rust(item.text, item)
            rows = row(self.prose.block(page, item.comment, scope), self.site.code(page, dedent(tokens)), " top")
        else:
            rows = self.type_rows(page, item)
            for ghost in item.module.all:
                if ghost.kind == "ghost" and ghost.owner is item:
                    said = self.prose.block(page, ghost.comment or GHOSTS.get(ghost.name, ""), scope, item)
                    rows += row(said, self.site.code(page, dedent(self.site.linked(ghost))), " field", ghost.id)
            rows += self.edit_list(page, item, [edit for edit, _ in self.site.edits_of.get(item, [])])
        return self.section(page, item, KINDS.get(item.kind, item.kind), rows)
