"""The pages of statements: a contract that unfolds level by level."""

import html
import re

from .definitions import KINDS
from .site import HOME, NOTATION, Page
from .texts import first_paragraph, first_sentence

# The statements: for each the crate, the call with the contract, and a title.
STATEMENTS = [
    ("wire", "Lan::run", "Frames between hosts"),
    ("wire", "Lan::drain", "What a host still holds"),
    ("driver", "Driver::interrupt", "One interrupt"),
    ("adapter_model", "Adapter::step", "One step of the adapter"),
    ("pcap_bench", "pass", "A trace through the receive filter"),
    ("scenario_bench", "bench", "A scenario"),
    ("adapter_server", "serve", "An adapter that is served"),
]
# Kinds of definitions that don't unfold.
PARTS = ("field", "case", "variant", "ghost", "fn", "const", "outer", "primitive")


class Levels:
    """The words below a call: each at the first row that uses it, at the nearest level."""

    def __init__(self, site, function):
        self.site, self.function = site, function
        self.depth = {function: 0}
        # Definition -> for each of its rows the words that unfold below that row.
        self.below = {}
        level = [function]
        while level:
            level = [word for definition in level for word in self.open(definition)]
        self.count = max(self.depth.values())

    def rows(self, definition) -> list:
        """The tokens of each row of a definition, as its block shows them. Rust items other than the call have no rows.
        """
        if definition is self.function:
            signature, clauses = self.site.linked(definition)
            return [signature] + [tokens for _, _, _, tokens in clauses]
        if definition.module.rust:
            return []
        head, rows = self.site.linked(definition)
        if definition.kind in ("record", "data"):
            return [head] + [tokens for _, tokens in rows]
        return [head + [token for _, _, tokens in rows for token in tokens]]

    def open(self, definition) -> list:
        """Notes the new words below each row of a definition. Returns the new words of all rows."""
        self.below[definition] = []
        for tokens in self.rows(definition):
            here = []
            for _, found, _ in tokens:
                if found is not None and not found.kit and found.kind not in PARTS and found not in self.depth:
                    self.depth[found] = self.depth[definition] + 1
                    here.append(found)
            self.below[definition].append(here)
        return [word for words in self.below[definition] for word in words]


class StatementPages:
    """Makes the pages of statements."""

    def __init__(self, site, blocks):
        self.site, self.repository, self.blocks = site, site.repository, blocks
        self.levels = None

    def call(self, crate: str, target: str):
        """The definition of a call."""
        kin, _, name = target.rpartition("::")
        found = self.repository.rust_names[(crate, kin or name)][0]
        return found.members[name] if kin else found

    def make(self, crate: str, target: str, title: str) -> tuple:
        """Writes the page of a call. Returns its address, the call's definition, the title, and the number of words
        below the call.
        """
        function, page = self.call(crate, target), Page(f"statement/{target.replace('::', '-')}.html")
        self.levels = Levels(self.site, function)
        words = [word for word in self.levels.depth if word is not function]
        page.jump = {word: f"w{number}" for number, word in enumerate(words)}
        scope = function.scope
        sentence = self.blocks.prose.inline(page, first_paragraph(function.comment), scope, function.owner)
        rest = function.comment.strip("\n").partition("\n\n")[2]
        rows = self.blocks.function_rows(page, function, rest, self.opener(page, function))
        body = (f"<h1>{html.escape(target)} <small>{html.escape(title)}</small></h1>"
                f'<p class="sentence">{sentence}</p><p class="facts">Below is the contract that the prover has checked '
                f'(<a href="{page.relative(NOTATION)}">notation</a>). A line with ▸ opens the definition of a word. '
                "Point at a name to read its first sentence; click on it to open it here. The contract uses "
                f"{len(words)} definitions, in up to {self.levels.count} levels.</p>"
                f'<section class="def fn">{rows}</section>')
        self.site.write(page, target, [(HOME, "index.html"), ("statements", None), (target, None)], body)
        return page.url, function, title, len(words)

    def opener(self, page, definition):
        """Returns a function that is called for one row of a definition after the other. It makes what is below the
        row: the words that `Levels.below` has for the row.
        """
        turns = iter(self.levels.below[definition])
        return lambda tokens: "".join(self.word(page, word) for word in next(turns, []))

    def word(self, page, word) -> str:
        """A word that unfolds."""
        prose, site = self.blocks.prose, self.site
        short = first_sentence(word.comment)
        said = prose.inline(page, short, word.module.scope, word) if short else KINDS.get(word.kind, word.kind)
        said = re.sub(r"</?a\b[^>]*>", "", said)
        where = site.anchor(page, word, f"{word.crate} · {word.module.name}", " at")
        if word.module.rust:
            inside = self.blocks.type_rows(page, word, ids=False)
        else:
            inside = self.blocks.spec_rows(page, word, self.opener(page, word), ids=False)
        opened = " open" if self.levels.depth[word] == 1 and not word.module.rust else ""
        return (f'<details class="open" id="{page.jump[word]}"{opened}><summary><code>{html.escape(word.name)}</code> '
                f'<span class="short">{said}</span> {where}</summary><div class="box">{inside}</div></details>')
