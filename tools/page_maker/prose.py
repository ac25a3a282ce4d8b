"""Comments as HTML, with the names in them as links."""

import html
import re

from .definitions import SPEC_KINDS
from .texts import all_binders

NAME = re.compile(r"[\w:◌.\-']+")
NUMBER = re.compile(r"[\d.]+|0x\w+")
PIECES = re.compile(r"(\[`?[^\]`]+`?\]\([^)\s]+\)|`[^`]+`)")
LINK = re.compile(r"\[(`?[^\]`]+`?)\]\(([^)\s]+)\)")


class Prose:
    """Makes HTML of comments."""

    def __init__(self, site):
        self.site, self.repository, self.binder_cache = site, site.repository, {}

    # What a name in backticks means

    def binders(self, definition) -> set:
        """The names that a word of specs binds."""
        if definition not in self.binder_cache:
            found = set(all_binders(definition.text))
            for _, _, text in definition.parts:
                found |= set(re.findall(r"[^\s()]+", text.partition(" =")[0])[1:])
            scope = definition.module.scope
            self.binder_cache[definition] = {
                name for name in found if not name[:1].isupper() or not self.repository.lookup(scope, name)[1]}
        return self.binder_cache[definition]

    def named(self, word: str, page, scope, owner):
        """The definition that a name in backticks means, or None."""
        if not NAME.fullmatch(word) or word in page.skip or NUMBER.fullmatch(word):
            return None
        if "::" in word:
            return self.member_named(word)
        if owner is not None:
            if word in owner.members:
                return owner.members[word]
            if owner.kind in SPEC_KINDS and word in self.binders(owner):
                return None
            if owner.owner is not None and word in owner.owner.members:
                return owner.owner.members[word]
        if scope is not None:
            found = self.repository.lookup(scope, word)[0]
            if found is None and scope.module.rust:
                found = self.repository.rust_name(scope.module, word)
            if found is not None:
                return found
        return self.only_one(word, scope.module.crate if scope is not None else "")

    def member_named(self, word: str):
        """The definition that `Type::name` means, or None."""
        kin, _, name = word.rpartition("::")
        for definition in self.repository.by_name.get(kin.split("::")[-1], []):
            if definition.module.rust and name in definition.members:
                return definition.members[name]
        return None

    def only_one(self, word: str, crate: str):
        """The only public definition of a name in a crate, or else in the crate and those below it; or None. If there
        are several, fields, cases, variants and ghosts don't count. A name without a capital first letter or `_` means
        only a word of specs of the crate itself.
        """
        telling = word[0].isupper() or "_" in word
        found = [one for one in self.repository.by_name.get(word, [])
                 if one.url and one.public and one.crate in self.repository.below(crate)
                 and (one.kind in SPEC_KINDS or telling) and (one.crate == crate or telling)]
        near = [one for one in found if one.crate == crate]
        for chosen in (near, found):
            words = [one for one in chosen if one.kind not in ("field", "case", "variant", "ghost")]
            for group in (chosen, words):
                if len(group) == 1:
                    return group[0]
        return None

    # HTML

    def code_words(self, text: str, page, scope, owner) -> str:
        """A text in backticks: each name in it that has a meaning is a link."""
        out = []
        for word in re.split(r"(\s+|[()]+)", text):
            found = self.named(word, page, scope, owner) if word.strip(" ()") else None
            out.append(self.site.anchor(page, found, word) if found is not None and found.url else html.escape(word))
        return f"<code>{''.join(out)}</code>"

    def piece(self, part: str, page, scope, owner) -> str:
        """HTML of a link, of a text in backticks, or of another text."""
        link = LINK.fullmatch(part)
        if link:
            shown = link.group(1).strip("`")
            found = self.named(link.group(2), page, scope, owner)
            return f"<code>{html.escape(shown) if found is None else self.site.anchor(page, found, shown)}</code>"
        if len(part) > 2 and part[0] == part[-1] == "`":
            return self.code_words(part[1:-1], page, scope, owner)
        return html.escape(part)

    def inline(self, page, text: str, scope, owner=None) -> str:
        """Prose in one paragraph."""
        text = re.sub(r"\[(`[^`\]]+`)\](?!\()", r"\1", text)
        return "".join(self.piece(part, page, scope, owner) for part in PIECES.split(text))

    def block(self, page, text: str, scope, owner=None) -> str:
        """Prose of several paragraphs: also headings, lists, tables and code."""
        out = []
        for block in re.split(r"\n\s*\n", text.strip("\n")) if text.strip() else ():
            lines = block.split("\n")
            if lines[0].startswith("#"):
                out.append(f'<p class="run">{html.escape(lines[0].lstrip("# "))}</p>')
                lines = lines[1:]
            if lines and lines[0].startswith("```"):
                shown = "\n".join(line for line in lines if not line.startswith("```"))
                out.append(f"<pre>{html.escape(shown)}</pre>")
            elif lines and lines[0].startswith("|"):
                out.append(self.table(page, lines, scope, owner))
            elif lines:
                for paragraph in paragraphs(lines):
                    css = ' class="item"' if paragraph.startswith("•") else ""
                    out.append(f"<p{css}>{self.inline(page, paragraph.lstrip('•'), scope, owner)}</p>")
        return "".join(out)

    def table(self, page, lines: list, scope, owner) -> str:
        """A table of a comment."""
        rows = []
        for number, line in enumerate(line for line in lines if not re.fullmatch(r"\|[-| ]+\|", line.strip())):
            mark = "th" if number == 0 else "td"
            cells = [self.inline(page, cell.strip(), scope, owner) for cell in line.strip().strip("|").split("|")]
            rows.append("<tr>" + "".join(f"<{mark}>{cell}</{mark}>" for cell in cells) + "</tr>")
        return f"<table>{''.join(rows)}</table>"


def paragraphs(lines: list) -> list[str]:
    """The paragraphs of a block: an item of a list is one that begins with •."""
    out = [[]]
    for line in lines:
        item = re.match(r"\s*(?:[-*] |  \d+\. )", line)
        if item:
            numbered = line[item.end() - 2] == "."
            out.append(["•" + line[item.end() - (3 if numbered else 0):]])
        elif out[-1] and out[-1][0].startswith("•") and not line.startswith(" "):
            out.append([line.strip()])
        else:
            out[-1].append(line.strip())
    return [" ".join(part) for part in out if part]
