"""Markdown as HTML, for the forms that the pages of this repository use.

These are headings, paragraphs, lists, tables, blocks of code, quotes, and in a line: code, links, pictures, bold and
italic text. Comments are left out.
"""

import html
import re

COMMENT = re.compile(r"<!--.*?-->\n?", re.S)
HEADING = re.compile(r"(#{1,6}) (.*)")
ITEM = re.compile(r"( *)(?:[-*]|(\d+)\.) +(.*)")
# Code, a picture, a link, bold and italic text: the first that begins at a place.
PIECES = re.compile(r"(?P<code>`[^`]+`)|!\[(?P<shown>[^\]]*)\]\((?P<picture>[^)\s]+)\)"
                    r"|\[(?P<text>(?:`[^`]*`|[^\]`])+)\]\((?P<link>[^)\s]+)\)"
                    r"|\*\*(?P<bold>.+?)\*\*|(?<![\w*])\*(?P<italic>[^*\s][^*]*)\*(?!\w)")


def anchor(heading: str) -> str:
    """The anchor of a heading, as GitHub makes it."""
    plain = re.sub(r"\[([^]]*)\]\([^)]*\)", r"\1", heading)
    return re.sub(r"[^\w\- ]", "", plain).strip().lower().replace(" ", "-")


def cells(line: str) -> list[str]:
    """The cells of a row of a table."""
    return [cell.strip().replace("\\|", "|") for cell in re.split(r"(?<!\\)\|", line.strip().strip("|"))]


class Markdown:
    """Makes HTML of a page. `code(text, row)` makes HTML of a text in backticks; `row` is the row of a table that
    contains it, or empty. `link(target, html)` makes HTML of a link.
    """

    def __init__(self, code, link):
        self.code, self.link, self.row = code, link, ""

    def inline(self, text: str) -> str:
        """HTML of a text without blocks: of a paragraph, a heading, a cell or an item."""
        out, at = [], 0
        for found in PIECES.finditer(text):
            out.append(html.escape(text[at:found.start()], False))
            out.append(self.piece(found))
            at = found.end()
        return "".join(out) + html.escape(text[at:], False)

    def piece(self, found) -> str:
        """HTML of code, of a picture, of a link, or of bold or italic text."""
        if found["code"]:
            return self.code(found["code"][1:-1], self.row)
        if found["picture"]:
            return f'<img src="{html.escape(found["picture"], True)}" alt="{html.escape(found["shown"], True)}">'
        if found["link"]:
            shown = re.sub(r"</?a\b[^>]*>", "", self.inline(found["text"]))
            return self.link(found["link"], shown)
        tag = "b" if found["bold"] else "em"
        return f"<{tag}>{self.inline(found['bold'] or found['italic'])}</{tag}>"

    def page(self, text: str) -> str:
        """HTML of a whole page, or of a part of it."""
        lines, out, at = COMMENT.sub("", text).split("\n"), [], 0
        while at < len(lines):
            at = self.block(lines, at, out)
        return "".join(out)

    def block(self, lines: list[str], at: int, out: list[str]) -> int:
        """Appends to `out` the HTML of the block that begins at the line `at`. Returns the number of the line after it,
        from 0.
        """
        line = lines[at]
        if not line.strip():
            return at + 1
        if line.startswith("```"):
            end = next((k for k in range(at + 1, len(lines)) if lines[k].startswith("```")), len(lines))
            out.append(f"<pre>{html.escape(chr(10).join(lines[at + 1:end]), False)}</pre>")
            return end + 1
        heading = HEADING.match(line)
        if heading:
            level, said = len(heading[1]), heading[2]
            out.append(f'<h{level} id="{anchor(said)}">{self.inline(said)}</h{level}>')
            return at + 1
        end = at + 1
        if line.startswith("|"):
            while end < len(lines) and lines[end].startswith("|"):
                end += 1
            out.append(self.table(lines[at:end]))
        elif line.startswith(">"):
            while end < len(lines) and lines[end].startswith(">"):
                end += 1
            quoted = "\n".join(part[1:].strip() for part in lines[at:end])
            out.append(f"<blockquote>{self.page(quoted)}</blockquote>")
        elif ITEM.match(line):
            while end < len(lines) and (lines[end].startswith(" ") or ITEM.match(lines[end])):
                end += 1
            out.append(self.items(lines[at:end]))
        else:
            while end < len(lines) and lines[end].strip() and not re.match(r"#{1,6} |```|\||>|[-*] |\d+\. ",
                                                                           lines[end]):
                end += 1
            out.append(f"<p>{self.inline(' '.join(part.strip() for part in lines[at:end]))}</p>")
        return end

    def table(self, lines: list[str]) -> str:
        """A table, whose first row is its head."""
        rows = []
        for number, line in enumerate(part for part in lines if not re.fullmatch(r"\|[-:| ]+\|", part.strip())):
            mark, self.row = "th" if number == 0 else "td", line
            rows.append(f"<tr>{''.join(f'<{mark}>{self.inline(cell)}</{mark}>' for cell in cells(line))}</tr>")
        self.row = ""
        return f'<div class="wide"><table>{"".join(rows)}</table></div>'

    def items(self, lines: list[str]) -> str:
        """A list, with the lists inside its items."""
        first = ITEM.match(lines[0])
        depth, parts = len(first[1]), []
        for line in lines:
            item = ITEM.match(line)
            if item and len(item[1]) <= depth:
                parts.append([item[3]])
            else:
                parts[-1].append(line)
        body = []
        for part in parts:
            inner = next((k for k, line in enumerate(part) if k and ITEM.match(line)), len(part))
            said = self.inline(" ".join(line.strip() for line in part[:inner]))
            body.append(f"<li>{said}{self.items(part[inner:]) if inner < len(part) else ''}</li>")
        tag = "ol" if first[2] else "ul"
        start = f' start="{first[2]}"' if first[2] not in (None, "1") else ""
        return f"<{tag}{start}>{''.join(body)}</{tag}>"
