"""Checks links of the site and of Markdown pages, and the edits that pages name."""

import glob
import html
import os
import re
from urllib.parse import unquote

from harness import TOP, text_of

PAGES = ["README.md", "docs/*.md", "examples/*.md", "examples/*/README.md", "bench/README.md",
         "crates/*/README.md", "finder/README.md", "drivers/README.md", "drivers/*/*.md"]


# Markdown pages

def pages():
    """Yields the paths of the Markdown pages of PAGES, from the top of the repository."""
    for pattern in PAGES:
        yield from sorted(os.path.relpath(path, TOP) for path in glob.glob(os.path.join(TOP, pattern)))


def anchors(text):
    """The anchors of a page's headings."""
    return {re.sub(r"[^\w\- ]", "", re.sub(r"\[([^]]*)\]\([^)]*\)", r"\1", line)).strip().lower().replace(" ", "-")
            for line in re.findall(r"^#+ (.*)$", text, re.M)}


def dead_links(page):
    """Yields the links of a page that lead to no file, or to no heading of a page."""
    text = re.sub(r"^```.*?^```$", "", text_of(page), flags=re.M | re.S)
    for link in re.findall(r"\]\(([^)\s]+)\)", text):
        if "://" in link:
            continue
        path, _, anchor = link.partition("#")
        target = os.path.normpath(os.path.join(os.path.dirname(page), path)) if path else page
        if not os.path.exists(os.path.join(TOP, target)):
            yield link
        elif anchor and target.endswith(".md") and anchor not in anchors(text_of(target)):
            yield link


def edits_named(page):
    """Yields the names of edits on a page: in the columns of tables whose heading begins with `Edit`, and in
    parentheses below `The races` of RACES.md.
    """
    column = None
    if os.path.basename(page) == "RACES.md":
        for names in re.findall(r"\((`\w+_\w+`(?:,\s+`\w+_\w+`)*)\)", text_of(page).partition("## The races")[2]):
            yield from re.findall(r"\w+", names)
    for line in text_of(page).splitlines():
        cells = [cell.strip() for cell in line.strip("|").split("|")] if line.startswith("|") else []
        if not cells:
            column = None
        elif column is None:
            column = next((place for place, cell in enumerate(cells) if cell.startswith("Edit")), -1)
        elif column >= 0:
            yield from re.findall(r"`(\w+_\w+)`", cells[column])


def misplaced(crate, edit):
    """Yields the texts that an edit replaces and that aren't in its file exactly once."""
    lines = text_of(os.path.join("crates", crate, "must-fail", edit)).splitlines()
    words = [line.partition(": ")[::2] for line in lines]
    texts = {path: text_of(os.path.join("crates", crate, path)) for word, path in words if word == "file"}
    path = old = None
    for word, value in words:
        if word == "file":
            path = value
        elif word == "old":
            old = value
            if texts[path].count(old) != 1:
                yield old
        elif word == "new":
            texts[path] = texts[path].replace(old, value)


# The site

class Site:
    """The pages of a site by their paths, with the places that links may lead to."""

    def __init__(self, folder):
        self.folder, self.texts, self.places = folder, {}, {}
        for at, _, names in os.walk(folder):
            for name in names:
                path = os.path.relpath(os.path.join(at, name), folder)
                with open(os.path.join(folder, path), encoding="utf-8") as file:
                    self.texts[path] = file.read()
        for path, text in self.texts.items():
            self.places[path] = {html.unescape(place) for place in re.findall(r'\sid="([^"]*)"', text)}

    def target(self, page, link):
        """The page that a link leads to, and the place on it, an id."""
        path, _, place = html.unescape(link).partition("#")
        path = os.path.normpath(os.path.join(os.path.dirname(page), unquote(path))) if path else page
        return path, unquote(place)

    def links(self, page, text=None):
        """Yields each link of a page, or of a part of it, with its target. Links to other sites are left out."""
        for link in set(re.findall(r'\s(?:href|src)="([^"]*)"', self.texts[page] if text is None else text)):
            if not re.match(r"\w+://", link):
                yield link, self.target(page, link)

    def dead_links(self):
        """The number of links, and those without a target."""
        count, dead = 0, []
        for page in (page for page in self.texts if page.endswith(".html")):
            for link, (path, place) in self.links(page):
                count += 1
                if path not in self.texts or place and place not in self.places[path]:
                    dead.append(f"{page}: {link}")
        return count, dead

    def sections(self, page):
        """Yields the definitions of a page: the place of each, its kind, and the links in its code, without its
        comments.
        """
        parts = re.split(r'<section class="def (\w+)" id="([^"]*)">', self.texts[page])
        for kind, place, text in zip(parts[1::3], parts[2::3], parts[3::3]):
            text = text.partition("</section>")[0]
            code = "".join(re.findall(r'<div class="code">((?:<div[^>]*>.*?</div>)*)</div>', text))
            yield html.unescape(place), kind, [target for _, target in self.links(page, code)]

    def words_below(self, start):
        """The words and types to which links in the code of a definition lead, directly or through words of specs. The
        kit's are left out.
        """
        known, found, waiting = {}, set(), [start]
        while waiting:
            page, place = waiting.pop()
            if page not in known:
                known[page] = {name: (kind, links) for name, kind, links in self.sections(page)}
            for path, name in known[page].get(place, ("", []))[1]:
                if path.startswith("kit/") or (path, name) in found:
                    continue
                if path not in known:
                    known[path] = {place: (kind, links) for place, kind, links in self.sections(path)}
                kind = known[path].get(name, ("", []))[0]
                if kind in ("abbrev", "word", "record", "data", "struct", "enum", "trait", "type"):
                    found.add((path, name))
                    if "/specs/" in path:
                        waiting.append((path, name))
        return found - {start}
