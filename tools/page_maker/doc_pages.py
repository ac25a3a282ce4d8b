"""The Markdown pages of the repository as pages of the site, with links between them and to words."""

import glob
import html
import os
import re
import shutil

from .markdown import COMMENT, HEADING, Markdown, anchor, cells
from .site import HOME, Page
from .texts import first_sentence

# The pages, by their places in the repository.
PATTERNS = ["README.md", "CHANGELOG.md", "docs/*.md", "crates/*/README.md", "examples/*.md", "examples/*/README.md",
            "bench/README.md", "finder/README.md", "machines/README.md", "drivers/README.md",
            "drivers/*/*.md"]
EDITS = "docs/EDITS.md"
# What the first page shows of README: the first paragraph, and from the paragraphs that begin in these ways to the ends
# of their sections.
FIRST, BEGIN, READ, LIMITS = ("nicbench is a test bench", "[RACES](docs/RACES.md#test-your-own-driver", "| To | Read |",
                              "The proofs hold only")
# A table of contents is on each page with at least this many headings.
MOST_WITHOUT_CONTENTS = 6
# Pages of HTML, which are copied to the site
COPIED = "docs/*.html"
# The search finds a heading or the first cell of a row only if it has at most this many characters.
LONGEST_FOUND = 60
# What the search leaves out of a text: the addresses of links, and marks
MARKS = re.compile(r"\]\([^)\s]*\)|[`*|\[]")
HEADINGS = re.compile(r'<h([23]) id="([^"]*)">(.*?)</h[23]>')


def address(path: str) -> str:
    """The address of a Markdown page: a crate's page is in its folder."""
    return re.sub(r"^crates/", "", path).removesuffix(".md") + ".html"


class DocPages:
    """Makes a page of the site from each Markdown page."""

    def __init__(self, site, blocks):
        self.site, self.repository, self.prose = site, site.repository, blocks.prose
        root = self.repository.root
        self.paths = [path for pattern in PATTERNS
                      for path in sorted(os.path.relpath(one, root) for one in glob.glob(os.path.join(root, pattern)))]
        self.texts = {path: self.read(path) for path in self.paths}
        self.copied = sorted(os.path.relpath(one, root) for one in glob.glob(os.path.join(root, COPIED)))
        self.modules = {os.path.relpath(one.file, root): one for one in self.repository.own()}

    def read(self, path: str) -> str:
        """The text of a page."""
        with open(os.path.join(self.repository.root, path), encoding="utf-8") as file:
            return file.read()

    # Links

    def target(self, path: str) -> str:
        """The address of what a link to a file or a folder leads to; empty if it isn't on the site."""
        if path in self.texts:
            return address(path)
        if path in self.copied:
            return path
        inside = os.path.join(path, "README.md")
        if re.fullmatch(r"crates/\w+", path) and path.split("/")[1] in self.repository.crates:
            return f"{path.split('/')[1]}/index.html"
        if inside in self.texts:
            return address(inside)
        module = self.modules.get(path)
        return module.url if module is not None else ""

    def link(self, page, path: str, target: str, shown: str) -> str:
        """A link of a page at a path; plain text if it leads to a file that isn't on the site."""
        if "://" in target:
            return f'<a href="{html.escape(target, True)}">{shown}</a>'
        file, _, place = target.partition("#")
        file = os.path.normpath(os.path.join(os.path.dirname(path), file)) if file else path
        url = self.target(file)
        if not url:
            return f'<span title="{html.escape(file, True)} in the repository">{shown}</span>'
        return f'<a href="{page.relative(url + (f"#{place}" if place else ""))}">{shown}</a>'

    def word(self, text: str, crate: str):
        """The definition that a name in backticks means, or None. `Type::name` means a member of the type. Another name
        means a definition of the page's crate or below it, or else the only public definition or variant of all crates.
        """
        name = text.rstrip("()").replace(".", "::") if re.fullmatch(r"[A-Z]\w*\.\w+", text) else text.rstrip("()")
        if not re.fullmatch(r"[\w:]+", name) or not (re.search(r"[a-z]", name) and re.search(r"[A-Z_]", name)):
            return None
        if "::" in name:
            return self.prose.member_named(name)
        found = self.prose.only_one(name, crate) if crate else None
        if found is None:
            known = [one for one in self.repository.by_name.get(name, []) if one.url and not one.kit]
            for every in ([one for one in known if one.public and one.owner is None],
                          [one for one in known if one.kind == "variant"]):
                found = every[0] if found is None and len(every) == 1 else found
        return found

    def file(self, text: str):
        """The file of a crate that a text names, such as `driver/src/init.rt`, `driver/specs/Looks` or `driver/Looks`,
        or None.
        """
        crate, _, rest = text.partition("/")
        found = [self.modules.get(f"crates/{crate}/{path}") for path in (rest, f"{rest}.antt", f"specs/{rest}.antt")]
        return next((module for module in found if module is not None), None) if rest else None

    def word_in_row(self, text: str, row: str):
        """The word that a name means in a row of a table that also names its file, or None."""
        for path in re.findall(r"`(\w+/[\w/.]+)`", row):
            module = self.file(path)
            if module is not None and text in module.defs:
                return module.defs[text]
        return None

    def code(self, page, text: str, crate: str, row: str = "") -> str:
        """A text in backticks: a link if it is the name of a word, a call, a crate or a file of a crate."""
        file = self.file(text)
        url = f"{text}/index.html" if text in self.repository.crates else file.url if file is not None else ""
        if url:
            return f'<a href="{page.relative(url)}"><code>{html.escape(text)}</code></a>'
        found = self.word_in_row(text, row) or self.word(text, crate)
        if found is not None and found.url and not found.kit:
            return f"<code>{self.site.anchor(page, found, text)}</code>"
        return f"<code>{html.escape(text, False)}</code>"

    def html_of(self, page, path: str, text: str) -> str:
        """HTML of a page, or of a part of it."""
        crate = path.split("/")[1] if path.startswith("crates/") else ""
        return Markdown(lambda said, row: self.code(page, said, crate, row),
                        lambda target, shown: self.link(page, path, target, shown)).page(text)

    # Pages

    def sections(self) -> list[tuple[str, str, str, str]]:
        """What the search finds in pages: headings, and the first cells of rows.

        For each, its text, its kind (section or row), and the page. The last part is the address of the heading, or of
        the last one above the row.
        """
        rows = {}
        for path in self.paths:
            url, name = address(path), path.removesuffix(".md")
            for line in re.sub(r"^```.*?^```$", "", COMMENT.sub("", self.texts[path]), flags=re.M | re.S).split("\n"):
                heading = HEADING.match(line)
                if heading:
                    url = f"{address(path)}#{anchor(heading[2])}"
                said = heading[2] if heading else cells(line)[0] if line.startswith("|") else ""
                said = re.sub(r"\[([^\]]*)\]\([^)]*\)|[`*]", r"\1", said)
                if re.search(r"\w", said) and len(said) <= LONGEST_FOUND:
                    rows.setdefault((said, name), (said, "section" if heading else "row", name, url))
        return list(rows.values())

    def title(self, path: str) -> str:
        """The first heading `#` of a page, or the page's path if it has none."""
        found = re.search(r"^# (.*)$", self.texts[path], re.M)
        return re.sub(r"`", "", found[1]) if found else path

    def make(self):
        """Makes all pages, and the list of them."""
        for path in self.paths:
            page = Page(address(path))
            shown = self.with_contents(self.html_of(page, path, self.texts[path]))
            body = f'<article class="page">{shown}</article>'
            body = re.sub(r'<img src="(?!\w+:)', self.picture(page, path), body)
            crumbs = [(HOME, "index.html")]
            if path.startswith("crates/"):
                crumbs.append((path.split("/")[1], f"{path.split('/')[1]}/index.html"))
            else:
                crumbs.append(("pages", "pages.html"))
            self.site.write(page, self.title(path), crumbs + [(os.path.basename(path), None)], body)
        for path in self.copied:
            os.makedirs(os.path.join(self.site.out, os.path.dirname(path)), exist_ok=True)
            shutil.copyfile(os.path.join(self.repository.root, path), os.path.join(self.site.out, path))
        self.list_page()

    def with_contents(self, shown: str) -> str:
        """A page with a table of contents below its title, if the page is long."""
        found = HEADINGS.findall(shown)
        if len(found) < MOST_WITHOUT_CONTENTS:
            return shown
        items = "".join(f'<li class="l{level}"><a href="#{place}">{re.sub("</?a[^>]*>", "", said)}</a></li>'
                        for level, place, said in found)
        contents = f'<details class="contents" open><summary>Contents</summary><ul>{items}</ul></details>'
        head, end, rest = shown.partition("</h1>")
        return head + end + contents + rest if end else contents + shown

    def picture(self, page, path: str) -> str:
        """Copies the pictures of a page to the site. Returns the beginning of a picture's tag, with the way from the
        page to their folder.
        """
        folder = os.path.dirname(path)
        for name in re.findall(r"!\[[^\]]*\]\(([^)\s]+)\)", self.texts[path]):
            source = os.path.normpath(os.path.join(folder, name))
            target = os.path.join(self.site.out, source)
            os.makedirs(os.path.dirname(target), exist_ok=True)
            shutil.copyfile(os.path.join(self.repository.root, source), target)
        return f'<img src="{page.relative(folder + "/" if folder else "")}'

    def list_page(self):
        """Writes the list of all pages but those of crates, each with its heading and its first sentence."""
        page, rows = Page("pages.html"), []
        for path in (path for path in self.paths if not path.startswith("crates/")):
            rest = re.sub(r"^```.*?^```$", "", COMMENT.sub("", self.texts[path]), flags=re.M | re.S)
            rest = re.sub(r"^#.*$", "", rest, flags=re.M)
            said = next((block for block in re.split(r"\n\s*\n", rest.strip()) if re.match(r"[\w`[]", block)), "")
            said = first_sentence(re.sub(r"\[([^\]]+)\]\([^)]*\)", r"\1", said))
            rows.append(f'<dt><a href="{address(path)}">{path.removesuffix(".md")}</a></dt>'
                        f"<dd><b>{html.escape(self.title(path))}</b>: {self.html_of(page, path, said)[3:-4]}</dd>")
        self.site.write(page, "Pages", [(HOME, "index.html"), ("pages", None)],
                        f'<h1>Pages</h1><dl class="crates">{"".join(rows)}</dl>')

    def part(self, page, begin: str, end: str = "\n## ") -> str:
        """README from one text to another one: by default, to the end of the section."""
        text = self.texts["README.md"]
        return self.html_of(page, "README.md", text[text.index(begin):].partition(end)[0])

    def paragraphs(self) -> list[tuple[str, str, str]]:
        """The texts in which the search looks: for each section of a page, its address, the page, and its words."""
        rows = []
        for path in self.paths:
            url, lines, is_code = address(path), [], False
            for line in [*COMMENT.sub("", self.texts[path]).split("\n"), "# "]:
                is_code ^= line.startswith("```")
                heading = None if is_code else HEADING.match(line)
                if not heading:
                    lines.append(line)
                    continue
                text = " ".join(MARKS.sub(" ", "\n".join(lines)).split())
                if text:
                    rows.append((url, path.removesuffix(".md"), text))
                lines, url = [heading[2]], f"{address(path)}#{anchor(heading[2])}"
        return rows


def edits_link(page, heading: str, shown: str) -> str:
    """A link to a section of the page about edits."""
    return f'<a href="{page.relative(f"{address(EDITS)}#{anchor(heading)}")}">{shown}</a>'
