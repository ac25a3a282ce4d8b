"""The command line of tools/pages."""

import argparse
import os
import shutil
import subprocess
import sys

import sources
from .blocks import Blocks
from .doc_pages import DocPages
from .file_pages import FilePages
from .overview_pages import OverviewPages
from .repository import Repository
from .site import Site
from .statement_pages import STATEMENTS, StatementPages

TOP = os.path.dirname(os.path.dirname(os.path.dirname(os.path.realpath(__file__))))
DEFAULT = os.path.join(TOP, ".build", "pages")
# The file by which a folder is known as one that this script has made.
MARK = ".made-by-tools-pages"


def kit_folder() -> str:
    """The folder of the toolchain to which `rt`, or the command that RT names, belongs; empty if there is none."""
    rt = shutil.which(os.environ.get("RT", "rt"))
    if rt is None:
        return ""
    try:
        done = subprocess.run([rt, "doc"], capture_output=True, text=True, timeout=20, check=False)
    except (OSError, subprocess.TimeoutExpired):
        return ""
    folder = os.path.dirname(done.stdout.strip())
    return folder if os.path.isdir(os.path.join(folder, "rattle")) else ""


def make_site(out: str, kit: str) -> Site:
    """Makes the site in the folder `out`, and returns it. `kit` is the toolchain's folder, or empty for a site without
    the toolchain's sources.
    """
    repository = Repository(TOP, kit)
    site = Site(repository, out)
    site.link_all()
    blocks = Blocks(site)
    files, overview, statements = FilePages(site, blocks), OverviewPages(site, blocks), StatementPages(site, blocks)
    docs = DocPages(site, blocks)
    for module in site.shown():
        files.make(module)
    for crate in repository.crates:
        overview.crate_page(crate)
    docs.make()
    overview.first_page([statements.make(*statement) for statement in STATEMENTS], docs)
    overview.names_page(docs)
    overview.notation_page()
    for name in ("style.css", "search.js"):
        site.copy(name)
    site.store(MARK, "")
    return site


def clear(out: str):
    """Makes an empty folder. If the folder contains the file MARK, removes all that is in the folder. If it contains
    only other files, ends with an error.
    """
    if os.path.isdir(out) and os.listdir(out) and not os.path.isfile(os.path.join(out, MARK)):
        sys.exit(f"tools/pages: {out} isn't empty and contains no site; name another folder")
    shutil.rmtree(out, ignore_errors=True)
    os.makedirs(out)


def arguments() -> argparse.Namespace:
    """Reads the arguments of the command line, and returns them."""
    parser = argparse.ArgumentParser(
        prog="tools/pages", description="Makes a site from the sources, or the generated parts of pages.")
    parser.add_argument("--version", action="version", version=f"%(prog)s {sources.version()}")
    parser.add_argument("folder", nargs="?", default=DEFAULT, help="the site's folder, by default .build/pages")
    parser.add_argument("--kit", help="the toolchain's folder; by default that of `rt` on the PATH; empty for none")
    parser.add_argument("--tables", action="store_true", help="write the generated parts of committed pages instead")
    parser.add_argument("--check", action="store_true", help="with --tables: only name the parts that differ")
    return parser.parse_args()


def main() -> int:
    """Makes the site, or writes or checks the generated parts of files. Returns the exit status."""
    chosen = arguments()
    if chosen.tables or chosen.check:
        from .tables import write_tables
        return write_tables(Repository(TOP), chosen.check)
    out = os.path.abspath(chosen.folder)
    clear(out)
    site = make_site(out, kit_folder() if chosen.kit is None else chosen.kit)
    print(f"{site.pages} pages: {os.path.join(out, 'index.html')}")
    return 0
