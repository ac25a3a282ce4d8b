"""Runs the sessions, the drivers and the code that pages and the help of `nicbench serve` show."""

import os
import re
import shutil
import subprocess

from harness import TOP
from server import LIMIT, lines



def follow(text, shown):
    """Whether a text is the shown text. There, `...` at the end of a line means any text up to the line that is shown
    next.
    """
    first, *pieces = shown.split("...\n")
    at = len(first) if text.startswith(first) else len(text) + 1
    for piece in pieces[:-1]:
        found = text.find(piece, at)
        at = len(text) + 1 if found < 0 else found + len(piece)
    return at <= len(text) and (text[at:].endswith(pieces[-1]) if pieces else text == first)


def read_page(*names):
    """The text of a page of the repository."""
    with open(os.path.join(TOP, *names)) as file:
        return file.read()


def commands(server):
    """The commands of drivers and sessions on three pages print the output below them, and succeed."""
    shown = []
    for names in (("examples", "drivers", "README.md"), ("docs", "SERVE.md"), ("README.md",)):
        shown += re.findall(r"^```\n\$ ((?:python3|printf) [^\n]*)\n(.*?)^```$", read_page(*names), re.M | re.S)
    words = ["python3"] * 4 + ["printf"] * 2
    server.check("commands: these are shown", [command.split()[0] for command, _ in shown], words)
    for command, wanted in shown:
        command = command.replace(".build/nicbench", server.program).replace("./nicbench", server.program)
        ran = subprocess.run(command, shell=True, cwd=TOP, capture_output=True, timeout=10 * LIMIT)
        got = ran.stdout.decode()
        server.check(f"commands: {command}", (follow(got, wanted), ran.returncode, ran.stderr), (True, 0, b""))


# The sessions with an answer next to each request: the page, the first word of each session, and the column of the
# answers
SESSIONS = [
    (("crates", "adapter_server", "README.md"), ["readl"], 30),
    (("docs", "REQUESTS.md"), ["memset", "writel", "line", "outl"], 48)]


def columns(server):
    """The server answers the requests in two pages as the pages show next to them. `...` at the end of a line means any
    text.
    """
    for names, firsts, width in SESSIONS:
        blocks = re.findall(r"^```\n(.*?)^```$", read_page(*names), re.M | re.S)
        server.check(f"columns: {names[-1]}: its sessions", [block.split()[0] for block in blocks], firsts)
        for block in blocks:
            rows = [(row[:width].strip(), row[width:]) for row in block.splitlines()]
            server.check(f"columns: {names[-1]} has some for {rows[0]}", len(rows) > 5, True)
            status, out, errors = server.serve(lines(request for request, _ in rows if request))
            shown = "".join(f"{told}\n" for _, told in rows)
            server.check(f"columns: {names[-1]}: {rows[0]}", (status, follow(out.decode(), shown), errors),
                         (0, True, b""))


def prints(server, name, words, printed):
    """Compiles a driver of examples/drivers, and checks what it prints."""
    built = subprocess.run(words, cwd=server.folder, capture_output=True)
    server.check(f"page: the driver in {name} is compiled", (built.returncode, built.stderr), (0, b""))
    ran = subprocess.run([server.path("page"), server.program], cwd=server.folder, capture_output=True, timeout=LIMIT)
    server.check(f"page: what the driver in {name} prints", (ran.returncode, ran.stdout, ran.stderr),
                 (0, printed.encode(), b""))


def page(server):
    """The drivers pipe.c and pipe.rs print the output in docs/SERVE.md. Without a compiler for Rust, a line reports
    this."""
    printed = re.search(r"^\$ \./first \.build/nicbench\n(.*?)^```$", read_page("docs", "SERVE.md"), re.M | re.S)[1]
    code = {name: os.path.join(TOP, "examples", "drivers", f"pipe.{name}") for name in ("c", "rs")}
    cc = next((path for path in map(shutil.which, ["cc", "clang", "gcc"]) if path), None)
    server.check("page: a C compiler is here", cc is not None, True)
    if cc:
        options = ["-std=c99", "-D_POSIX_C_SOURCE=200809L", "-Wall", "-Wextra", "-Werror"]
        prints(server, "C", [cc, *options, "-o", "page", code["c"]], printed)
    if shutil.which("rustc") is None:
        print("not played, because there is no rustc: the driver in Rust of docs/SERVE.md")
        return
    prints(server, "Rust", ["rustc", "--edition", "2021", "-D", "warnings", "-o", "page", code["rs"]], printed)


def shown_in_help(server):
    """The example in the help prints the answers in the help."""
    text = server.run("serve", "--help").stderr.decode()
    found = re.search(r"^  \$ (.*) \| nicbench serve\n((?:  .*\n)+)", text, re.M)
    server.check("help: there is an example", found is not None, True)
    if found:
        ran = subprocess.run(f"{found[1]} | {server.program} serve", shell=True, capture_output=True, timeout=LIMIT)
        server.check("help: its example", ran.stdout.decode(), re.sub(r"^  ", "", found[2], flags=re.M))


def all_cases(server):
    for part in [commands, columns, page, shown_in_help]:
        part(server)
