"""Plays a release, if possible in an empty root: the sessions of its README, its library, and its Debian package."""

import os
import re
import subprocess
import tarfile
import tempfile

from packing.root import Root

# By a word of a command: the program that the command needs and a release doesn't contain
NEEDS = {"python3": "python3", "tools/races": "python3", "tools/run_chart": "python3",
         "examples/emulators/qemu.py": "qemu-system-x86_64", "cc ": "cc", "pkg-config": "pkg-config"}
FLAGS = "$(pkg-config --cflags --libs nic82540em)"
FIRST = "line 1\n00000080\nline 0\n"
EXPLORER = "$(pkg-config --cflags --libs nic82540em_explore)"
STAGES = "{0}/stages.c {0}/driver.c"
# all schedules of up to two deviations of the test `stages`
EXPLORED = "all schedules of up to 2 deviations, without holds: none of 188947 fails\n...\n"
# records RXT0 by ICS, and reads ICR
PYTHON = "python3 -B -c 'from nic82540em import Nic; n = Nic(); n.write(0xC8, 0x80); print(hex(n.read(0xC0)))'"
CAUSES = "0x80\n"
HERE = "export PKG_CONFIG_PATH=$PWD/lib/pkgconfig"
LIBRARY = [
    (f"{HERE}; cc -o first examples/library/first.c {FLAGS}", ""),
    ("./first", FIRST),
    (f"NIC82540EM_LIB=lib PYTHONPATH=bindings/python {PYTHON}", CAUSES),
    (f"{HERE}; cc -O0 -o stages {STAGES.format('examples/explore')} {EXPLORER}", ""),
    ("./stages right --explore 2", EXPLORED),
    ("./nicbench run --events events examples/reset.scenario . && tools/run_chart examples/reset.scenario events",
     None),
]
PACKAGE = [
    ("nicbench show /usr/share/nicbench/examples/empty.pcap", "frames 0 skipped 0 cut no\n"),
    ("nicbench-races --runs 3 -- python3 -S /usr/share/nicbench/examples/drivers/receive_test.py right", None),
    (f"cc -o first /usr/share/nicbench/examples/library/first.c {FLAGS} && ./first", FIRST),
    (PYTHON, CAUSES),
    (f"cc -O0 -o stages {STAGES.format('/usr/share/nicbench/examples/explore')} {EXPLORER}", ""),
    ("./stages right --explore 2", EXPLORED),
]


class NotPlayed(Exception):
    """A command of the release fails, or its output isn't the expected one."""


def sessions(page):
    """Yields the commands of a page, which are after `$ `, each with the output that the page shows."""
    for block in re.findall(r"^```\n(\$ .*?)^```$", page, re.M | re.S):
        for session in re.split(r"^\$ ", block, flags=re.M)[1:]:
            command, _, output = session.partition("\n")
            yield command, output


def scripts(page):
    """Yields the scripts of a page, each of which must succeed."""
    for block in re.findall(r"^```sh\n(.*?)^```$", page, re.M | re.S):
        yield f"set -e\n{block}", None


def fits(output, shown):
    """Whether this is the output that a page shows. In the page, a line `...` stands for any lines."""
    lines = ["(?:.*\n)*?" if line == "...\n" else re.escape(line) for line in shown.splitlines(keepends=True)]
    return re.fullmatch("".join(lines), output) is not None


def lacks(root, command):
    """Returns a program that a command needs and that isn't there, or None."""
    needed = [program for word, program in NEEDS.items() if word in command]
    return next((program for program in needed if root.run(f"command -v {program}")[0] != 0), None)


def play(root, played, tell):
    """Plays commands, each with the output that it must have, or with None if it must only succeed. Raises NotPlayed at
    the first other result. A command whose program is missing isn't played. Returns how many were played.
    """
    count = 0
    for command, shown in played:
        missing = lacks(root, command)
        if missing:
            tell(f"not played, because there is no {missing}: {command}")
            continue
        status, output = root.run(command)
        if status != 0 and shown is None or shown is not None and not fits(output, shown):
            raise NotPlayed(f"`{command}` ended with status {status}, and printed:\n{output}\nand not:\n{shown}")
        count += 1
    return count


def play_archive(path, tell):
    """Unpacks an archive. Plays the sessions of its README, and commands that use its library. Returns how many
    commands were played, and whether in an empty root.
    """
    with tempfile.TemporaryDirectory() as folder:
        with tarfile.open(path) as archive:
            archive.extractall(folder)
        top = os.path.join(folder, os.listdir(folder)[0])
        with open(os.path.join(top, "README.md")) as file:
            page = file.read()
        root = Root(top)
        return play(root, [("./nicbench --build", ""), *sessions(page), *scripts(page), *LIBRARY], tell), root.is_root


def play_package(path, tell):
    """Plays a Debian package whose files are added to /usr. Returns how many commands were played: 0 if the system
    refuses an empty root.
    """
    with tempfile.TemporaryDirectory() as folder:
        subprocess.run(["dpkg-deb", "-x", path, folder], check=True)
        root = Root(folder, os.path.join(folder, "usr"))
        if not root.is_root:
            tell("the Debian package isn't played, because the system refuses an empty root")
            return 0
        return play(root, PACKAGE, tell)
