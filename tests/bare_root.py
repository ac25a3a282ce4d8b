"""A root with nothing but a C compiler and what it needs: files of some Debian packages, copied from this system."""

import os
import re
import shutil
import subprocess
from typing import Iterator

PACKAGES = ("gcc", "libc6-dev", "libc-bin", "dash", "coreutils")
# What no program of these packages needs to run
LEFT = re.compile(r"/usr/share/(doc|man|locale|info|lintian|bug|gdb)/|/usr/lib/gcc/.*/(lto|cc1plus|g\+\+)")
MERGED = ("bin", "sbin", "lib", "lib64")
SCRIPT = """
set -e
cd "$1"
mount --rbind /proc proc
mount --rbind /dev dev
exec chroot . /usr/bin/env -i PATH=/usr/sbin:/usr/bin HOME=/tmp LANG=C.UTF-8 sh -c "$2"
"""


def names_in(field: str) -> Iterator[list[str]]:
    """Yields the alternatives of each dependency in a field of a package."""
    for part in filter(None, map(str.strip, field.split(","))):
        yield [re.split(r"[ (:]", name.strip())[0] for name in part.split("|")]


def installed() -> tuple[dict[str, str], dict[str, str]]:
    """What each installed package depends on, and the package that provides each virtual name."""
    form = "${Package}\\t${Pre-Depends}, ${Depends}\\t${Provides}\\n"
    ran = subprocess.run(["dpkg-query", "-W", "-f", form], stdout=subprocess.PIPE, text=True, check=True)
    depends, provided = {}, {}
    for line in ran.stdout.splitlines():
        name, needs, provides = line.split("\t")
        depends[name] = needs
        provided.update({other[0]: name for other in names_in(provides)})
    return depends, provided


def with_needs(names: tuple[str, ...]) -> list[str]:
    """These packages and all that they depend on. Raises KeyError if one isn't installed."""
    depends, provided = installed()
    found: dict[str, None] = {}
    waiting = list(names)
    while waiting:
        name = waiting.pop()
        if name in found:
            continue
        found[name] = None
        for choices in names_in(depends[name]):
            known = [provided.get(other, other) for other in choices]
            waiting += [other for other in known if other in depends][:1]
    return list(found)


def copy_packages(root: str) -> None:
    """Copies the files of the packages into a folder. Raises KeyError if a package isn't installed."""
    words = ["dpkg-query", "-L", *with_needs(PACKAGES)]
    paths = subprocess.run(words, stdout=subprocess.PIPE, text=True, check=True).stdout.splitlines()
    for path in (path for path in paths if path.startswith("/") and not LEFT.match(path)):
        place = os.path.join(os.path.realpath(os.path.dirname(path)), os.path.basename(path))
        target = f"{root}{place}"
        if os.path.lexists(target) or os.path.isdir(path) and not os.path.islink(path) or not os.path.lexists(path):
            continue
        os.makedirs(os.path.dirname(target), exist_ok=True)
        shutil.copy2(path, target, follow_symlinks=False)
    for name in (name for name in MERGED if not os.path.lexists(os.path.join(root, name))):
        os.symlink(f"usr/{name}", os.path.join(root, name))
    for name in ("proc", "dev", "tmp", "etc"):
        os.makedirs(os.path.join(root, name), exist_ok=True)
    # what Debian's alternatives make when gcc is installed
    if not os.path.lexists(os.path.join(root, "usr/bin/cc")):
        os.symlink("gcc", os.path.join(root, "usr/bin/cc"))


class BareRoot:
    """The root in a folder. `lack` states why there is none, or is empty."""

    def __init__(self, folder: str) -> None:
        self.folder, self.lack = folder, ""
        users = [] if os.geteuid() == 0 else ["--user", "--map-root-user"]
        self.unshare = ["unshare", *users, "--mount", "--net", "--fork"]
        try:
            copy_packages(folder)
        except (OSError, KeyError, subprocess.CalledProcessError) as error:
            self.lack = f"the packages of Debian aren't all there: {error}"
            return
        if self.run("true")[0] != 0:
            self.lack = "the system refuses a root"

    def run(self, line: str) -> tuple[int, str]:
        """Runs a line of the shell in the root, and returns its exit status and its output."""
        ran = subprocess.run([*self.unshare, "sh", "-c", SCRIPT, "sh", self.folder, line], stdin=subprocess.DEVNULL,
                             stdout=subprocess.PIPE, stderr=subprocess.STDOUT, text=True, timeout=600, check=False)
        return ran.returncode, ran.stdout
