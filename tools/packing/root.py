"""Runs commands in an empty root: it has little more than /usr, /proc, /dev, an empty /tmp, and a folder at /release.

This needs namespaces. If the system refuses them, commands run in the folder itself. In both cases, the environment
contains only PATH, HOME and LANG. In a root, there is no network.
"""

import os
import subprocess
import tempfile

SCRIPT = """
set -e
root=$1 folder=$2 usr=$3
shift 3
mount -t tmpfs none "$root"
cd "$root"
mkdir usr proc dev tmp etc release
for name in bin sbin lib lib64; do ln -s usr/$name $name; done
if [ "$usr" ]; then mount -t overlay -o "lowerdir=$usr:/usr" none usr; else mount --rbind /usr usr; fi
# the C compiler is a link into this folder
if [ -d /etc/alternatives ]; then mkdir etc/alternatives; mount --bind /etc/alternatives etc/alternatives; fi
mount --rbind /proc proc
mount --rbind /dev dev
mount --bind "$folder" release
exec chroot . /usr/bin/env -i PATH=/usr/bin:/bin HOME=/tmp LANG=C.UTF-8 sh -c 'cd /release && exec sh -c "$1"' sh "$1"
"""
HOW = {"stdin": subprocess.DEVNULL, "stdout": subprocess.PIPE, "stderr": subprocess.STDOUT, "text": True}


class Root:
    """An empty root with a folder at /release. If `usr` names a folder, its files are added to those of /usr."""

    def __init__(self, folder, usr=""):
        self.folder, self.usr = folder, usr
        users = [] if os.geteuid() == 0 else ["--user", "--map-root-user"]
        self.unshare = ["unshare", *users, "--mount", "--net", "--fork"]
        try:
            self.is_root = self.run_in_root("python3 -c 0").returncode == 0
        except OSError:
            self.is_root = False

    def run_in_root(self, command):
        with tempfile.TemporaryDirectory() as place:
            words = [*self.unshare, "sh", "-c", SCRIPT, "sh", place, self.folder, self.usr, command]
            return subprocess.run(words, **HOW)

    def run(self, command):
        """Runs a line of the shell, and returns its exit status and its output."""
        if self.is_root:
            ran = self.run_in_root(command)
        else:
            env = {"PATH": "/usr/bin:/bin", "HOME": self.folder, "LANG": "C.UTF-8"}
            ran = subprocess.run(["sh", "-c", command], cwd=self.folder, env=env, **HOW)
        return ran.returncode, ran.stdout
