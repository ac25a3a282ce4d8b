"""Checks that a text of assembly is that of a proved object, by the toolchain's own clang."""

import os
import shutil
import subprocess
import tempfile

from amalgamating.objects import differences, members_of
from library_proof import TARGETS
from quick import kit_of

# The processor that a proved object of x86-64 is compiled for. Clang chooses its padding by it.
CPU = {"x86_64": "x86-64-v2", "aarch64": "armv8-a"}


class NotTheSame(Exception):
    """The text isn't that of the object; the text of this exception states what differs."""


def assemble(rt, text, target, made):
    """Compiles a text of assembly as the object `made`. A text that ends in .S passes through the preprocessor."""
    clang = os.path.join(kit_of(shutil.which(rt) or rt), "toolchain", "bin", "clang")
    flags = [f"--target={TARGETS[target]}", "--no-default-config", f"-march={CPU[target]}"]
    ran = subprocess.run([clang, *flags, "-c", "-o", made, text], stdout=subprocess.PIPE, stderr=subprocess.STDOUT,
                         text=True)
    if ran.returncode != 0:
        raise NotTheSame(f"{text} isn't compiled: {ran.stdout[-2000:]}")


def check_same(rt, proved, text, target):
    """Raises NotTheSame unless the text is that of the object `proved`, or of the only object in the archive `proved`.
    """
    with tempfile.TemporaryDirectory() as work:
        made = os.path.join(work, "made.o")
        assemble(rt, text, target, made)
        with open(proved, "rb") as one, open(made, "rb") as other:
            data, compiled = one.read(), other.read()
    objects = list(members_of(data).values()) if data.startswith(b"!<arch>") else [data]
    found = differences(objects[0], compiled) if len(objects) == 1 else [f"the number of objects, {len(objects)}"]
    if found:
        raise NotTheSame(f"{text} isn't the code of {proved}: {', '.join(found[:5])}")
