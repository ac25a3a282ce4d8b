"""Keeps the assembly of what the toolchain compiles: a folder of links to it, in which `clang` is a script of ours.

The script calls the toolchain's clang as it was called. For each object it calls clang once more, with the same flags
and input, and keeps the assembly with a copy of the object. The copy finds the assembly of an archive that contains it.
"""

from __future__ import annotations

import os
import shlex
import shutil

from quick import link_all

# `-fno-addrsig`: GNU as refuses `.addrsig`. Without comments, the text can pass through the C preprocessor.
CLANG = """#!/bin/sh
{clang} "$@" || exit
folder=$(mktemp -d {kept}/XXXXXX) count=$# is_object= before=
for word; do
    [ "$word" = -c ] && is_object=1 word=-S
    [ "$before" = -o ] && cp "$word" "$folder/object" && word=$folder/text.s
    before=$word
    set -- "$@" "$word"
done
shift "$count"
[ -z "$is_object" ] || exec {clang} "$@" -fno-addrsig -fno-verbose-asm
"""


class Keeper:
    """A folder of links to a kit's toolchain, whose `clang` keeps the assembly of each object."""

    def __init__(self, kit: str, work: str) -> None:
        """Makes the folder in the folder `work`. Raises OSError if the toolchain isn't laid out as expected."""
        original, self.toolchain = os.path.join(kit, "toolchain"), os.path.join(work, "toolchain")
        self.kept = os.path.join(work, "kept")
        tools = os.path.join(self.toolchain, "bin")
        link_all(original, self.toolchain, ("bin",))
        link_all(os.path.join(original, "bin"), tools, ("clang",))
        os.makedirs(self.kept)
        self.clang = os.path.join(tools, "clang")
        with open(self.clang, "w") as file:
            file.write(CLANG.format(clang=shlex.quote(os.path.join(original, "bin", "clang")),
                                    kept=shlex.quote(self.kept)))
        os.chmod(self.clang, 0o755)

    def keep(self, path: str) -> None:
        """Writes the assembly of an archive's object, or of an object, next to it. Raises OSError if clang hasn't made
        this object.
        """
        with open(path, "rb") as file:
            made = file.read()
        for name in os.listdir(self.kept):
            text, compiled = (os.path.join(self.kept, name, part) for part in ("text.s", "object"))
            if os.path.exists(text):
                with open(compiled, "rb") as file:
                    if file.read() in made:
                        shutil.move(text, path_of(path))
                        return
        raise OSError(f"{path} contains no object that clang has made")


def path_of(path: str) -> str:
    """The path of the assembly of an archive or an object: the same name with the end `.s`."""
    return f"{os.path.splitext(path)[0]}.s"
