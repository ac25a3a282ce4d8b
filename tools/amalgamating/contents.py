"""The files of an amalgamation: of the library with the explorer, and of the program."""

import hashlib
import os
import re

import sources
from packing.archive import Tree
from amalgamating.one_file import one_file, read

C = os.path.join(sources.TOP, "bindings", "c")
EXPLORE = os.path.join(C, "explore")
TEMPLATE = os.path.join(sources.TOP, "examples", "explore", "my_test.c")
HERE = os.path.dirname(os.path.abspath(__file__))
PUBLIC = ("nic82540em.h", "nic82540em_explore.h")
HOOKS = os.path.join("pointers", "hooks.c")
# What the preprocessor knows of a processor for which there is code
KNOWN = {target: f"defined(__{target}__) && !defined(__ILP32__)" for target in ("x86_64", "aarch64")}
LINUX = "defined(__linux__)"
# Also in a file that is empty otherwise: an object without this section asks for a stack that can be executed.
NO_STACK = '.section .note.GNU-stack,"",%progbits'
ABOUT = "Made by tools/amalgamation from the C sources of the explorer, bindings/c/explore: change them there."
# If the explorer asks where its variables are: they aren't the test's. bindings/c/explore/build moves them to other
# sections, by a tool that not everybody has. Here, labels are around the sections of the file.
VARIABLES = """\
/* The variables of this file are between labels. */
__asm__(%s".text");
"""
LABELS = """".{0}\\n.balign 4096\\n.globl __start_xi_{0}\\n.hidden __start_xi_{0}\\n__start_xi_{0}:\\n"
        ".{0}\\n.subsection 8000\\n.balign 4096\\n.globl __stop_xi_{0}\\n.hidden __stop_xi_{0}\\n__stop_xi_{0}:\\n"
        """
# A source of the explorer that defines functions of the C library. A program may be linked without it.
APART = "malloc.c"
WEAK = """\
/* The explorer has another heap. Its functions are taken if a program contains both. */
#pragma weak rattle_alloc
#pragma weak rattle_realloc
#pragma weak rattle_dealloc

"""
# In the file with this name, an amalgamation lists the sources that it was made of.
SOURCES = "SOURCES"


def assembly(text, target, others):
    """The assembly for a processor as a file for the C preprocessor. It is empty for `others`, for which there are
    other files, and an error for a processor for which there is no code.
    """
    known = " || ".join(f"({KNOWN[it]})" for it in (target, *others))
    names = " or ".join(it.replace("_", "-") for it in sorted({target, *others}, reverse=True))
    return (f"#if !({LINUX} && ({known}))\n#error \"this code is for Linux on {names}\"\n#endif\n"
            f"#if {KNOWN[target]}\n{text}#endif\n{NO_STACK}\n")


def template():
    """The template of a test, which is built as the README of the amalgamation states."""
    text = read(TEMPLATE)
    text = re.sub(r"^ \*     cc .*?\n(?= \*/)", " *     cc -O2 *.c *.S -o my_test && ./my_test --explore every\n", text,
                  flags=re.M | re.S)
    return text.replace("#include <nic82540em_explore.h>", '#include "nic82540em_explore.h"')


def explorer():
    """The C files of the explorer."""
    own = sorted(name for name in os.listdir(EXPLORE) if name.endswith(".c"))
    text = one_file(EXPLORE, [name for name in own if name != APART], PUBLIC, ABOUT)
    if "__start_xi_data" in text:
        labels = VARIABLES % "".join(LABELS.format(section) for section in ("data", "bss"))
        text = re.sub(r"^(?=/\* ==== )", lambda _: f"{labels}\n", text, 1, flags=re.M)
    found = {"nic82540em_explore.c": text}
    if APART in own:
        found["nic82540em_malloc.c"] = one_file(EXPLORE, [APART], PUBLIC, ABOUT)
    return found


def page(name, version, notes):
    """A page of this folder. A line @NOT PROVED@ is left out unless `notes` begin with these words."""
    text = read(os.path.join(HERE, name)).replace("@VERSION@", version)
    is_proved = not notes.startswith("NOT PROVED")
    return re.sub(r"^@(.*)@\n", "" if is_proved else r"\1\n", text, flags=re.M)


def generator():
    """The paths of what else determines the files of an amalgamation."""
    own = [os.path.join(HERE, name) for name in sorted(os.listdir(HERE)) if name.endswith((".py", ".c", ".txt"))]
    return [*own, os.path.join(sources.TOP, "LICENSE"), sources.VERSIONED]


def bindings():
    """The paths of the files in bindings/c, from which tools/library builds the library and the explorer."""
    found = [os.path.join(folder, name) for folder, _, names in os.walk(C) for name in names]
    return sorted(path for path in found if path.endswith((".c", ".h", ".in", "build")))


def library_sources():
    """The paths of the sources of the library, the search and the explorer, and of what writes the amalgamation."""
    crates = [*sources.crates(sources.LIBRARY), *sources.crates(sources.SEARCH)]
    return [*dict.fromkeys([*sources.all_files(crates), *bindings(), TEMPLATE, *generator()])]


def program_sources():
    """The same for the program."""
    return [*dict.fromkeys([*sources.all_files(sources.crates()), os.path.join(C, "heap.c"), *generator()])]


def list_of(paths):
    """A line for each source: the first 16 digits of its SHA-256, and its path."""
    lines = []
    for path in paths:
        with open(path, "rb") as file:
            lines.append(f"{hashlib.sha256(file.read()).hexdigest()[:16]} {os.path.relpath(path, sources.TOP)}\n")
    return "".join(lines)


def copies(version, notes):
    """The files of the library's amalgamation that need no toolchain, by their paths."""
    found = {name: read(os.path.join(C if name == PUBLIC[0] else EXPLORE, name)) for name in PUBLIC}
    found["nic82540em_heap.c"] = WEAK + read(os.path.join(C, "heap.c"))
    found.update(explorer())
    found[HOOKS] = read(os.path.join(EXPLORE, HOOKS))
    found["my_test.c"] = template()
    found["LICENSE"] = read(os.path.join(sources.TOP, "LICENSE"))
    found["README"] = page("library.txt", version, notes)
    found["VERSION"] = notes
    found[SOURCES] = list_of(library_sources())
    return found


def apart():
    """The files from which tools/library builds, which dist has in addition."""
    return {os.path.relpath(path, sources.TOP): read(path) for path in bindings()}


def program_copies(version, notes):
    """The files of the program's amalgamation that need no toolchain, by their paths."""
    return {"nicbench_heap.c": read(os.path.join(C, "heap.c")),
            "nicbench_runtime.c": read(os.path.join(HERE, "runtime.c")),
            "LICENSE": read(os.path.join(sources.TOP, "LICENSE")),
            "README": page("program.txt", version, notes), "VERSION": notes,
            SOURCES: list_of(program_sources())}


def tree_of(files):
    tree = Tree()
    for path, text in files.items():
        tree.add(path, text)
    return tree


def library_tree(texts, version, notes):
    """The tree of the library's amalgamation. `texts` has the assembly by crate and processor."""
    files = copies(version, notes)
    for (crate, target), text in texts.items():
        others = [other for name, other in texts if name == crate and other != target]
        files[f"{crate}-{target}.S"] = assembly(text, target, others)
    return tree_of(files)


def program_tree(texts, version, notes):
    """The tree of the program's amalgamation. `texts` has the assembly by processor. `main` gets another name: the C
    file has a `main` that keeps the words.
    """
    files = program_copies(version, notes)
    for target, text in texts.items():
        renamed = re.sub(r"\bmain\b(?!\.)", "nicbench_main", text) if re.search(r"^main:$", text, re.M) else text
        files[f"{sources.PROGRAM}-{target}.S"] = assembly(renamed, target, [it for it in texts if it != target])
    return tree_of(files)
