"""Makes allocations of a program fail; used by tests/run, tests/serve, tests/refused_allocations and tests/failing.py.
"""

import os
import shutil
import subprocess

SOURCE = os.path.join(os.path.dirname(os.path.abspath(__file__)), "refuse.c")
# The functions of the C library that allocate.
ALLOCATORS = {b"malloc", b"realloc", b"calloc", b"reallocarray", b"aligned_alloc", b"posix_memalign", b"memalign",
              b"valloc", b"pvalloc", b"mmap"}
# The functions whose calls refuse.c can make fail.
REFUSED = {b"malloc", b"realloc"}


def allocators_of(program):
    """The functions that allocate memory and that the program names."""
    with open(program, "rb") as file:
        return set(file.read().split(b"\0")) & ALLOCATORS


def build(folder, source=SOURCE):
    """Compiles refuse.c, or another library, into the folder. Returns the path of the library to load, or None if there
    is no C compiler.
    """
    cc = next((path for path in map(shutil.which, ["cc", "clang", "gcc"]) if path), None)
    if cc is None:
        return None
    library = os.path.join(folder, os.path.basename(source).replace(".c", ".so"))
    subprocess.run([cc, "-shared", "-fPIC", "-O1", "-o", library, source, "-ldl"], check=True)
    return library
