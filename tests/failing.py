"""Makes calls of functions for input and output fail, or transfer one byte at a time; used by
tests/failing_devices.py.
"""

import os
import subprocess

import refusing

SOURCE = os.path.join(os.path.dirname(os.path.abspath(__file__)), "failing.c")
# Functions of the C library that open, read, write, change or examine files.
FUNCTIONS = {word.encode() for word in """
    open open64 openat openat64 creat creat64 fopen fopen64 fdopen freopen close read pread pread64 readv preadv preadv64 preadv2 write pwrite pwrite64
    writev pwritev pwritev64 pwritev2 recvfrom recvmsg sendto sendmsg sendfile sendfile64 splice tee vmsplice copy_file_range mmap mmap64 fread fgetc fgets
    getc getchar getline getdelim fwrite fputc fputs putc putchar puts printf fprintf dprintf vprintf vfprintf vdprintf perror fread_unlocked
    fwrite_unlocked fputs_unlocked fflush lseek lseek64 fseek fseeko truncate truncate64 ftruncate ftruncate64 fallocate fsync fdatasync stat stat64 lstat
    lstat64 fstat fstat64 fstatat fstatat64 statx access ioctl isatty poll ppoll select pselect aio_read aio_write io_submit syscall rename renameat
    renameat2 link linkat unlink unlinkat chmod fchmod fchmodat""".split()}
# The functions whose calls failing.c can make fail, and other ones that the program calls.
FAILING = {b"open", b"read", b"write", b"statx", b"ftruncate", b"rename"}
OTHERS = {b"close", b"lseek", b"isatty", b"unlink", b"fchmod"}
# Functions that the standard library's part for files names, and that the program never calls.
UNUSED = {b"fsync", b"fdatasync"}
# How many seconds a run may take.
LIMIT = 60


def functions_of(program):
    """The functions of FUNCTIONS that the program names, except those of UNUSED."""
    with open(program, "rb") as file:
        return set(file.read().split(b"\0")) & FUNCTIONS - UNUSED


class Failing:
    """Runs of the program with the library failing.c."""

    def __init__(self, bench):
        self.bench = bench
        # None if there is no C compiler
        self.library = refusing.build(bench.folder, SOURCE)

    def run(self, words, given=b"", **environment):
        """Runs the program with these words and environment variables, and a file of these bytes as standard input.

        Returns the status, the output, the errors, and whether a call failed.
        """
        self.bench.remove("failed")
        self.bench.put("given", given)
        env = {**os.environ, "LD_PRELOAD": self.library, "FAILED": self.bench.path("failed"), **environment}
        with open(self.bench.path("given"), "rb") as file:
            ran = subprocess.run([self.bench.program, *words], cwd=self.bench.folder, stdin=file, capture_output=True,
                                 timeout=LIMIT, env=env)
        return ran.returncode, ran.stdout, ran.stderr, self.bench.get("failed") is not None
