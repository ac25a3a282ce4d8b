"""Runs a guest on the board, and passes on what the guest and the board print."""

from __future__ import annotations

import os
import re
import select
import subprocess
import tempfile
from typing import IO, Iterable, Iterator, Optional, TYPE_CHECKING

from needs import NAMESPACE

if TYPE_CHECKING:
    from subprocess import Popen

QUIET = 300  # seconds without a line after which a run is ended
MARK = "> "
# The guest of a sweep counts time by instructions, and QEMU's own seed is fixed. So with the same kernel and
# programs, a run of this guest depends only on the options of the sweep, such as `--seed`.
REPEATABLE = ["-icount", "shift=2,sleep=off", "-seed", "1"]
COLOUR = re.compile(rb"\x1b\[[0-9;?]*[A-Za-z]")


class Ended(Exception):
    """The guest has ended too early, or has printed nothing for QUIET seconds. The text states which."""


def output_of(process: Popen[bytes]) -> int:
    """The descriptor of the output of the board and the guest."""
    assert process.stdout
    return process.stdout.fileno()


class Machine:
    """A guest on the board. `board` are the words of the board, and `words` those of QEMU for this guest.

    Iterate over `lines` to run it. `log` gets the guest's console. `typed` are pairs of what the guest prints and what
    is then typed at its console.
    """

    def __init__(self, board: list[str], log: str, words: list[str], megabytes: int = 128, cpu: str = "qemu64",
                 chipset: str = "pc", typed: Iterable[tuple[str, str]] = ()) -> None:
        self.board, self.log, self.words = board, log, words
        self.megabytes, self.cpu, self.chipset, self.typed = megabytes, cpu, chipset, list(typed)
        self.device, self.clock = "x-pci-proxy-dev,id=nic,fd=3", "vm"
        self.status: Optional[int] = None

    def qemu(self, socket: str, plugin: str | None) -> list[str]:
        """The words of QEMU. With a plugin, the run is repeatable."""
        memory = f"memory-backend-file,id=ram,size={self.megabytes}M,mem-path=/proc/self/fd/4,share=on"
        clock = ["-rtc", f"base=2026-01-01,clock={self.clock}"]
        extra = [*REPEATABLE, *clock, "-plugin", f"{plugin},socket=5,log=6,memory=4"] if plugin else []
        return [
            "qemu-system-x86_64", "-accel", "tcg", "-cpu", self.cpu, "-machine", f"{self.chipset},memory-backend=ram",
            "-m", str(self.megabytes), "-object", memory, "-nodefaults", "-display", "none", "-serial", "stdio",
            "-no-reboot", "-device", self.device, "-qtest", f"unix:{socket},server=on,wait=off", "-qtest-log", "none",
            *self.words, *extra]

    def command(self, socket: str, plugin: str | None, server: str | None) -> list[str]:
        """The words of the board, which starts QEMU."""
        tap = ["--tap", "nic0"] if server else []
        board = [*self.board, "--socket", socket, "--memory", str(self.megabytes << 20), *tap]
        command = [*board, "--", *self.qemu(socket, plugin)]
        other = f'{server} </dev/null >/dev/null 2>&1 & exec "$@"'
        return [*NAMESPACE, "sh", "-c", other, "sh", *command] if server else command

    def lines(self, plugin: str | None = None, server: str | None = None) -> Iterator[str]:
        """Runs the guest. Yields the lines for the user: those that begin with MARK, without it, up to `end`.

        `server` is the command of the wire's other end. It runs in a network namespace of its own with a TAP device.
        """
        with tempfile.TemporaryDirectory() as folder, open(self.log, "w") as log:
            command = self.command(os.path.join(folder, "qtest"), plugin, server)
            process = subprocess.Popen(command, stdin=subprocess.PIPE, stdout=subprocess.PIPE, bufsize=0)
            try:
                yield from self.read(process, log)
            finally:
                process.terminate()
                self.status = process.wait()
                for stream in (process.stdin, process.stdout):
                    if stream:
                        stream.close()

    def read(self, process: Popen[bytes], log: IO[str]) -> Iterator[str]:
        """Yields the lines for the user. Writes all lines to the log. Raises Ended if the guest ends before `end`."""
        for line in self.console(process):
            log.write(f"{line}\n")
            log.flush()
            if line == f"{MARK}end":
                self.wait(process)
                return
            if line.startswith(MARK):
                yield line.removeprefix(MARK)
        raise Ended(f"the guest has ended before its last stage; its console is in {self.log}")

    def wait(self, process: Popen[bytes]) -> None:
        """Waits until the guest has turned itself off, and reads what it still prints."""
        output = output_of(process)
        while select.select([output], [], [], QUIET)[0] and os.read(output, 1 << 16):
            pass
        process.wait(QUIET)

    def type(self, process: Popen[bytes], text: bytes) -> bool:
        """If the console's text ends with the next text that is waited for, types the answer to it. Returns whether
        something was typed.
        """
        if not self.typed or not text.endswith(self.typed[0][0].encode()):
            return False
        if process.stdin:
            process.stdin.write(self.typed.pop(0)[1].encode())
        return True

    def console(self, process: Popen[bytes]) -> Iterator[str]:
        """Yields the lines of the guest's console."""
        left, output = b"", output_of(process)
        while select.select([output], [], [], QUIET)[0]:
            data = os.read(output, 1 << 16)
            *lines, left = COLOUR.sub(b"", left + data).replace(b"\r", b"\n").split(b"\n")
            yield from (line.decode(errors="replace").strip() for line in lines if line)
            if self.type(process, left):
                yield left.decode(errors="replace")
                left = b""
            if not data:
                yield left.decode(errors="replace").strip()
                return
        raise Ended(f"the guest has printed nothing for {QUIET} seconds; its console is in {self.log}")
