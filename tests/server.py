"""Runs of `nicbench serve`, for tests/serve and for modules with sessions."""

import os
import subprocess

from harness import Program


ZERO = "OK 0x0000000000000000"
ONE = "OK 0x0000000000000001"
# How many bytes a line has at most.
LONGEST = 131_200
# How many seconds a run of the server, or one answer, may take.
LIMIT = 60


def number(value):
    """The answer with this number."""
    return f"OK 0x{value:016x}"


def lines(texts):
    """The bytes of these lines."""
    return "".join(f"{text}\n" for text in texts).encode()


class Server(Program):
    """Runs of `serve`."""

    def serve(self, data, *words, env=None):
        """Runs `serve` with these bytes of input. Returns the status, the output and the errors."""
        ran = subprocess.run([self.program, "serve", *words], input=data, cwd=self.folder, capture_output=True,
                             timeout=LIMIT,
                             env=None if env is None else {**os.environ, **env})
        return ran.returncode, ran.stdout, ran.stderr

    def answers(self, name, data, wanted, *words):
        """Checks that a run with this input writes these bytes and succeeds."""
        self.check(name, self.serve(data, *words), (0, wanted, b""))

    def talks(self, name, talk, *words):
        """Sends the requests of all pairs in one run, and compares the lines up to each answer."""
        got = self.serve(lines(request for request, _ in talk), *words)
        if got != (0, lines(line for _, told in talk for line in told.split("\n")), b""):
            self.talk_apart(name, talk, got)
        else:
            self.passed += len(talk)

    def talk_apart(self, name, talk, got):
        """Compares a session request by request, and prints each difference."""
        left = got[1].decode(errors="replace").split("\n")
        for request, told in talk:
            wanted = told.split("\n")
            self.check(f"{name}: {request!r:.80}", left[:len(wanted)], wanted)
            left = left[len(wanted):]
        self.check(f"{name}: its end", (got[0], left, got[2]), (0, [""], b""))
