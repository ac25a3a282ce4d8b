"""Signals that end a program, and its output, which may be closed, unread or full."""

from __future__ import annotations

import io
import os
import signal
import sys
from contextlib import suppress
from typing import IO, NoReturn

SIGNALS = (signal.SIGINT, signal.SIGTERM, signal.SIGHUP)
BY_SIGNAL = 128  # the exit status after a signal is this number plus the signal's number


class Ended(BaseException):
    """A signal ends the program."""

    def __init__(self, number: int) -> None:
        super().__init__(number)
        self.status = BY_SIGNAL + number


class UsageError(Exception):
    """An argument is invalid, or a file that it names can't be used."""


class Unprinted(Exception):
    """Standard output can't be written."""

    def __init__(self, error: OSError) -> None:
        super().__init__(f"standard output: {error.strerror}")
        self.is_unread = isinstance(error, BrokenPipeError)


# Signals

def end(number: int, _: object) -> NoReturn:
    raise Ended(number)


def listen() -> None:
    """From now on, a signal of SIGNALS raises Ended in the main thread, unless it is ignored, such as SIGHUP below
    `nohup`.
    """
    for number in SIGNALS:
        if signal.getsignal(number) != signal.SIG_IGN:
            signal.signal(number, end)


# Output

def prepare_output() -> None:
    """Lets both streams print an escape in place of a character that they can't encode. Without a standard error,
    messages are dropped; without a standard output, raises Unprinted.
    """
    sys.stderr = sys.stderr or open(os.devnull, "w")
    for stream in filter(None, (sys.stdout, sys.stderr)):
        if isinstance(stream, io.TextIOWrapper):
            stream.reconfigure(errors="backslashreplace")
    if sys.stdout is None:
        raise Unprinted(OSError(0, "it is closed"))


def say(*words: object, sep: str = " ", end: str = "\n") -> None:
    """Prints on standard output, at once. Raises Unprinted."""
    try:
        print(*words, sep=sep, end=end, flush=True)
    except OSError as error:
        discard(sys.stdout)
        raise Unprinted(error) from None


def tell(text: str, end: str = "\n") -> None:
    """Prints a message on standard error, if this is possible."""
    try:
        print(text, end=end, file=sys.stderr, flush=True)
    except OSError:
        discard(sys.stderr)


def discard(stream: IO[str]) -> None:
    """Drops what a stream hasn't written yet, and what is printed on it later."""
    with suppress(OSError):
        os.dup2(os.open(os.devnull, os.O_WRONLY), stream.fileno())
