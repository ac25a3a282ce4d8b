"""Runs a test that is a function in Python, as a command of the finder of races, or once in process.

usage: tools/races -- python3 -m nic82540em FILE.py:FUNCTION
       python3 -m nic82540em --here FILE.py:FUNCTION [OPTIONS]

The function gets an adapter, with the methods of the class Adapter of this package. The test fails if the function
raises an exception, such as that of `assert`. In the first form, its requests go to standard output, and the answers
come from standard input. `tools/races` (in the Debian package `nicbench-races`) runs this command with one schedule
after another. In the second form, the test runs once, with the adapter in process. Its OPTIONS are those of the class,
such as --schedule FILE.

Exit status: 0 if the test passes, 1 if it fails, with the reason on standard error, 2 if a word is invalid.
"""

from __future__ import annotations

import importlib.util
import os
import sys
import traceback
from types import ModuleType
from typing import Any, Callable, Sequence

from nic82540em import Adapter

PASSED, FAILED, USAGE = 0, 1, 2
HERE = os.path.dirname(os.path.abspath(__file__))
# The class for pipes: in an installed package, in the repository and in a release
PIPES = (os.path.join(HERE, "pipe.py"),
         os.path.join(HERE, "..", "..", "..", "examples", "drivers", "adapter.py"),
         "/usr/share/nicbench/examples/drivers/adapter.py")


class Unusable(Exception):
    """The words don't name a function; the text states the reason."""


def loaded(path: str) -> ModuleType:
    """The module in the file at this path. Its folder is the first one in which it looks for modules."""
    sys.path.insert(0, os.path.dirname(os.path.abspath(path)))
    spec = importlib.util.spec_from_file_location(os.path.splitext(os.path.basename(path))[0], path)
    if spec is None or spec.loader is None:
        raise Unusable(f"{path} isn't a file of Python")
    module = importlib.util.module_from_spec(spec)
    sys.modules[spec.name] = module
    spec.loader.exec_module(module)
    return module


def function_of(word: str) -> Callable[[Any], object]:
    """The function that FILE.py:FUNCTION names."""
    path, _, name = word.rpartition(":")
    if not path or not os.path.isfile(path):
        raise Unusable(f"{word!r} isn't FILE.py:FUNCTION")
    function = getattr(loaded(path), name, None)
    if not callable(function):
        raise Unusable(f"{path} has no function {name}")
    return function


def adapter_of_pipes() -> Any:
    """The adapter whose server reads this program's standard output, and writes its standard input. What the test
    prints goes to standard error.
    """
    pipe = next((path for path in PIPES if os.path.exists(path)), None)
    if pipe is None:
        raise Unusable(f"{PIPES[0]} is missing")
    requests, answers = os.fdopen(os.dup(1), "wb"), sys.stdin.buffer
    os.dup2(2, 1)

    class Streams(loaded(pipe).Adapter):  # type: ignore[misc]
        def start(self, *_: object) -> tuple[Any, Any]:
            return requests, answers

    return Streams(None)


def reason_of(error: Exception) -> str:
    """Why the test fails, in one line: the text of the exception, or else where it was raised."""
    text = " ".join(str(error).split())
    if text:
        return text
    frame = traceback.extract_tb(error.__traceback__)[-1]
    return f"{os.path.basename(frame.filename)}:{frame.lineno}: {frame.line}"


def run(test: Callable[[Any], object], adapter: Any) -> int:
    """Runs a test, and returns the exit status."""
    try:
        test(adapter)
    except Exception as error:
        print(reason_of(error), file=sys.stderr)
        return FAILED
    return PASSED


def main(words: Sequence[str]) -> int:
    if list(words) in (["--help"], ["-h"]):
        print(__doc__)
        return PASSED
    is_here = words[:1] == ["--here"]
    if not (words[1:] if is_here else len(words) == 1):
        print(__doc__, file=sys.stderr)
        return USAGE
    if not is_here and sys.stdout.isatty():
        print(f"the requests of the test are for a server: tools/races -- python3 -m nic82540em {words[0]}",
              file=sys.stderr)
        return USAGE
    try:
        test = function_of(words[1] if is_here else words[0])
        if is_here:
            with Adapter(None, *words[2:]) as adapter:
                return run(test, adapter)
        return run(test, adapter_of_pipes())
    except Unusable as error:
        print(f"nic82540em: {error}", file=sys.stderr)
        return USAGE


if __name__ == "__main__":
    sys.exit(main(sys.argv[1:]))
