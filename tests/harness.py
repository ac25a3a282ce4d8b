"""The harness of all tests: it runs the parts of a script by `unittest`, counts comparisons, and runs programs.

A part is a function that gets an object of Checks, or of a class derived from it, and makes named comparisons. A
comparison that fails is printed at once, and the next one follows. A part that ends by an exception counts as one
failure, and the next part follows. The last line of a script is 'N passed, M failed', the numbers of comparisons. The
exit status is 1 if anything failed, or if nothing was compared.

Each script has these options besides its own words:

  -k TEXT   runs only the parts with TEXT in their names, [MODULE.]FUNCTION
  --times   prints each part with its number of comparisons and its processor seconds

With --help, a script only prints the text at its top. This module also adds the folders with the repository's modules
to the path.
"""

import os
import re
import resource
import signal
import subprocess
import sys
import tempfile
import unittest
from typing import Any, Callable, Iterable, Iterator, Mapping, NoReturn, Optional, Sequence, TypeVar, Union

TOP = os.path.dirname(os.path.dirname(os.path.abspath(__file__)))
TOOLS = os.path.join(TOP, "tools")
DRIVERS = os.path.join(TOP, "examples", "drivers")
EMULATORS = os.path.join(TOP, "examples", "emulators")
MACHINES = os.path.join(TOP, "machines")
PYTHON = os.path.join(TOP, "bindings", "python")
# The folders of tests that are next to what they test. The path also has TOP, because `finder` is a package.
TESTS = [os.path.join(TOP, "finder", "tests"), os.path.join(MACHINES, "tests", "guests")]
sys.path += [folder for folder in (*TESTS, TOOLS, DRIVERS, EMULATORS, MACHINES, os.path.join(MACHINES, "bugs"), PYTHON,
                                   TOP)
             if folder not in sys.path]
# The seconds that a program may take, unless a test states another limit.
LIMIT = 60

Words = Sequence[Union[str, bytes]]
Env = Optional[Mapping[str, str]]


class Ended(Exception):
    """The parts that follow can't be run; the text is the reason, and counts as a failure."""


class Checks:
    """Counts named comparisons, and has a folder for the files of a test."""

    def __init__(self, folder: str = "") -> None:
        self.folder = folder
        self.passed = 0
        self.failed = 0
        self.is_stopped = False

    def stop(self) -> None:
        """From now on, no further part is run."""
        self.is_stopped = True

    def check(self, name: str, got: object, wanted: object) -> bool:
        """Compares two values, and returns whether they are equal. Prints both if they aren't."""
        if got == wanted:
            self.passed += 1
            return True
        self.failed += 1
        print(f"{name}: FAILED\n  wanted {wanted!r}\n  got    {got!r}", flush=True)
        return False

    def holds(self, name: str, is_right: bool, why: str = "") -> bool:
        """Counts a condition, and returns it. Prints the name and the reason if it doesn't hold."""
        if is_right:
            self.passed += 1
            return True
        self.failed += 1
        print(f"{name}: FAILED{f': {why}' if why else ''}", flush=True)
        return False

    def is_there(self, tool: str, what: str) -> bool:
        """Whether this tool is on the PATH. If it isn't, prints that `what` isn't run."""
        if any(os.access(os.path.join(folder, tool), os.X_OK) for folder in os.get_exec_path()):
            return True
        not_run(what, f"there is no {tool}")
        return False

    # The files of the folder.

    def path(self, name: str) -> str:
        return os.path.join(self.folder, name)

    def put(self, name: str, data: bytes) -> str:
        """Writes a file of these bytes. Returns its path."""
        with open(self.path(name), "wb") as file:
            file.write(data)
        return self.path(name)

    def put_script(self, name: str, text: str) -> str:
        """Writes a program that is a script. Returns its path."""
        path = self.put(name, text.encode())
        os.chmod(path, 0o755)
        return path

    def get(self, name: str) -> Optional[bytes]:
        """The contents of the file, or None if there is no file."""
        if not os.path.exists(self.path(name)):
            return None
        with open(self.path(name), "rb") as file:
            return file.read()

    def remove(self, name: str) -> None:
        if os.path.exists(self.path(name)):
            os.remove(self.path(name))

    # Other programs, in the folder.

    def execute(self, *words: str, folder: Optional[str] = None, env: Env = None, given: Optional[str] = None,
                limit: float = LIMIT) -> tuple[int, str, str]:
        """The exit status, the output and the errors of a command, as text."""
        ran = subprocess.run(words, cwd=folder or self.folder or None, input=given, env=more_env(env), timeout=limit,
                             capture_output=True, text=True, errors="replace", check=False)
        return ran.returncode, ran.stdout, ran.stderr

    def shell(self, line: str, folder: Optional[str] = None, limit: float = LIMIT) -> tuple[int, bytes, bytes]:
        """The exit status, the output and the errors of a line for the shell, as bytes."""
        ran = subprocess.run(line, shell=True, cwd=folder or self.folder or None, capture_output=True, timeout=limit,
                             check=False)
        return ran.returncode, ran.stdout, ran.stderr


class Program(Checks):
    """Runs of the program nicbench."""

    def __init__(self, program: str, folder: str) -> None:
        super().__init__(folder)
        self.program = program

    def run(self, *words: str, env: Env = None, folder: Optional[str] = None, given: bytes = b"") -> Any:
        """Runs the program on these words, with these bytes as its standard input, a pipe. Returns the ended process.
        """
        return subprocess.run([self.program, *words], cwd=folder or self.folder, input=given, capture_output=True,
                              timeout=LIMIT, env=more_env(env), check=False)

    def ends(self, name: str, words: Iterable[str], status: int, out: bytes = b"", err: bytes = b"",
             folder: Optional[str] = None, given: bytes = b"") -> None:
        """Runs the program with these words and this standard input, in this folder or in that of the object. Checks
        its status, its output and its errors.
        """
        ran = self.run(*words, folder=folder, given=given)
        self.check(name, (ran.returncode, ran.stdout, ran.stderr), (status, out, err))


C = TypeVar("C", bound=Checks)
P = TypeVar("P", bound=Program)


class Part(unittest.TestCase):
    """A part of a script as a test case."""

    def __init__(self, checks: C, function: Callable[[C], object]) -> None:
        super().__init__("play")
        self.checks, self.play_all = checks, lambda: function(checks)
        target = getattr(function, "func", function)  # the function of a functools.partial
        module = "" if target.__module__ == "__main__" else f"{target.__module__}."
        self.name = f"{module}{target.__name__}"

    def id(self) -> str:
        return self.name

    def play(self) -> None:
        self.play_all()


class Results(unittest.TestResult):
    """Counts a failure for each part that ends by an exception. With `times`, prints how many comparisons each part
    made, and how many processor seconds it took.
    """

    def __init__(self, times: bool) -> None:
        super().__init__()
        self.times, self.begun, self.before = times, 0.0, 0

    def startTest(self, test: unittest.TestCase) -> None:
        super().startTest(test)
        self.begun, self.before = processor_seconds(), compared(test)

    def stopTest(self, test: unittest.TestCase) -> None:
        super().stopTest(test)
        if self.times:
            print(f"{test.id()}: {compared(test) - self.before} checks, {processor_seconds() - self.begun:.0f} "
                  f"processor seconds",
                  flush=True)
        if checks_of(test).is_stopped:
            self.stop()

    def addError(self, test: unittest.TestCase, err: Any) -> None:
        super().addError(test, err)
        if issubclass(err[0], Ended):
            checks_of(test).stop()
            checks_of(test).holds(test.id(), False, str(err[1]))
        else:
            self.fails(test, self.errors[-1][1])

    def addFailure(self, test: unittest.TestCase, err: Any) -> None:
        super().addFailure(test, err)
        self.fails(test, self.failures[-1][1])

    @staticmethod
    def fails(test: unittest.TestCase, text: str) -> None:
        checks_of(test).holds(f"{test.id()} ended by an exception", False, text)


def checks_of(test: unittest.TestCase) -> Checks:
    assert isinstance(test, Part)
    return test.checks


def compared(test: unittest.TestCase) -> int:
    """How many comparisons were made up to now."""
    return checks_of(test).passed + checks_of(test).failed


def processor_seconds() -> float:
    """The processor seconds of this script and of the programs that it has run."""
    used = [resource.getrusage(who) for who in (resource.RUSAGE_SELF, resource.RUSAGE_CHILDREN)]
    return sum(it.ru_utime + it.ru_stime for it in used)


def more_env(env: Env) -> Optional[Mapping[str, str]]:
    """The environment with these variables added. None, which stands for the unchanged environment, if `env` is None.
    """
    return None if env is None else {**os.environ, **env}


def not_run(what: str, why: str) -> None:
    """Prints that tests aren't run, and the reason."""
    print(f"not run: {what}: {why}", flush=True)


def text_of(*path: str) -> str:
    """The text of a file of the repository, or of another one if its path is absolute."""
    with open(os.path.join(TOP, *path), encoding="utf-8") as file:
        return file.read()


def sources(pattern: str, crates: Optional[Iterable[str]] = None) -> Iterator[str]:
    """Yields the paths of the files whose path below their crate matches this regular expression: of all crates, or of
    these.
    """
    root = os.path.join(TOP, "crates")
    for crate in sorted(os.listdir(root)) if crates is None else crates:
        for folder, _, names in sorted(os.walk(os.path.join(root, crate))):
            for name in sorted(names):
                path = os.path.join(folder, name)
                if re.fullmatch(pattern, os.path.relpath(path, os.path.join(root, crate))):
                    yield path


def words_of_script() -> list[str]:
    """The words of the script without the options of the harness."""
    return options()[0]


def options() -> tuple[list[str], str, bool]:
    """The script's own words, the text that names of parts must contain, and whether times are printed."""
    words, pattern = sys.argv[1:], ""
    if words in (["--help"], ["-h"]):
        print(getattr(sys.modules["__main__"], "__doc__", ""))
        sys.exit(0)
    if "-k" in words[:-1]:
        at = words.index("-k")
        pattern = words[at + 1]
        del words[at:at + 2]
    return [word for word in words if word != "--times"], pattern, "--times" in words


def play(checks: C, parts: Iterable[Callable[[C], object]], times: bool = False) -> None:
    """Runs the parts whose names contain the text of -k, or all parts, as test cases in their order."""
    _, pattern, with_times = options()
    cases = [part for part in (Part(checks, function) for function in parts) if pattern in part.id()]
    unittest.TestSuite(cases).run(Results(times or with_times))


def count(checks: Checks) -> int:
    """Prints the last line of a script, and returns its exit status."""
    print(f"{checks.passed} passed, {checks.failed} failed", flush=True)
    return 1 if checks.failed or not checks.passed else 0


def finish(run: Callable[[], Checks]) -> NoReturn:
    """Runs a script, prints its last line, and ends it."""
    # A shell starts a command in the background with SIGINT ignored, and the programs of tests would inherit this.
    signal.signal(signal.SIGINT, signal.default_int_handler)
    try:
        status = count(run())
    except Ended as reason:
        print(f"{reason}\n0 passed, 1 failed")
        status = 1
    sys.exit(status)


def test_all(make: Callable[[str], C], parts: Sequence[Callable[[C], object]], times: bool = False) -> NoReturn:
    """Runs parts with a new object for the checks, which gets a temporary folder, and ends the script."""
    def run() -> Checks:
        with tempfile.TemporaryDirectory() as folder:
            checks = make(folder)
            play(checks, parts, times)
            return checks
    finish(run)


def program_of(words: Sequence[str]) -> str:
    """The absolute path of the program that the first word names. Raises Ended if there is no such file."""
    if not words or not os.path.exists(words[0]):
        raise Ended(f"there is no program {words[0] if words else ''}".rstrip())
    return os.path.abspath(words[0])


def test_program(make: Callable[[str, str], P], parts: Sequence[Callable[[P], object]],
                 times: bool = False) -> NoReturn:
    """Runs parts with a new object for the checks, which gets the program that the script's word names, and a temporary
    folder.
    """
    test_all(lambda folder: make(program_of(words_of_script()), folder), parts, times)
