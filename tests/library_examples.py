"""Compiles and runs the examples of the C library. Also tests the library in other build systems, and with refused
memory.
"""

import os
import re
import subprocess
import sys

from harness import TOP, text_of

EXAMPLES = os.path.join(TOP, "examples", "library")
WARNINGS = ["-Wall", "-Wextra", "-Werror"]
SANITIZERS = "-fsanitize=address,undefined"
# How many runs libFuzzer may make until it finds a race of the driver in fuzz_driver.c; and the races, with their
# faults
FUZZ_RUNS = 20000
RACES = (("LATE", "was never received"), ("PREFETCH", "has other bytes"))
# The bindings by the ending of their examples. Each has the files with the line before the methods, and the patterns of
# a method, a call and a comment.
BINDINGS = {
    ".py": (((("python", "nic82540em", "__init__.py"), "class Nic:\n"),
             (("python", "nic82540em", "server.py"), "class Server:\n")), r"^    def (\w+)\((.*?)(?=^    def |^\S|\Z)",
            r'self\.call\("(\w+)"', r'""".*?"""|#[^\n]*'),
    ".rs": (((("rust", "src", "lib.rs"), "impl Nic {\n"), (("rust", "src", "server.rs"), "impl Server {\n")),
            r"^    (?:pub )?fn (\w+)\((.*?)^    \}", r"nic82540em_(\w+)\(", r"//[^\n]*"),
}
# How an example calls the methods that it doesn't name
UNNAMED = {"__init__": r"\b(Nic|Server)\(", "free": r"\bwith Nic\(", "close": r"\bwith Server\(",
           "drop": r"\b(Nic|Server)::new\(", "new": r"\b(Nic|Server)::new\(", "name": r"\.(name|register_name)\("}


def examples(ending):
    """Returns the names of the examples with this ending, without the ending."""
    return sorted(name[:-len(ending)] for name in os.listdir(EXAMPLES) if name.endswith(ending))


def output_of(name):
    return text_of("examples", "library", f"{name}.txt")


def code_of(ending, comment):
    """Returns the examples with this ending as one text, without comments."""
    text = "\n".join(text_of("examples", "library", name + ending) for name in examples(ending))
    return re.sub(comment, "", text, flags=re.S)


def calls_in_examples(library):
    """In each language, each call of the library is made by an example."""
    header, code = text_of("bindings", "c", "nic82540em.h"), code_of(".c", r"/\*.*?\*/")
    calls = set(re.findall(r"\bnic82540em_(\w+)\(struct nic82540em(?:_server)? \*", header))
    missing = [name for name in sorted(calls) if f"nic82540em_{name}(" not in code]
    library.check("calls without an example *.c", missing, [])
    calls.remove("print")  # an inline function of the header
    for ending, (places, method, call, comment) in BINDINGS.items():
        code = code_of(ending, comment)
        bodies = [found for path, before in places
                  for found in re.findall(method, text_of("bindings", *path).partition(before)[2], re.S | re.M)]
        made = {one for name, body in bodies if re.search(UNNAMED.get(name, rf"\.{name}\("), code)
                for one in re.findall(call, body)}
        library.check(f"calls without an example *{ending}", sorted(calls - made), [])


def has_fuzzer(library):
    """Whether clang has libFuzzer. Prints a line if it hasn't."""
    library.put("empty.c", b"int LLVMFuzzerTestOneInput(const char *data, long size) { return data && size < 0; }\n")
    ran = subprocess.run(["clang", "-fsanitize=fuzzer", "-o", "empty", "empty.c"], cwd=library.folder,
                         capture_output=True)
    if ran.returncode != 0:
        print("not played, because clang has no libFuzzer: the harness by libFuzzer")
    return ran.returncode == 0


def examples_in_c(library):
    if not library.is_there("cc", "the examples in C"):
        return
    for name in examples(".c"):
        source, extra = os.path.join(EXAMPLES, f"{name}.c"), ["-DALONE"] if name.startswith("fuzz") else []
        for how, words in ("", []), ("_sanitized", [SANITIZERS, "-g"]):
            target = library.path(name + how)
            flags = ["-std=c99", "-O1", *WARNINGS, *extra, *words]
            if library.compiles(name + how, "cc", *flags, "-o", target, source, *library.flags):
                library.prints(f"{name}{how}: runs", [target], output_of(name))
    library.put("page.c", re.search(r"```c\n(.*?)```", text_of("docs", "LIBRARY.md"), re.S)[1].encode())
    if library.compiles("the code of LIBRARY.md", "cc", "-std=c99", *WARNINGS, "-o", "page", "page.c", *library.flags):
        library.prints("the code of LIBRARY.md: runs", [library.path("page")], "00000080\n")
    if library.is_there("valgrind", "the examples in C by valgrind"):
        for name in (name for name in examples(".c") if not name.startswith("fuzz")):
            library.prints(f"{name}: by valgrind", ["valgrind", "-q", "--leak-check=full", "--error-exitcode=9",
                                                    library.path(name)], output_of(name))


def fails(library, name, words, fault):
    """Checks that a fuzzer ends by this fault of the driver."""
    ran = subprocess.run(words, cwd=library.folder, capture_output=True, text=True, timeout=600)
    found = re.search(r"^frame \d+ (.*)$", ran.stderr, re.M)
    library.check(name, (ran.returncode != 0, found and found[1]), (True, fault))


def fuzzers(library):
    """The driver's harness finds both races, also by libFuzzer. By libFuzzer, the harnesses find nothing in the adapter
    and in the right driver.
    """
    source = os.path.join(EXAMPLES, "fuzz_driver.c")
    for race, fault in RACES if library.is_there("cc", "the harness of a driver") else ():
        target = library.path(f"alone_{race}")
        flags = [*WARNINGS, "-DALONE", f"-D{race}=1"]
        if library.compiles(f"fuzz_driver, {race}", "cc", *flags, "-o", target, source, *library.flags):
            fails(library, f"fuzz_driver, {race}: runs", [target], fault)
    if not (library.is_there("clang", "the harnesses by libFuzzer") and has_fuzzer(library)):
        return
    words = ["clang", "-O1", "-g", "-fsanitize=fuzzer,address"]
    for name, race, fault in ("fuzz", "", ""), ("fuzz_driver", "", ""), *(("fuzz_driver", *race) for race in RACES):
        target, title = library.path(f"fuzzer_{name}{race}"), f"{name} {race} by libFuzzer".replace("  ", " ")
        source, defined = os.path.join(EXAMPLES, f"{name}.c"), [f"-D{race}=1"] if race else []
        if not library.compiles(title, *words, *defined, "-o", target, source, *library.flags):
            continue
        command = [target, f"-runs={FUZZ_RUNS}", "-seed=1", f"-artifact_prefix={library.folder}/"]
        if race:
            fails(library, f"{title}: runs", command, fault)
        else:
            ran = subprocess.run(command, cwd=library.folder, capture_output=True, text=True, timeout=600)
            library.check(f"{title}: runs", (ran.returncode, f"Done {FUZZ_RUNS} runs" in ran.stderr), (0, True))


# The library as other build systems find it

def by_pkg_config(library):
    """The line of docs/LIBRARY.md makes a program that runs without LD_LIBRARY_PATH."""
    if not all([library.is_there(tool, "the line for pkg-config") for tool in ("cc", "pkg-config")]):
        return
    env = {**os.environ, "PKG_CONFIG_PATH": os.path.join(library.root, "lib", "pkgconfig")}
    env.pop("LD_LIBRARY_PATH", None)
    line = re.search(r"^\$ (cc -o first .*)$", text_of("docs", "LIBRARY.md"), re.M)[1]
    how = {"cwd": TOP, "env": env, "capture_output": True, "text": True}
    ran = subprocess.run(["sh", "-c", f"{line} && mv first '{library.folder}'"], **how)
    library.check("the line for pkg-config", (ran.returncode, ran.stderr), (0, ""))
    library.prints("the program by pkg-config: runs", [library.path("first")], output_of("first"))
    ran = subprocess.run(["pkg-config", "--variable=proved", "nic82540em"], **how)
    if library.proved is not None:
        library.check("whether it was proved", ran.stdout.strip(), library.proved)


CMAKE = """cmake_minimum_required(VERSION 3.13)
project(examples C)
find_package(nic82540em VERSION REQUIRED)
foreach(kind nic82540em shared)
    add_executable(first_${kind} FIRST)
    target_link_libraries(first_${kind} nic82540em::${kind})
endforeach()
"""


def by_cmake(library):
    """CMake's find_package finds the library for its version, and not for a newer one. Programs that are linked with it
    run.
    """
    if not (library.is_there("cc", "find_package") and library.is_there("cmake", "find_package")):
        return
    pc = text_of(library.root, "lib", "pkgconfig", "nic82540em.pc")
    version = re.search(r"^Version: (\d+)\.(\d+)", pc, re.M)
    for wanted, is_found in (f"{version[1]}.{version[2]}", True), (f"{version[1]}.{int(version[2]) + 1}", False):
        folder = os.path.join(library.folder, f"cmake-{wanted}")
        os.makedirs(folder)
        text = CMAKE.replace("VERSION REQ", f"{wanted} REQ").replace("FIRST", os.path.join(EXAMPLES, "first.c"))
        library.put(os.path.join(f"cmake-{wanted}", "CMakeLists.txt"), text.encode())
        ran = subprocess.run(["cmake", "-S", folder, "-B", f"{folder}/made", f"-DCMAKE_PREFIX_PATH={library.root}"],
                             stdout=subprocess.DEVNULL, stderr=subprocess.PIPE, text=True)
        is_other = "compatible with requested version" in ran.stderr
        library.check(f"CMake finds version {wanted}", (ran.returncode == 0, is_other), (is_found, not is_found))
        if not is_found:
            continue
        ran = subprocess.run(["cmake", "--build", f"{folder}/made"], capture_output=True, text=True)
        library.check("CMake builds", (ran.returncode, ran.returncode and ran.stderr[-2000:]), (0, 0))
        for kind in "nic82540em", "shared":
            library.prints(f"CMake, {kind}: runs", [f"{folder}/made/first_{kind}"], output_of("first"))


EXPLORE = """cmake_minimum_required(VERSION 3.13)
project(explore C)
enable_testing()
find_package(nic82540em_explore REQUIRED)
find_package(PkgConfig REQUIRED)
pkg_check_modules(EXPLORE REQUIRED IMPORTED_TARGET nic82540em_explore)
pkg_check_modules(NIC REQUIRED IMPORTED_TARGET nic82540em)
add_executable(package TEST)
target_link_libraries(package nic82540em_explore::nic82540em_explore)
add_executable(pkg TEST)
target_link_libraries(pkg PkgConfig::EXPLORE)
add_executable(first FIRST)
target_link_libraries(first PkgConfig::NIC)
foreach(test package pkg)
    add_test(NAME ${test} COMMAND ${test} --explore every)
endforeach()
add_test(NAME invalid COMMAND package --no-such-option)
"""


def explorer_by_cmake(library):
    """CMake links a test with the explorer by find_package and PkgConfig::, with each C compiler that is there. CTest
    runs it, and writes JUnit's form.
    """
    if not all(library.is_there(tool, "the explorer by CMake") for tool in ("cmake", "ctest", "pkg-config")):
        return
    for compiler in "gcc", "clang":
        if not library.is_there(compiler, "the explorer by CMake"):
            continue
        folder = f"explore-{compiler}"
        os.makedirs(library.path(folder))
        text = EXPLORE.replace("TEST)", f"{os.path.join(TOP, 'examples', 'explore', 'my_test.c')})")
        text = text.replace("FIRST", os.path.join(EXAMPLES, "first.c"))
        library.put(os.path.join(folder, "CMakeLists.txt"), text.encode())
        made = library.path(os.path.join(folder, "made"))
        env = {"PKG_CONFIG_PATH": os.path.join(library.root, "lib", "pkgconfig"), "NIC_EXPLORE": "every"}
        words = [["cmake", "-S", library.path(folder), "-B", made, f"-DCMAKE_PREFIX_PATH={library.root}",
                  f"-DCMAKE_C_COMPILER={compiler}"], ["cmake", "--build", made]]
        for line in words:
            status, _, said = library.execute(*line, env=env, limit=600)
            library.check(f"{compiler}: {line[1]}", (status, status and said[-2000:]), (0, 0))
        library.prints(f"{compiler}: PkgConfig:: of the library", [os.path.join(made, "first")], output_of("first"))
        status, _, _ = library.execute("ctest", "--test-dir", made, "--output-junit", "junit.xml", env=env, limit=600)
        with open(os.path.join(made, "junit.xml")) as file:
            xml = file.read()
        library.check(f"{compiler}: CTest", (status, re.findall(r'tests="(\d+)"\s+failures="(\d+)"', xml)),
                      (8, [("3", "1")]))


def by_pip(library):
    """pip installs the Python package without the internet, with the library in it. The code of docs/LIBRARY.md runs
    with it. Without the library, pip fails, and names the file.
    """
    pip = [sys.executable, "-m", "pip", "--disable-pip-version-check"]
    if subprocess.run([*pip, "--version"], capture_output=True).returncode != 0:
        print("not played, because there is no pip: the package for Python")
        return
    package, target = os.path.join(TOP, "bindings", "python"), library.path("installed")
    words = [*pip, "install", "--quiet", "--no-index", "--no-build-isolation", "--no-compile",
             "--target", target, package]

    def install(folder):
        env = {**os.environ, "PYTHONDONTWRITEBYTECODE": "1", "NIC82540EM_LIB": folder}
        return subprocess.run(words, env=env, cwd=library.folder, capture_output=True, text=True)

    ran = install(os.path.join(library.root, "lib"))
    library.check("pip installs the package", (ran.returncode, ran.returncode and ran.stderr[-2000:]), (0, 0))
    code = re.search(r"```python\n(.*?)```", text_of("docs", "LIBRARY.md"), re.S)[1]
    installed = ["env", "-u", "NIC82540EM_LIB", f"PYTHONPATH={target}", sys.executable, "-B", "-c", code]
    library.prints("the package: runs", installed, "True 0x80\n")
    searched_in_python(library, target)
    library.check("the package has types", os.path.exists(os.path.join(target, "nic82540em", "py.typed")), True)
    ran = install(library.folder)
    is_told = "libnic82540em.so isn't in" in ran.stderr
    library.check("pip without the library", (ran.returncode != 0, is_told), (True, True))


def searched_in_python(library, package):
    """`python3 -m nic82540em` runs a function as a test, with the adapter in process or by pipes. What the function
    prints isn't a request.
    """
    env = {**os.environ, "PYTHONPATH": package, "PYTHONDONTWRITEBYTECODE": "1", "PYTHONUNBUFFERED": "1"}
    env.pop("NIC82540EM_LIB", None)
    text = text_of(EXAMPLES, "searched.py").replace("    queue(adapter)\n", "    print('queues')\n    queue(adapter)\n")
    library.put("searched.py", text.encode())
    library.put("race.txt", b"0.7 txtake before read ICR\n")
    words = [sys.executable, "-m", "nic82540em"]
    fails = "the queue is empty before the test has waited\n"

    def here(*more):
        ran = subprocess.run([*words, *more], cwd=library.folder, env=env, capture_output=True, text=True)
        return ran.returncode, ran.stderr[-300:]

    def by_pipes(test, *options):
        served = subprocess.Popen([library.program, "serve", *options], cwd=library.folder, stdin=subprocess.PIPE,
                                  stdout=subprocess.PIPE, stderr=subprocess.DEVNULL)
        ran = subprocess.run([*words, f"searched.py:{test}"], cwd=library.folder, env=env, stdin=served.stdout,
                             stdout=served.stdin, stderr=subprocess.PIPE, text=True, timeout=60)
        served.communicate()
        return ran.returncode, ran.stderr

    library.check("a function: in process", here("--here", "searched.py:test_wrong"), (0, ""))
    library.check("a function: in process, with a schedule",
                  here("--here", "searched.py:test_wrong", "--schedule", "race.txt"), (1, fails))
    for test, options, wanted in (("test_right", [], (0, "")), ("test_wrong", [], (0, "")),
                                  ("test_wrong", ["--schedule", "race.txt"], (1, fails))):
        status, said = by_pipes(test, *options)
        library.check(f"a function: by pipes, {test} {options}", (status, said.replace("queues\n", "")), wanted)
    for more in ([], ["searched.py"], ["searched.py:none"], ["none.py:test"], ["--here"]):
        status, said = here(*more)
        library.check(f"a function: the words {more}", (status, said != ""), (2, True))


def refused_memory(library):
    """In library_refused.c, each allocation of four calls fails in turn, and no block of the heap is left at the end.
    """
    if library.is_there("cc", "refused memory"):
        target = library.path("refused")
        source = os.path.join(TOP, "tests", "library_refused.c")
        flags = ["-std=c99", "-g", *WARNINGS, SANITIZERS]
        if library.compiles("refused memory", "cc", *flags, "-o", target, source, *library.flags):
            library.prints("refused memory: runs", [target], "new: refused at each of 11 allocations\n"
                           "copy: refused at each of 11 allocations\noffer: refused at each of 2 allocations\n"
                           "play: 5 of 9 allocations end it\n"
                           "no block is left\n")


def stack(library):
    """In library_stack.c, a thread makes all calls. They need less than 32 KiB of its stack."""
    if library.is_there("cc", "the stack"):
        target = library.path("stack")
        source = os.path.join(TOP, "tests", "library_stack.c")
        flags = ["-std=gnu11", *WARNINGS, "-pthread"]
        if library.compiles("the stack", "cc", *flags, "-o", target, source, *library.flags):
            ran = subprocess.run([target], capture_output=True, text=True, timeout=60)
            size = int(ran.stdout or 0)
            library.check("the stack: runs", (ran.returncode, ran.stderr), (0, ""))
            library.check(f"the stack: {size} bytes are fewer than 32 KiB", 4096 < size < 32 << 10, True)


def examples_in_other_languages(library):
    if library.is_there("c++", "the first example as C++"):
        target = library.path("first_cpp")
        source = os.path.join(EXAMPLES, "first.c")
        if library.compiles("first as C++", "c++", "-x", "c++", *WARNINGS, "-o", target, source, "-x", "none",
                            *library.flags):
            library.prints("first as C++: runs", [target], output_of("first"))
    env = ["env", f"PYTHONPATH={os.path.join(TOP, 'bindings', 'python')}",
           f"NIC82540EM_LIB={os.path.join(library.root, 'lib')}"]
    for name in examples(".py"):
        library.prints(f"{name}.py: runs", [*env, sys.executable, "-B", os.path.join(EXAMPLES, f"{name}.py")],
                       output_of(name))
    if library.is_there("rustc", "the crate and the examples in Rust"):
        rustc = ["rustc", "--edition", "2021", "-O", "-D", "warnings"]
        path = ["-L", f"native={os.path.join(library.root, 'lib')}"]
        if library.compiles("the crate in Rust", *rustc, "--crate-type", "rlib", "--crate-name", "nic82540em", "-o",
                            "libnic82540em.rlib", os.path.join(TOP, "bindings", "rust", "src", "lib.rs"), *path,
                            "-l", "static=nic82540em"):
            for name in examples(".rs"):
                target = library.path(f"{name}_rs")
                if library.compiles(f"{name}.rs", *rustc, "-o", target, os.path.join(EXAMPLES, f"{name}.rs"),
                                    "--extern", "nic82540em=libnic82540em.rlib", *path):
                    library.prints(f"{name}.rs: runs", [target], output_of(name))


PARTS = (calls_in_examples, refused_memory, stack, examples_in_c, fuzzers, examples_in_other_languages, by_pkg_config,
         by_cmake, explorer_by_cmake, by_pip)
