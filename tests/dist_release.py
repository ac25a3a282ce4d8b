"""Tests of the release in dist: each C compiler builds it, and the scripts use it without the toolchain."""

import os
import re
import shutil
import subprocess

from bare_root import BareRoot
from harness import TOP, Checks, not_run, text_of
import dist
import sources
from quick import kit_of

EVERY = "every schedule, with any number of deviations, without holds: none of "
# By a name: the compiler's command, and what runs its programs
COMPILERS = {
    "gcc -O0": (["gcc", "-O0"], []), "gcc -O2": (["gcc", "-O2"], []), "gcc -static": (["gcc", "-O0", "-static"], []),
    "clang -O0": (["clang", "-O0"], []), "clang -O2": (["clang", "-O2"], []),
    "musl": (["musl-gcc", "-O0"], []), "musl -static": (["musl-gcc", "-O2", "-static"], []),
    "aarch64": (["aarch64-linux-gnu-gcc", "-O2"], ["qemu-aarch64", "-L", "/usr/aarch64-linux-gnu"]),
}
FIRST = os.path.join(TOP, "examples", "library", "first.c")


class Amalgamation(Checks):
    """Runs of compilers and of scripts, in a folder."""

    def has(self, words, what):
        return not words or self.is_there(words[0], what)

    def compiled(self, name, words, folder):
        """Runs a compiler. Checks that it succeeds without a word, and returns whether it does."""
        ran = subprocess.run(words, cwd=folder, capture_output=True, text=True)
        return self.check(f"{name}: compiles", (ran.returncode, ran.stdout, ran.stderr[-2000:]), (0, "", ""))

    def says(self, name, words, folder, status, text, env=None):
        """Checks the status of a command, and that its output contains a text."""
        ran = subprocess.run(words, cwd=folder, capture_output=True, text=True, timeout=600, env=env)
        said = ran.stdout + ran.stderr
        return self.check(name, (ran.returncode, text if text in said else said[-2000:]), (status, text))


def hidden():
    """The words that run a command with the folder of the toolchain hidden, or none if the system doesn't allow it."""
    rt = shutil.which(os.environ.get("RT", "rt"))
    folder = kit_of(rt) if rt else ""
    words = ["unshare", "-m", "sh", "-c", 'mount -t tmpfs none "$1" && shift && exec "$@"', "sh", folder]
    if not rt or subprocess.run([*words, "true"], capture_output=True).returncode == 0:
        return words if rt else []
    not_run("with the toolchain's folder hidden", "the system doesn't allow it")
    return []


def builds(checks, name, crate, folder):
    """Yields each compiler that is there: its name in COMPILERS, its command, and what runs its programs. A compiler
    is skipped if a crate has no code for its processor.
    """
    for kind, (words, runner) in COMPILERS.items():
        if not checks.has(words, f"{name}: {kind}") or not checks.has(runner, f"{name}: {kind}"):
            continue
        if "aarch64" in kind and not os.path.exists("/usr/aarch64-linux-gnu/include/stdio.h"):
            not_run(f"{name}: {kind}", "there is no C library for it (on Debian: libc6-dev-arm64-cross)")
            continue
        if "aarch64" in kind and not os.path.exists(os.path.join(folder, f"{crate}-aarch64.S")):
            not_run(f"{name}: {kind}", "there is no code for it")
            continue
        yield kind, words, runner


def by_each_compiler(checks, folder, name):
    """The template, compiled in one command by each compiler, finds that no schedule fails."""
    for kind, words, runner in builds(checks, name, sources.LIBRARY, folder):
        files = sorted(it for it in os.listdir(folder) if it.endswith((".c", ".S")))
        if checks.compiled(f"{name}: {kind}", [*words, *files, "-o", "my_test"], folder):
            checks.says(f"{name}: {kind}", [*runner, "./my_test", "--explore", "every"], folder, 0, EVERY)
    library = [it for it in os.listdir(folder) if it.startswith("nic82540em-")]
    shared = ["cc", "-shared", "-fPIC", "-o", "libnic.so", "nic82540em_heap.c", *library]
    if checks.compiled(f"{name}: a shared library", shared, folder):
        checks.compiled(f"{name}: without the explorer", ["cc", "-I.", "-o", "first", FIRST, "./libnic.so"], folder)
        checks.says(f"{name}: without the explorer", ["./first"], folder, 0, "00000080")


def release(checks):
    """Without the toolchain, a copy of the repository runs a scenario and the template, as README.md states."""
    if not dist.is_there(sources.LIBRARY):
        not_run("the release in dist", "there is none")
        return
    checks.check("dist", dist.check(print), False)
    files = dist.files_of(sources.LIBRARY)
    folder = checks.path("release")
    dist.unpack(files, folder)
    by_each_compiler(checks, folder, "dist")
    copy, is_old = checks.path("copy"), bool(dist.since(sources.LIBRARY, files))
    shutil.copytree(TOP, copy, ignore=shutil.ignore_patterns(".git", ".build", "out", "__pycache__"))
    env = {"PATH": "/usr/bin:/bin", "HOME": checks.folder}
    in_bare_root(checks, files)
    alone, words = hidden(), ["--release"] if is_old else []
    checks.says("tools/library without the toolchain", [*alone, "tools/library", *words, checks.path("nic")], copy, 0,
                "the library is in", env)
    flags = {**env, "PKG_CONFIG_PATH": checks.path("nic/lib/pkgconfig")}
    template = checks.path("release/my_test.c") if is_old else "examples/explore/my_test.c"
    line = (f"cc $(pkg-config --variable=explore_cflags nic82540em_explore) -o my_test {template} "
            "$(pkg-config --cflags --libs nic82540em_explore) && ./my_test --explore every")
    if checks.is_there("pkg-config", "the template with pkg-config"):
        checks.says("the template with pkg-config", [*alone, "sh", "-c", line], copy, 0, EVERY, flags)
    python = ("from nic82540em import Nic; n = Nic(); n.write(0xC8, 0x80); print(hex(n.read(0xC0)))")
    checks.says("Python without the toolchain", [*alone, "python3", "-B", "-c", python], copy, 0, "0x80",
                {**env, "NIC82540EM_LIB": checks.path("nic/lib"), "PYTHONPATH": "bindings/python"})
    rust(checks, copy, alone)
    in_ci(checks, copy, alone, files, env)
    if dist.is_there(sources.PROGRAM):
        program(checks, copy, alone, env)
        programs(checks)
    else:
        not_run("the program without the toolchain", "it isn't in dist")


def in_bare_root(checks, files):
    """With nothing but Debian's gcc, one command compiles the template, and searches it."""
    folder = checks.path("bare")
    root = BareRoot(folder)
    if root.lack:
        not_run("dist in a bare root", root.lack)
        return
    dist.unpack(files, os.path.join(folder, "dist"))
    status, said = root.run("cd dist && cc -O2 *.c *.S -o my_test && ./my_test --explore every")
    checks.check("dist in a bare root", (status, EVERY if EVERY in said else said[-2000:]), (0, EVERY))


def blocks_of(page, language):
    """The blocks of a page in a language."""
    return re.findall(rf"^```{language}\n(.*?)^```$", page, re.M | re.S)


def in_ci(checks, copy, alone, files, env):
    """The jobs of docs/CI.md do what they state, in a project with the repository in its folder `nic`."""
    page = text_of("docs", "CI.md")
    jobs = blocks_of(page, "yaml")
    form = r"^ +- (?:run: )?((?:tar|cc|\./my_test|nic/tools/library|cmake|ctest) .*)$"
    lines = [re.findall(form, job, re.M) for job in jobs]
    checks.check("docs/CI.md: its jobs", [len(commands) for commands in lines], [4, 3, 3, 0])
    for number, commands in enumerate(lines[:3], 1):
        if number > 1 and not checks.is_there("cmake", f"docs/CI.md: job {number}"):
            continue
        project = checks.path(f"project{number}")
        os.makedirs(project)
        shutil.copytree(copy, os.path.join(project, "nic"))
        checks.put(f"project{number}/my_test.c", files["my_test.c"].encode())
        checks.put(f"project{number}/my_driver.c", b"typedef int nothing;\n")
        checks.put(f"project{number}/CMakeLists.txt", blocks_of(page, "cmake")[0].encode())
        for command in commands:
            checks.says(f"docs/CI.md: {command}", [*alone, "sh", "-c", command], project, 0, "", env)
        made = {1: "schedules.json"}.get(number, "made/junit.xml")
        with open(os.path.join(project, made), encoding="utf-8") as file:
            text = file.read()
        wanted = '"result": "passes"' if number == 1 else 'tests="1"'
        checks.check(f"docs/CI.md: job {number}", (wanted in text, 'failures="1"' in text), (True, False))


CARGO = """[package]
name = "driver"
version = "0.1.0"
edition = "2021"
[dev-dependencies]
CRATE = { path = "COPY" }
"""
# Tests of one program, which run at the same time. A planted fault: it needs a step before the read of ICR. With LOST,
# the test `lost` fails by it.
DRIVER = """use nic82540em_explore::{explored, Arena, Bus, Explored};
#[global_allocator]
static ARENA: Arena = Arena;
fn offers(mut bus: Explored) {
    let mut frame = [0u8; 60];
    frame[..6].fill(255);
    bus.store(0x10000, &frame);
    bus.store(0x2000, &[0, 0, 1, 0, 0, 0, 0, 0, 60, 0, 0, 9, 0, 0, 0, 0]);
    bus.write(0x3800, 0x2000);
    bus.write(0x3808, 128);
    bus.write(0x400, 2);
    bus.write(0x3818, 1);
}
fn sends(mut bus: Explored) {
    offers(bus);
    bus.settle();
    assert_eq!(bus.put().len(), 1);
}
#[test]
fn lost() {
    assert!(std::env::var_os("LOST").is_none() || explored(fails));
}
fn fails(mut bus: Explored) {
    offers(bus);
    assert!(bus.read(0xC0) & 2 == 0, "a queue is empty");
}
#[test]
fn planted() {
    assert!(!explored(fails));
}
#[test]
fn first() {
    assert!(explored(sends));
}
#[test]
fn second() {
    assert!(explored(sends));
}
"""
ADAPTER = """#[test]
fn an_adapter() {
    let mut nic = nic82540em::Nic::new(&nic82540em::Options::default()).unwrap();
    nic.write(0xD0, 0x80);
    nic.write(0xC8, 0x80);
    assert_eq!(nic.read(0xC0), 0x80);
}
"""


def put_package(checks, crate, folder, test):
    """Writes a package with a test that uses a crate. Returns its folder."""
    package = f"driver_{crate}"
    for name in "src", "tests":
        os.makedirs(checks.path(f"{package}/{name}"))
    checks.put(f"{package}/Cargo.toml", CARGO.replace("CRATE", crate).replace("COPY", folder).encode())
    checks.put(f"{package}/src/lib.rs", b"")
    checks.put(f"{package}/tests/driver.rs", test.encode())
    return checks.path(package)


def by_shell(alone, package, line, **more):
    """Runs a line of the shell in a package. Returns the status with the results of its tests, and the output."""
    env = {name: text for name, text in os.environ.items() if name not in ("NIC82540EM_LIB", "CC", "AR")}
    ran = subprocess.run([*alone, "sh", "-c", line], cwd=package, env={**env, "CARGO_NET_OFFLINE": "true", **more},
                         capture_output=True, text=True, timeout=600)
    results = sorted(re.findall(r"^test (\w+) \.\.\. (\w+)$", ran.stdout, re.M))
    return (ran.returncode, results or ran.stderr[-2000:]), ran.stdout


def rust(checks, copy, alone):
    """`cargo test` builds both crates from nothing. Several searches in one program don't disturb each other."""
    if not checks.is_there("cargo", "the crates by Cargo"):
        return
    bindings = os.path.join(copy, "bindings")
    package = put_package(checks, "nic82540em_explore", os.path.join(bindings, "rust_explore"), DRIVER)
    ended, out = by_shell(alone, package, "cargo test --test driver -- --show-output")
    checks.check("cargo test: searches", ended, (0, [(name, "ok") for name in ("first", "lost", "planted", "second")]))
    counts = re.findall(r"^(\d+) runs, ", out, re.M)
    checks.check("cargo test: runs of each search", [count for count in counts if int(count) >= 1000], ["1000"] * 2)
    played_by_cargo(checks, alone, package)
    package = put_package(checks, "nic82540em", os.path.join(bindings, "rust"), ADAPTER)
    ended, _ = by_shell(alone, package, "cargo test --test driver")
    checks.check("cargo test: an adapter", ended, (0, [("an_adapter", "ok")]))


def played_by_cargo(checks, alone, package):
    """The commands that a failing test prints under Cargo play its schedule, in this test only."""
    failed = (101, [("lost", "FAILED")])
    for words, variables in (("", {}), ("", {"NIC_OUT": checks.path("stored")}), ("-- --test-threads 1", {})):
        ended, out = by_shell(alone, package, f"cargo test --test driver lost {words}", LOST="1", **variables)
        checks.check(f"cargo test {words} {[*variables]}: fails", (ended, "a queue is empty" in out), (failed, True))
        lines = dict(re.findall(r"^(To play it again|For each access|For its chart): +(.*)$", out, re.M))
        checks.check("cargo test: the lines of commands", lines.get("For each access"), "the same with NIC_LOG=1")
        checks.check("cargo test: no line that can't be used", len(lines), 2)
        command = lines["To play it again"].replace("cargo test", "cargo test --test driver", 1)
        for given in (command, command.replace("NIC_REPLAY", "NIC_LOG=1 NIC_REPLAY")):
            if "--exact" not in command:  # of one thread: it has no name of the test
                given += " lost"
            ended, out = by_shell(alone, package, given, LOST="1")
            logged = len(re.findall(r"^ *\d+\.\d+ .*\bICR\b", out, re.M)) > 0
            checks.check(f"`{given}`", (ended, "a queue is empty" in out, logged), (failed, True, "NIC_LOG" in given))


def program(checks, copy, alone, env):
    """Without the toolchain, a copy of the repository runs a scenario and serves requests."""
    is_old = bool(dist.since(sources.PROGRAM, dist.files_of(sources.PROGRAM)))
    words = ["./nicbench", *["--release"] * is_old]
    os.makedirs(os.path.join(copy, "out"))
    checks.says("run without the toolchain", [*alone, *words, "run", "examples/race.scenario", "out"], copy, 0,
                "b accepted 0 put 0 reached 3 stored 3 missed 0 exact given 3 unclaimed 0", env)
    checks.says("show without the toolchain", [*alone, *words, "show", "out/b.0.pcap"], copy, 0,
                "frames 3 skipped 0 cut no", env)
    if is_old:
        checks.says("run of other sources without the toolchain", [*alone, "./nicbench", "show", "out/b.0.pcap"], copy,
                    70, "changed since the release", env)


EXAMPLES = os.path.join(TOP, "examples")
# Without errors: a failure's text and status, requests of all kinds, and a name that can't be opened
REQUESTS = b"writel 0xFEB000D0 0x80\nwritel 0xFEB000C8 0x80\nreadl 0xFEB000C0\nnothing\nstate\n"


def outputs(words, folder):
    """What a program does: status, output and errors of some commands by their words, and the files that they write."""
    scenarios = [name for name in sorted(os.listdir(EXAMPLES)) if name.endswith(".scenario")]
    traces = [name for name in sorted(os.listdir(EXAMPLES)) if name.endswith(".pcap")]
    commands = [("--version",), ("show", "missing"), ("run", os.path.join(EXAMPLES, "race.scenario"), "none"),
                ("serve", "--schedule", "missing"), *(("show", os.path.join(EXAMPLES, name)) for name in traces),
                ("pass", "--group", "01:00:5e:00:00:01", os.path.join(EXAMPLES, "groups.pcap"), "out.pcap")]
    found = {}
    for name in scenarios:
        os.makedirs(os.path.join(folder, name))
        commands.append(("run", "--events", f"{name}/events", os.path.join(EXAMPLES, name), name))
    for command in [*commands, ("serve",)]:
        ran = subprocess.run([*words, *command], cwd=folder, input=REQUESTS, capture_output=True, timeout=600)
        found[command] = ran.returncode, ran.stdout, ran.stderr
    for place, _, names in os.walk(folder):
        for path in (os.path.join(place, name) for name in names):
            with open(path, "rb") as file:
                found[os.path.relpath(path, folder)] = file.read()
    return found


def programs(checks):
    """The program of dist by each compiler, also for another processor, does the same as the one that `cc` builds."""
    files = dist.files_of(sources.PROGRAM)
    if dist.since(sources.PROGRAM, files):
        # the compilers and processors are those of the present sources
        not_run("the program of dist by each compiler", "it was made of other sources")
        return
    folder = checks.path("programs")
    dist.unpack(files, folder)
    code = sorted(name for name in files if name.endswith((".c", ".S")))
    wanted = None
    for kind, words, runner in builds(checks, "the program", sources.PROGRAM, folder):
        if checks.compiled(f"the program: {kind}", [*words, *code, "-o", "nicbench"], folder):
            inner = checks.path(f"outputs of {kind}")
            os.makedirs(inner)
            found = outputs([*runner, os.path.join(folder, "nicbench")], inner)
            wanted = wanted or found
            checks.check(f"the program: {kind}: differences", [name for name in {*found, *wanted}
                                                               if found.get(name) != wanted.get(name)], [])
            checks.check(f"the program: {kind}: runs", len(found) > 40, True)
            if "x86_64" in os.uname().machine and not runner:
                on_other_processors(checks, kind, os.path.join(folder, "nicbench"))


def on_other_processors(checks, kind, program):
    """The program runs on the processor level that its page names, and ends with a message on an older one."""
    if not checks.is_there("qemu-x86_64", f"the program: {kind}: on other processors"):
        return
    for processor, status, text in (("core2duo", 127, "lacks a feature of x86-64-v2"), ("Nehalem", 2, "nicbench 0")):
        words = ["qemu-x86_64", "-cpu", processor, "-L", "/", program, "--version"]
        checks.says(f"the program: {kind}: on {processor}", words, checks.folder, status, text)
