"""Tests of what the explorer must find, and of what it refuses.

These are races that once passed, calls whose effects can't be saved, and hooks for pointers. There are also files of
schedules, and tests that don't end. tests/explore.py runs these tests.
"""

import json
import os
import re
import shutil
import signal
import subprocess
import time

from harness import TOP

SOURCES = os.path.join(TOP, "tests", "explorer")
HOOKS = os.path.join(TOP, "bindings", "c", "explore", "pointers", "hooks.c")
PASSES, FOUND, USAGE, NOT_RUN, NOTHING, DIFFERS = range(6)
# For each test of passes.c: options, and the number of deviations of the smallest schedule of the wrong twin
TWINS = {"flag": ([], 2), "heap": ([], 2), "dead": ([], 1), "prompt": ([], 2), "late": ([], 2), "settle": ([], 2),
         "line": ([], 1), "link": (["--holds"], 5), "choose": ([], 1), "nested": ([], 3), "masked": ([], 2),
         "removed": ([], 2), "unmasked": ([], 1), "given": ([], 1), "order": ([], 1)}
# Of these tests, the only place at which the race shows
PLACES = {"line": "line", "masked": "interrupts off", "removed": "handler off", "unmasked": "interrupts on",
          "given": "handler on"}
# What a test keeps or does, and the end of the line on standard error
REFUSED = {"file": "opens a file (openat)", "stream": "opens a file (openat)", "fork": "starts a child (clone)",
           "system": "starts a child (clone3)", "thread": "starts a thread (clone3)",
           "input": "reads from a file (read)",
           "shared": "maps memory (mmap)", "random": "asks for random numbers (getrandom)",
           "adapter": "makes an adapter of its own",
           "guard": "protects memory (mprotect)", "madvise": "gives memory back (madvise)",
           "read only": "maps memory (mmap)", "mremap": "moves memory (mremap)",
           "brk": "moves the end of its data (brk)",
           "handles": "handles a signal (rt_sigaction)", "kill": "looks at another process (getppid)",
           "SIGSTOP": "stops its process (SIGSTOP)", "SIGUSR2": "sends itself a signal that main handles (SIGUSR2)",
           "switches": "runs on another stack than that of its function (makecontext)"}
# What the test does if a frame is finished early, and what then is wrong with the run
ACTS = {**{name: f"ended by {name}" for name in ("SIGALRM", "SIGUSR1", "SIGTERM", "SIGKILL", "SIGSEGV", "SIGABRT")},
        "kills itself": "ended by SIGUSR1", "exits": "the test ends its process with exit status 7"}
HARMLESS = "SIGCHLD", "SIGPIPE", "ignores", "parts", "switches silently", "output"
# Where a test keeps a bit. Each search has the answer of that with a static variable.
KEPT = ("specific", "cancel state", "cancel type", "long flag", "flag", "rounding", "errno", "sbrk", "main", "mask",
        "ignored", "pending")
THREADED = ("explore: the process has another thread, which may write memory at any time: search before it is started, "
            "or in a process of its own\n")
THREADS = ["-O0", "-ftrivial-auto-var-init=zero", "-pthread"]
SAVED = "static", "mask", "thread-local", "main", "mapped", "rand", "printf", "stream in memory"
WRONG_CALLS = {"x_choose": "x_choose: `count` isn't a number from 1 to 16", "x_load": "x_load: `into` is NULL",
               "x_store": "x_store: the driver stores bytes outside of memory", "x_arrive": "x_arrive: `frame` is NULL",
               "x_offer": "x_offer: `frame` is NULL", "x_put": "x_put: `into` is NULL",
               "x_arrived": "x_arrived: `fate` is NULL", "x_host": "x_host: `size` is NULL",
               "x_memory": "x_memory: the test has asked for more than 1 MiB"}
# How a driver with pointers loads the length and the status of a descriptor: the wrong one loads the length first.
STYLES = {"volatile": "*(volatile type *)at", "atomic": "__atomic_load_n(at, __ATOMIC_ACQUIRE)",
          "memcpy": "({ type value_; memcpy(&value_, (const void *)at, sizeof value_); value_; })",
          "memmove": "({ type value_; memmove(&value_, (const void *)at, sizeof value_); value_; })",
          "24 bytes": "({ char all_[24]; memcpy(all_, (const void *)((uintptr_t)at & ~15ul), 24); "
                      "*(type *)(all_ + ((uintptr_t)at & 15)); })"}
TORN = """
#include <stdint.h>
#include <string.h>
#define LOAD(kind, address) ({ typedef kind type; type *at = (type *)(address); STYLE; })
unsigned driver_take(uint8_t *host, unsigned *next, unsigned *bad)
{
    uint8_t *slot = host + 0x1000 + 16 * *next;
    uint16_t length = 0;
    if (IS_WRONG)
        length = LOAD(uint16_t, slot + 8);
    if (!(LOAD(uint8_t, slot + 12) & 1))
        return 0;
    if (!IS_WRONG)
        length = LOAD(uint16_t, slot + 8);
    *bad += length != 60;
    *next = (*next + 1) % 8;
    return 1;
}
"""
TORN_TEST = """
#include <nic82540em_explore.h>
unsigned driver_take(uint8_t *host, unsigned *next, unsigned *bad);
static unsigned next, bad, count;
static uint8_t *host;
static void interrupt(void) { x_read(NIC_ICR); while (driver_take(host, &next, &bad)) count++; }
static const char *test(void *word)
{
    static const uint8_t frame[60] = { 255, 255, 255, 255, 255, 255 };
    uint64_t size;
    (void)word;
    host = x_host(&size);
    for (unsigned slot = 0; slot < 8; slot++)
        x_store(0x1000 + 16 * slot, (uint64_t[]){ 0x10000 + 2048 * slot, 0 }, 16);
    x_write(NIC_RDBAL, 0x1000), x_write(NIC_RDLEN, 128), x_write(NIC_RDT, 7);
    x_write(NIC_RCTL, NIC_RCTL_EN | NIC_RCTL_BAM), x_write(NIC_IMS, NIC_RXT0);
    x_handler(interrupt);
    for (unsigned n = 0; n < 4; n += 2) {
        x_arrive(frame, 60), x_arrive(frame, 60);
        while (x_settle())
            ;
        if (bad || count != n + 2)
            return bad ? "a length is wrong" : "a frame was lost";
    }
    return 0;
}
int main(int count, char **words) { return nic82540em_explore(count, words, test, 0); }
"""
# Stores in a descriptor that is taken: what the explorer names
STORES = {"plain": ("slot[12] = 0", None), "of a range": ("memset(slot + 8, 0, 8)", None),
          "by inline assembly": ('__asm__ volatile("movb $0, %0" : "=m"(slot[12]))', "0x100c before read rx[1]+12")}
# A driver that looks at what its handler has written, and then sleeps: wrong, if it doesn't look again. What both share
# is the test's, or in the frame of the function that waits.
SHARED = """
#include <stdbool.h>
#include <stddef.h>
struct shared { volatile bool is_ready, sleeps; };
"""
WAKE = SHARED + """
void driver_wait(struct shared *it)
{
    if (!it->is_ready)
        it->sleeps = true;
    if (!IS_WRONG && it->is_ready)
        it->sleeps = false;
}
void driver_wake(struct shared *it) { it->is_ready = true, it->sleeps = false; }
"""
OWN_FRAME = SHARED + """
static struct shared *volatile waiting;
void driver_wait(struct shared *result)
{
    struct shared own = { false, false };
    waiting = &own;
    if (!own.is_ready)
        own.sleeps = true;
    if (!IS_WRONG && own.is_ready)
        own.sleeps = false;
    waiting = NULL;
    result->sleeps = own.is_ready && own.sleeps;
}
void driver_wake(struct shared *unused)
{
    (void)unused;
    if (waiting)
        waiting->is_ready = true, waiting->sleeps = false;
}
"""
WAKE_TEST = "#include <nic82540em_explore.h>" + SHARED + """
void driver_wait(struct shared *it);
void driver_wake(struct shared *it);
static struct shared *shared;
static void interrupt(void) { if (x_read(NIC_ICR) & NIC_RXT0) driver_wake(shared); }
static const char *test(void *word)
{
    static const uint8_t frame[60] = { 255, 255, 255, 255, 255, 255 };
    STORAGE struct shared it = { false, false };
    (void)word;
    shared = &it;
    x_store(0x1000, (uint64_t[]){ 0x10000, 0 }, 16);
    x_write(NIC_RDBAL, 0x1000), x_write(NIC_RDLEN, 128), x_write(NIC_RDT, 1);
    x_write(NIC_RCTL, NIC_RCTL_EN | NIC_RCTL_BAM), x_write(NIC_IMS, NIC_RXT0);
    x_handler(interrupt);
    x_arrive(frame, 60);
    driver_wait(shared);
    while (x_settle())
        ;
    return it.sleeps ? "the driver sleeps for ever" : 0;
}
int main(int count, char **words) { return nic82540em_explore(count, words, test, 0); }
"""
WAKES = {"wake": (WAKE, "static"), "wake, on the test's stack": (WAKE, ""), "wake, in its own frame": (OWN_FRAME, "")}
# A solution of the lab whose handler doesn't end
STUDENT = """
#include "e1000.h"
int e1000_transmit(struct e1000 *e, uint8_t *buffer, unsigned length) { (void)e, (void)buffer; return (int)length; }
void e1000_recv(struct e1000 *e) { (void)e; }
void e1000_interrupt(struct e1000 *e) { (void)e; for (volatile int n = 1; n;) ; }
"""


def result_of(bench, *words):
    status, out, errors = bench.run(*words, "--json")
    return status, json.loads(out) if out else {}, errors


def passes(bench):
    """Each wrong twin is found, by a search of every schedule and again by its schedule. Each right twin passes. The
    test `overrun` passes, too.
    """
    test = bench.build("passes", os.path.join(SOURCES, "passes.c"))
    for name, (words, size) in TWINS.items():
        status, result, errors = result_of(bench, test, name, "--explore", "every", *words)
        bench.check(f"passes: {name}", (status, result["result"], errors), (PASSES, "passes", ""))
        found = os.path.join(bench.folder, "found")
        status, result, errors = result_of(bench, test, name, "wrong", "--explore", "every", *words, "--out", found)
        got = status, result["result"], len(result["schedule"]), result["search"]["smallest"], errors
        bench.check(f"passes: {name}, wrong", got, (FOUND, "fails", size, True, ""))
        if name in PLACES:
            at = {re.sub(r"^\d+[.]\d+[+]1 (?:rx|irq) before ", "", line) for line in result["schedule"]}
            bench.check(f"passes: {name}, its place", at, {PLACES[name]})
        status, again, errors = result_of(bench, test, name, "wrong", "--replay", found)
        bench.check(f"passes: {name}, again", (status, again["fault"], errors), (FOUND, result["fault"], ""))
        status, out, _ = bench.run(test, name, "wrong", "--replay", found, "--log")
        place = f"+1  {PLACES[name]}" if name in PLACES else ""
        bench.check(f"passes: {name}, its log", (status, place in out, out.splitlines()[-1]),
                    (FOUND, True, result["fault"]))
    found = bench.source("found", "1.1 rx before read STATUS\n1.1+1 late irq before handler\n")
    status, out, errors = bench.run(test, "late", "wrong", "--replay", found, "--serve", bench.program)
    wanted = f"{bench.program} serve can't play it: it has no handlers, and no places but accesses and requests"
    bench.check("passes: late, served", (status, out.splitlines()[-1], errors), (FOUND, wanted, ""))
    status, result, errors = result_of(bench, test, "overrun", "--explore", "every")
    bench.check("passes: overrun", (status, result["result"], errors), (PASSES, "passes", ""))
    high = bench.source("found", "0.13 choose 3 before choose\n")
    out = bench.run(test, "choose", "--replay", high, "--log")[1]
    bench.check("passes: an answer of three is at most 2", len(re.findall(r" choose 0$", out, re.M)), 3)


def calls(bench):
    """Static and thread-local variables, memory of malloc, and the state of the C library are saved. Files, children
    and threads are refused with their names. A wrong call fails with a sentence that names it.
    """
    test = bench.build("calls", os.path.join(SOURCES, "calls.c"), words=THREADS)
    plain = result_of(bench, test, "none", "--explore", "every")[1]["search"]["schedules"]
    for what in SAVED:
        status, result, errors = result_of(bench, test, what, "--explore", "every")
        got = status, result["result"], result["search"]["schedules"], errors
        extra = 1 if what == "printf" else None
        wanted = PASSES, "passes", plain if extra else got[2], ""
        bench.check(f"calls: {what} is saved", got, wanted)
        status, result, _ = result_of(bench, test, what, "--explore", "2", "--again")
        bench.check(f"calls: {what}, from nothing", (status, result["result"]), (PASSES, "passes"))
    for what, why in REFUSED.items():
        got = bench.run(test, what, "--explore", "every", data="x")
        wanted = f"explore: the test {why}: it can't be saved with the state of the test\n"
        bench.check(f"calls: {what}", got, (NOT_RUN, "", wanted))
    got = bench.run(test, "jumps", "--explore", "every")
    wanted = "explore: the test leaves its handler by a jump (longjmp): end it by a return\n"
    bench.check("calls: jumps", got, (NOT_RUN, "", wanted))
    for what, why in ACTS.items():
        for words in (["--explore", "every"], ["--explore", "1", "--again"]):
            status, result, errors = result_of(bench, test, what, *words)
            got = status, result["fault"], result["schedule"], errors
            bench.check(f"calls: {what} {words}", got, (FOUND, why, ["1.1 rx before read rx[0]+12"], ""))
    for what in HARMLESS:
        status, result, errors = result_of(bench, test, what, "--explore", "every")
        bench.check(f"calls: {what}", (status, result["result"], errors), (PASSES, "passes", ""))
    errors = bench.source("errors.txt", "")
    status, out, _ = bench.run("sh", "-c", f"'{test}' position --explore every --json 2> '{errors}'")
    result = json.loads(out)
    bench.check("calls: the search is wrong", (status, result["result"], result["fault"]),
                (DIFFERS, "differs", "a bit was lost"))
    for what, why in WRONG_CALLS.items():
        status, result, errors = result_of(bench, test, what, "--explore", "1")
        bench.check(f"calls: wrong {what}", (status, result["fault"], errors), (FOUND, why, ""))
    bench.check("calls: x_step(99)", result_of(bench, test, "x_step", "--explore", "1")[0], PASSES)
    status, out, errors = bench.run(test, "printf", "--explore", "every")
    bench.check("calls: what a test prints", (status, "a line" in out, errors), (PASSES, False, ""))
    out = bench.run(test, "printf", "--replay", "/dev/null")[1]
    bench.check("calls: what a replay prints", out.count("a line\n"), 3)


def failing_of(out):
    """How many schedules fail, and of how many."""
    return re.findall("holds: ([1-9][0-9]*) of ([0-9]+) fail$", out, re.M)


def kept(bench):
    """A bit that decides the outcome is a part of the state, wherever the C library or the processor keeps it for the
    thread. So it is with glibc and musl, in programs with shared objects and in static ones. A process with another
    thread is refused; one that a thread has forked isn't.
    """
    own = bench.compiler
    for compiler, words in (own, []), (own, ["-static"]), ("musl-gcc", []), ("musl-gcc", ["-static"]):
        if not shutil.which(compiler):
            print(f"kept: there is no {compiler}")
            continue
        name = " ".join([os.path.basename(compiler), *words])
        bench.compiler = shutil.which(compiler)
        flags = [*THREADS, *words]
        test = bench.build(f"kept by {name}", os.path.join(SOURCES, "kept.c"), words=flags, objects=["-lm"])
        bench.compiler = own
        failing = failing_of(bench.run(test, "static", "--explore", "3", "--all")[1])
        bench.check(f"kept: {name}", bool(failing), True)
        for place in KEPT:
            if place == "sbrk" and compiler == "musl-gcc":
                continue  # it has no sbrk
            for more in ([], ["child"]):
                status, out, errors = bench.run(test, place, "--explore", "3", "--all", *more)
                bench.check(f"kept: {name}: {place} {more}", (status, failing_of(out), errors), (FOUND, failing, ""))
        bench.check(f"kept: {name}: a thread", bench.run(test, "static", "thread"), (NOT_RUN, "", THREADED))


def hooks(bench):
    """With the hooks, each access by a pointer and of a shared variable is a place, with gcc and with clang."""
    for compiler in filter(shutil.which, ("gcc", "clang")):
        flags = ["-c", "-O1", "-fno-builtin", "-fsanitize=thread"]
        flags += ["--param=tsan-distinguish-volatile=1"] if compiler == "gcc" else []
        torn = [(name, TORN.replace("STYLE", style), TORN_TEST) for name, style in STYLES.items()]
        wakes = [(name, driver, WAKE_TEST.replace("STORAGE", storage)) for name, (driver, storage) in WAKES.items()]
        for name, driver, test in [*torn, *wakes]:
            for is_wrong in 0, 1:
                path = bench.source("driver.c", driver.replace("IS_WRONG", str(is_wrong)))
                made = os.path.join(bench.folder, "driver.o")
                ran = subprocess.run([compiler, *flags, "-o", made, path], capture_output=True, text=True)
                bench.check(f"hooks: {compiler}, {name} is compiled", (ran.returncode, ran.stderr), (0, ""))
                program = bench.build("hooked", bench.source("hooked.c", test), HOOKS, objects=[made])
                _, result, errors = result_of(bench, program, "--explore", "every")
                wanted = "fails" if is_wrong else "passes"
                bench.check(f"hooks: {compiler}, {name}, {is_wrong}", (result["result"], errors), (wanted, ""))


def untold(bench):
    """A store in the host's memory by inline assembly is named. Stores that have hooks aren't."""
    for name, (store, wanted) in STORES.items():
        text = TORN.replace("STYLE", STYLES["volatile"]).replace("IS_WRONG", "0")
        driver = bench.source("driver.c", text.replace("    *bad += length", f"    {store};\n    *bad += length"))
        made = os.path.join(bench.folder, "driver.o")
        flags = ["-c", "-O1", "-fno-builtin", "-fsanitize=thread", "--param=tsan-distinguish-volatile=1"]
        ran = subprocess.run([bench.compiler, *flags, "-o", made, driver], capture_output=True, text=True)
        bench.check(f"untold: {name} is compiled", (ran.returncode, ran.stderr), (0, ""))
        program = bench.build("hooked", bench.source("hooked.c", TORN_TEST), HOOKS, objects=[made])
        result = result_of(bench, program, "--explore", "1")[1]
        bench.check(f"untold: {name}", (result["result"], result["seen"]["untold"]), ("passes", wanted))
        line = f"the host's memory was changed without an access, first {wanted}: "
        out = bench.run(program, "--explore", "1")[1]
        bench.check(f"untold: {name}, the line", line in out, wanted is not None)


def schedules(bench):
    """A file of a schedule that isn't one is refused with the number of its line. A schedule that can't be stored is
    status 3.
    """
    good = "4.6 rxdone before read ICR\n"
    for name, text, line, why in [
            ("zero", "\0nonsense\n" + good, 1, "it has a zero byte, so it isn't text"),
            ("zeros", "\0" * 5000, 1, "it has a zero byte, so it isn't text"),
            ("a late zero", good + "# \0\n", 2, "it has a zero byte, so it isn't text"),
            ("a large number", "99999999999999999999.1 rx before read ICR\n", 1,
             "it doesn't begin with a place, such as 4.6, of numbers up to 4294967295"),
            ("2^32", "1.4294967296 rx before read ICR\n", 1,
             "it doesn't begin with a place, such as 4.6, of numbers up to 4294967295"),
            ("a sign", "-1.1 rx before read ICR\n", 1,
             "it doesn't begin with a place, such as 4.6, of numbers up to 4294967295"),
            ("unsorted", good + good.replace("4.6", "4.5+1"), 2, "sort the lines by place"),
            ("no answer", "4.6 choose 0 before choose\n", 1, "it has no deviation, such as rx"),
            ("a high answer", "4.6 choose 16 before choose\n", 1, "an answer is at most 15"),
            ("a long line", "4.6 rx before " + "x" * 300 + "\n", 1, "it has more than 255 characters"),
            ("unreached", good + "999.1 rx before read ICR\n", 2, "the run doesn't reach this place")]:
        path = bench.source("schedule.txt", text)
        status, _, errors = bench.run(bench.stages, "late", "--replay", path)
        bench.check(f"schedules: {name}", (status, errors), (USAGE, f"explore: {path}: line {line}: {why}\n"))
    got = bench.run(bench.stages, "late", "--replay", "/dev/zero")
    bench.check("schedules: a device", got, (USAGE, "", "explore: /dev/zero: line 1: it is a device\n"))
    status, _, errors = bench.run(bench.stages, "late", "--explore", "1", "--out", "/dev/full")
    bench.check("schedules: not stored", (status, errors), (NOT_RUN, "explore: the schedule can't be stored\n"))
    path = bench.path("limited.txt")
    limited = bench.run("/bin/sh", "-c", f"ulimit -f 0; exec {bench.stages} late --explore 1 --out {path}")
    bench.check("schedules: above a limit of files", (limited[0], limited[2]), (status, errors))


def left_of(program):
    """The numbers of the processes of a program."""
    left = []
    for number in filter(str.isdigit, os.listdir("/proc")):
        try:
            if os.readlink(f"/proc/{number}/exe") == program:
                left.append(number)
        except OSError:
            pass
    return left


def ends_by(bench, program, words, number, wanted, fault):
    """A program that gets a signal after a second ends with this status and fault. None of its processes remains."""
    process = subprocess.Popen([program, *words, "--explore", "every", "--json"], stdout=subprocess.PIPE, text=True)
    time.sleep(1)
    process.send_signal(number)
    out = process.communicate(timeout=60)[0]
    result = json.loads(out)
    got = process.returncode, result["fault"], left_of(program)
    bench.check(f"endless: {words} {number.name}", got, (wanted, fault, []))


def endless(bench):
    """A test that spins is a failure with its schedule after --seconds, and ends by the first signal. `grade` ends,
    too. No process remains.
    """
    test = bench.build("endless", os.path.join(SOURCES, "calls.c"), words=THREADS)
    for what, schedule in ("spins", []), ("spins early", ["1.1 rx before read rx[0]+12"]):
        status, result, errors = result_of(bench, test, what, "--explore", "every", "--seconds", "1")
        got = status, result["fault"], result["schedule"], errors
        bench.check(f"endless: {what}", got, (FOUND, "it doesn't end in 1 second", schedule, ""))
    for number, status in (signal.SIGTERM, 143), (signal.SIGINT, 130), (signal.SIGHUP, 129):
        ends_by(bench, test, ["spins"], number, status, f"it doesn't end before {number.name}")
    ends_by(bench, test, ["spins early"], signal.SIGTERM, 143, "it doesn't end before SIGTERM")
    bench.check("endless: nothing remains", left_of(test), [])
    driver = bench.source("student.c", STUDENT)
    grade = os.path.join(TOP, "examples", "lab", "grade")
    status, out, errors = bench.run(grade, bench.library, driver, "--explore", "1", "--seconds", "1")
    got = status, out.splitlines()[-1], errors
    bench.check("endless: grade", got, (FOUND, "fail: it doesn't end in 1 second", ""))
    process = subprocess.Popen([grade, bench.library, driver], stdout=subprocess.PIPE, text=True,
                               env={**os.environ, "TMPDIR": bench.folder})
    time.sleep(3)
    process.send_signal(signal.SIGTERM)
    process.communicate(timeout=60)
    labs = [number for number in filter(str.isdigit, os.listdir("/proc")) if is_lab(number, bench.folder)]
    bench.check("endless: grade ends by SIGTERM", (process.returncode, labs), (143, []))


def is_lab(number, folder):
    """Whether a process is a lab that `grade` has made in this folder."""
    try:
        program = os.readlink(f"/proc/{number}/exe")
        return program.startswith(folder) and "/lab" in program
    except OSError:
        return False
