"""Runs the test with QEMU's libqtest on `qemu-system-nicbench` and on QEMU, and tests what else `qemu-system-nicbench`
does.
"""

import json
import os
import re
import shutil
import socket
import struct
import subprocess
import tempfile

from harness import TOP

EXAMPLES = os.path.join(TOP, "examples", "emulators")
NICBENCH, TCG = os.path.join(EXAMPLES, "qemu-system-nicbench"), os.path.join(EXAMPLES, "qemu-system-tcg")
# How many seconds a connection or an answer may take.
LIMIT = 60
PASSED = "e1000_test: 132 checks passed\n"
BASE, ICR, ICS, IMS, IMC, RCTL, TCTL = 0xE0000000, 0x00C0, 0x00C8, 0x00D0, 0x00D8, 0x0100, 0x0400
RDLEN, RDT, TDBAL, TDLEN, TDT, GPTC = 0x2808, 0x2818, 0x3800, 0x3808, 0x3818, 0x4080
DEVICE, BRIDGE = 0x80002000, 0x80000800
# The adapter at its address, and its interrupt routed to number 11
SET_UP = [f"outl 0xcf8 {DEVICE + 0x10:#x}", f"outl 0xcfc {BASE:#x}", f"outl 0xcf8 {DEVICE + 4:#x}", "outl 0xcfc 6",
          f"outl 0xcf8 {BRIDGE + 0x60:#x}", "outl 0xcfc 0x0b0b0b0b"]


def compiled(bench):
    """Compiles the test. Returns its path, or None if there is no C compiler or the compilation fails."""
    if shutil.which("cc") is None:
        print("not played, because there is no cc: the test with libqtest")
        return None
    path = bench.path("e1000_test")
    words = ["cc", "-std=c99", "-Wall", "-Wextra", "-Werror", "-O1", "-o", path]
    ran = subprocess.run([*words, *(os.path.join(EXAMPLES, name) for name in ("e1000_test.c", "libqtest_client.c"))],
        capture_output=True, text=True)
    bench.check("libqtest: the test is compiled", (ran.returncode, ran.stderr), (0, ""))
    return path if ran.returncode == 0 else None


def runs(bench, test, program):
    """Runs the test on an adapter. Returns its status, its output and its errors."""
    ran = subprocess.run([test], env={**os.environ, "QTEST_QEMU_BINARY": program, "NICBENCH": bench.program},
        capture_output=True, text=True, timeout=LIMIT)
    return ran.returncode, ran.stdout, ran.stderr


def test_on_both(bench, has_qemu):
    with open(os.path.join(TOP, "docs", "EMULATORS.md")) as file:
        shown = f"$ QTEST_QEMU_BINARY=./qemu-system-nicbench ./e1000_test\n{PASSED}"
        bench.check("libqtest: the page shows what the test prints", shown in file.read(), True)
    test = compiled(bench)
    if test is None:
        return
    bench.check("libqtest: the test on the adapter of serve", runs(bench, test, NICBENCH), (0, PASSED, ""))
    for options in "--rxa 2", "--link never":
        bench.put("other", f'#!/bin/sh\nshift\nexec "{bench.program}" serve {options} "$@"\n'.encode())
        os.chmod(bench.path("other"), 0o755)
        ran = subprocess.run([test], env={**os.environ, "QTEST_QEMU_BINARY": NICBENCH, "NICBENCH": bench.path("other")},
            capture_output=True, text=True)
        wanted = (0, PASSED, "") if options == "--rxa 2" else (1, "",
            "e1000_test: check 9 failed: the link is up: 0x0\n")
        bench.check(f"libqtest: the test on another adapter, {options}", (ran.returncode, ran.stdout, ran.stderr),
            wanted)
    bench.check("libqtest: a program that ends at once", runs(bench, test, "false"), (
        1, "", "libqtest_client: the program didn't connect to its socket: qtest\n"))
    if has_qemu:
        bench.check("libqtest: the test on QEMU", runs(bench, test, TCG), (0, PASSED, ""))
        ended_by_qemu(bench)


def ended_by_qemu(bench):
    """QEMU ends at a device that it doesn't know. The wrapper reports why."""
    with socket.socket(socket.AF_UNIX, socket.SOCK_STREAM) as end:
        end.bind(bench.path("tcg"))
        end.listen()
        words = ["-qtest", f"unix:{bench.path('tcg')}", "-display", "none", "-audio", "none", "-device", "nothing"]
        ran = subprocess.run([TCG, *words], capture_output=True, text=True, timeout=LIMIT)
    told = re.fullmatch("qemu-system-tcg: QEMU has ended: .*'nothing' is not a valid device model name\n", ran.stderr,
                        re.S)
    bench.check(f"libqtest: QEMU with a wrong option: {ran.stderr}", (ran.returncode, ran.stdout, told is not None), (
        1, "", True))


class Session:
    """A client of `qemu-system-nicbench`, which it starts as libqtest does. Frames go over a pair of sockets."""

    def __init__(self, bench, *words, has_wire=True):
        self.folder = tempfile.TemporaryDirectory()
        ends = [self.listen(name) for name in ("qtest", "qmp")]
        self.wire, theirs = socket.socketpair()
        wire = ["-netdev", f"socket,id=n0,fd={theirs.fileno()}", "-device", "e1000,netdev=n0"] if has_wire else []
        self.process = subprocess.Popen(
            [NICBENCH, "-qtest", f"unix:{self.path('qtest')}", "-chardev", f"socket,path={self.path('qmp')},id=char0",
            "-mon", "chardev=char0,mode=control",
             "-display", "none", *wire, *words, "-accel", "qtest"], pass_fds=[theirs.fileno()], stderr=subprocess.PIPE,
            env={**os.environ, "NICBENCH": bench.program})
        theirs.close()
        self.client, self.monitor = (end.accept()[0] for end in ends)
        for end in (*ends, self.client, self.monitor, self.wire):
            end.settimeout(LIMIT)
        for end in ends:
            end.close()
        self.answers, self.messages = self.client.makefile(), self.monitor.makefile()

    def path(self, name):
        return os.path.join(self.folder.name, name)

    def listen(self, name):
        end = socket.socket(socket.AF_UNIX, socket.SOCK_STREAM)
        end.bind(self.path(name))
        end.listen()
        return end

    def ask(self, *requests):
        """Makes requests. Returns the lines up to the answer to the last one, without those of the requests before."""
        for request in requests:
            self.client.sendall(f"{request}\n".encode())
            lines = []
            while not lines or lines[-1].startswith("IRQ"):
                lines.append(self.answers.readline().rstrip("\n"))
        return lines

    def command(self, text):
        self.monitor.sendall(text.encode())
        return json.loads(self.messages.readline())

    def put(self, frame):
        self.wire.sendall(struct.pack(">I", len(frame)) + frame)

    def taken(self, size):
        """The next `size` bytes on the wire; fewer if the wire is closed."""
        data = b""
        while len(data) < size and (more := self.wire.recv(size - len(data))):
            data += more
        return data

    def end(self):
        """Ends the program by a signal, as libqtest does. Returns its status and its errors."""
        self.process.terminate()
        return self.closed()

    def closed(self):
        """Waits until the program has ended. Returns its status and its errors."""
        _, errors = self.process.communicate(timeout=LIMIT)
        for end in (self.answers, self.messages, self.client, self.monitor, self.wire):
            end.close()
        self.folder.cleanup()
        return self.process.returncode, errors.decode()


def monitored(bench):
    """The machine protocol: its handshake, queries, a reset, and the end."""
    session = Session(bench, "-m", "1M")
    greeting = json.loads(session.messages.readline())
    bench.check("qmp: the greeting", sorted(greeting["QMP"]), ["capabilities", "version"])
    bench.check("qmp: the handshake", session.command('{"execute": "qmp_capabilities"}\n'), {"return": {}})
    bench.check("qmp: a mark", session.command('{ "execute" : "query-status", "id": 7 }'), {
        "return": {"status": "running", "running": True, "singlestep": False}, "id": 7})
    bench.check("qmp: the machines",
        [one["name"] for one in session.command('{"execute": "query-machines"}')["return"]], ["pc"])
    bench.check("qmp: the devices",
        session.command('{"execute": "qom-list-types", "arguments": {"implements": "pci-device"}}')["return"],
        [{"name": "e1000", "parent": "pci-device"}])
    bench.check("qmp: an unknown command", session.command('{"execute": "device_add"}\n')["error"]["class"],
        "CommandNotFound")
    bench.check("qmp: a register before the reset", session.ask(*SET_UP, f"writel {BASE + RDLEN:#x} 128",
        f"readl {BASE + RDLEN:#x}")[-1], "OK 0x0000000000000080")
    bench.check("qmp: a reset", session.command('{"execute": "system_reset"}'), {"return": {}})
    bench.check("qmp: the event of a reset", json.loads(session.messages.readline())["event"], "RESET")
    bench.check("qmp: no address after a reset", session.ask(f"readl {BASE + RDLEN:#x}"), ["ERR address"])
    bench.check("qmp: the registers after a reset", session.ask(*SET_UP, f"readl {BASE + RDLEN:#x}"),
        ["OK 0x0000000000000000"])
    bench.check("qmp: quit", session.command('{"execute": "quit"}'), {"return": {}})
    bench.check("qmp: the event of the end", json.loads(session.messages.readline())["event"], "SHUTDOWN")
    bench.check("qmp: the end", session.closed(), (0, ""))


def unconfigured(bench):
    """Before its set-up, the adapter is as in QEMU before firmware runs. Memory has the size of -m."""
    session = Session(bench, "-m", "size=2M", has_wire=False)
    for name, requests, wanted in [
        ("no registers", ["readl 0xFEB00008"], ["ERR address"]),
        ("no address port", ["inl 0xCF8"], ["OK 0x0000000000000000"]),
        ("the command", [f"outl 0xCF8 {DEVICE + 4:#x}", "inw 0xCFC"], ["OK 0x0000000000000000"]),
        ("BAR0", [f"outl 0xCF8 {DEVICE + 16:#x}", "inl 0xCFC"], ["OK 0x0000000000000000"]),
        ("the end of memory", ["readb 0x1FFFFF"], ["OK 0x0000000000000000"]),
        ("past the end of memory", ["readb 0x200000"], ["ERR address"]),
        ("the bridge", [f"outl 0xCF8 {BRIDGE:#x}", "inl 0xCFC"], ["OK 0x0000000070008086"]),
        ("its routes", [f"outl 0xCF8 {BRIDGE + 0x60:#x}", "inl 0xCFC"], ["OK 0x0000000080808080"]),
        ("the default address", [*SET_UP, f"readl {BASE + 0x5400:#x}"], [
            "OK 0x0000000012005452"]), ("a number in another form", ["outl 0xCF8 x"], ["ERR value"]),
            ("an unknown request", ["set_irq_in a b 0 1"], ["FAIL unknown"])]:
        bench.check(f"qemu-system-nicbench: {name}", session.ask(*requests), wanted)
    bench.check("qemu-system-nicbench: a signal ends it", session.end(), (0, ""))


def interrupts(bench):
    """The interrupt line has the number that the client has routed it to. Its changes are reported after a request
    for them.
    """
    session = Session(bench)
    session.ask(*SET_UP, f"writel {BASE + IMS:#x} 0x80")
    bench.check("interrupts: not reported at the start", session.ask(f"writel {BASE + ICS:#x} 0x80",
        f"readl {BASE + ICR:#x}"), ["OK 0x0000000000000080"])
    session.ask("irq_intercept_in ioapic")
    bench.check("interrupts: raised", session.ask(f"writel {BASE + ICS:#x} 0x80"), ["IRQ raise 11", "OK"])
    bench.check("interrupts: another route", session.ask(f"outl 0xcf8 {BRIDGE + 0x60:#x}", "outb 0xcff 5"),
        ["IRQ lower 11", "IRQ raise 5", "OK"])
    bench.check("interrupts: what was routed", session.ask("inl 0xcfc"), ["OK 0x00000000050b0b0b"])
    bench.check("interrupts: no route", session.ask("outb 0xcff 0x80"), ["IRQ lower 5", "OK"])
    bench.check("interrupts: a route again", session.ask("outw 0xcfe 0x0a00"), ["IRQ raise 10", "OK"])
    bench.check("interrupts: lowered", session.ask(f"readl {BASE + ICR:#x}"), ["IRQ lower 10", "OK 0x0000000000000080"])
    session.client.close()
    session.answers.close()
    bench.check("interrupts: the client goes", session.closed(), (0, ""))


def frames(bench):
    """Frames go both ways at once. Frames that come before the adapter receives wait. A fault is reported on standard
    error.
    """
    session, frame = Session(bench, "-qtest-log", bench.path("log")), bytes.fromhex("ffffffffffff020000000009080045")
    session.put(frame)
    session.put(frame + bytes(100))
    begun = [*SET_UP, "irq_intercept_in ioapic", f"writel {BASE + IMS:#x} 0x81", f"writel {BASE + RDLEN:#x} 128",
        f"writel {BASE + RDT:#x} 7",
             "writeq 0 0x1000", "writeq 16 0x2000"]
    session.ask(*begun)
    bench.check("frames: they wait until reception is on", session.ask(f"writel {BASE + RCTL:#x} 0x04008002"),
        ["IRQ raise 11", "OK"])
    bench.check("frames: a short one is padded", session.ask("readq 8"), ["OK 0x000000030000003c"])
    bench.check("frames: the next one", session.ask("readq 24"), ["OK 0x0000000300000073"])
    bench.check("frames: the bytes", session.ask("read 0x2000 16"), [f"OK 0x{frame.hex()}00"])
    session.put(frame + bytes(60))
    bench.check("frames: one that came before a request has arrived", session.ask("readq 40"),
        ["OK 0x000000030000004b"])
    sent = [f"readl {BASE + ICR:#x}", "memset 0x8000 60 7", "write 0x4000 16 0x00800000000000003c00000900000000",
        f"writel {BASE + TDBAL:#x} 0x4000",
            f"writel {BASE + TDLEN:#x} 128", f"writel {BASE + TCTL:#x} 2", f"writel {BASE + TDT:#x} 1"]
    bench.check("frames: one is sent", session.ask(*sent), ["IRQ raise 11", "OK"])
    bench.check("frames: one is on the wire", session.taken(64),
        struct.pack(">I", 60) + b"\7" * 60)
    # The ring's eight descriptors are sent again and again, while nobody reads the wire. The wire takes some frames,
    # and the rest waits.
    ring = [f"write 0x4000 128 0x{'00800000000000003c00000900000000' * 8}",
            *(f"writel {BASE + TDT:#x} {tail}" for tail in (0, 7, 6))]
    session.ask(f"writel {BASE + IMC:#x} 0xffff", *ring * 1000)
    count = int(session.ask(f"readl {BASE + GPTC:#x}")[0][3:], 16)
    bench.check("frames: many are sent before the first is read", count > 14_000, True)
    one = struct.pack(">I", 60) + b"\7" * 60
    bench.check("frames: many are on the wire", session.taken(64 * (count - 1)) == one * (count - 1), True)
    session.ask(f"writel {BASE + TDT:#x} 0", "write 0x4010 16 0x00000000000000000000000000000000")
    session.wire.close()
    bench.check("frames: the wire is closed", session.ask(f"writel {BASE + TDT:#x} 2"), ["OK"])
    bench.check("frames: a fault is reported", session.end(),
        (0, "qemu-system-nicbench: fault tx 1 eop: docs/REQUESTS.md explains the reason\n"))
    log = [line.split("] ", 1) for line in (bench.get("log") or b"").decode().splitlines()]
    bench.check("frames: the log", [(row[0][:4], row[1]) for row in log[-2:]],
        [("[R +", f"writel {BASE + TDT:#x} 2"), ("[S +", "OK")])


REFUSED = [
    (["-device", "virtio-net-pci"], "-device virtio-net-pci: only e1000"),
    (["-device", "e1000", "-device", "e1000"], "-device e1000: there is one adapter"),
    (["-device", "e1000,addr=5"], "-device e1000,addr=5: only addr=4"),
    (["-device", "e1000,netdev=x"], "-device e1000,netdev=x: there is no such -netdev before it"),
    (["-netdev", "user,id=n0"],
    "-netdev user,id=n0: only socket,id=NAME,fd=N, or hubport, to which nothing is connected"),
    (["-netdev", "socket,id=n0,listen=:1"],
    "-netdev socket,id=n0,listen=:1: only socket,id=NAME,fd=N, or hubport, to which nothing is connected"),
    (["-netdev", "socket,id=n0,fd=200", "-device", "e1000,netdev=n0"],
    "-netdev socket,fd=200: [Errno 9] Bad file descriptor"),
    (["-accel", "kvm"], "-accel kvm: there is no processor; only qtest"),
    (["-machine", "q35"], "-machine q35: only pc, whose interrupt controllers are those here"),
    (["-m", "x"], "-m x: this isn't a size"), (["-kernel", "linux"],
    "-kernel: there is an adapter alone, without a guest"), (["disk.img"], "disk.img: there is no disk"),
    (["-nic", "user"], "-nic user: use -netdev and -device"), (["-qtest", "stdio"], "-qtest stdio: only unix:PATH"), (
        ["-mon", "chardev=c,mode=readline"],
        "-mon chardev=c,mode=readline: only mode=control over -chardev socket,path=PATH")]
IGNORED = ["-nodefaults", "-no-reboot", "-machine", "pc-i440fx-7.2,accel=qtest", "-M", "none", "-name", "x", "-audio",
    "none", "-net", "none", "-smp", "2", "-netdev",
           "hubport,id=h0,hubid=0", "-object", "rng-builtin,id=r0", "-m", "1M"]


def options(bench):
    """Options that change nothing here are ignored. Options that can't be met are refused."""
    nowhere = ["-qtest", f"unix:{bench.path('nowhere')}"]
    for words, told in [*((["-display", "none", *words, *nowhere], told) for words, told in REFUSED),
        (["-m", "1M"], "-qtest unix:PATH is missing: the client must listen there"),
                        (nowhere, "[Errno 2] No such file or directory")]:
        ran = subprocess.run([NICBENCH, *words], env={**os.environ, "NICBENCH": bench.program}, capture_output=True,
            text=True, timeout=LIMIT)
        bench.check(f"options: {words[:-2] or words}", (ran.returncode, ran.stdout, ran.stderr),
            (1, "", f"qemu-system-nicbench: {told}\n"))
    ran = subprocess.run([NICBENCH, *nowhere], env={**os.environ, "NICBENCH": bench.path("none")}, capture_output=True,
        text=True, timeout=LIMIT)
    bench.check("options: no program", (ran.returncode, ran.stderr), (
        1, f"qemu-system-nicbench: there is no program {bench.path('none')}: set NICBENCH, or run ./nicbench once\n"))
    session = Session(bench, *IGNORED)
    bench.check("options: those that don't matter", session.ask("endianness"), ["OK little"])
    bench.check("options: the end", session.end(), (0, ""))


def all_cases(bench, has_qemu):
    test_on_both(bench, has_qemu)
    for part in [monitored, unconfigured, interrupts, frames, options]:
        part(bench)
