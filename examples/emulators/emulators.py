"""Programs with an adapter that answer requests, one a line: QEMU with its e1000, and `nicbench serve`.

Every emulator here has a memory that begins at address 0, and the adapter's registers at `registers`. A request is a
line such as `readl 0xFEB00008`; docs/REQUESTS.md lists the requests and the answers.
"""

import fcntl
import os
import select
import shlex
import signal
import socket
import struct
import subprocess
import tempfile
import termios
import time

from qemu_clock import ROM, WORDS, VirtualTime

# Bytes of memory that a driver may use from address 0 on. On QEMU's machine the memory of the screen follows.
MEMORY = 0xA0000
# The Ethernet address of each adapter
ADDRESS = "02:00:00:00:00:01"

# Offsets of registers
STATUS, EERD, ICR, RCTL, RDLEN, RDH, RDT = 0x0008, 0x0014, 0x00C0, 0x0100, 0x2808, 0x2810, 0x2818


class Ended(Exception):
    """The emulator ended, or gave another answer than expected."""


class Silent(Ended):
    """The emulator didn't answer in time."""


class Unready(Ended):
    """The emulator answers, but its EEPROM or its link never becomes ready."""


class Missing(Exception):
    """The emulator isn't installed, or can't be started."""


def words_of(command):
    """The words of a command. Raises Missing if there are none."""
    try:
        words = shlex.split(command)
    except ValueError as error:
        raise Missing(f"{command!r} isn't a command: {error}") from None
    if not words:
        raise Missing("the command of an emulator is empty")
    return words


class Emulator:
    """A program that answers requests.

    `ask` returns the answer to a request and the lines that came before it: `IRQ raise 0`, `IRQ lower 0`, `frame HEX`
    and those of faults, in order.
    """

    # The most times that something is waited for, and the most frames that arrive at once
    WAITS, MOST = 1000, 10
    # The most bytes up to an answer
    MOST_BYTES = 1 << 24
    # Bytes of memory that a driver may use
    memory = MEMORY
    # What to do if the program isn't there
    ADVICE = ""
    # What messages name this emulator, and the most seconds up to an answer, if there is a limit
    name, seconds = "the emulator", None

    def __init__(self, words, registers, **options):
        self.registers = registers
        self.rest = b""  # bytes after the last line that was read
        try:
            self.process = subprocess.Popen(words, stdin=subprocess.PIPE, stdout=subprocess.PIPE, bufsize=0, **options)
        except FileNotFoundError:
            raise Missing(f"there is no {words[0]}{self.ADVICE}") from None
        except OSError as error:
            raise Missing(f"{words[0]} can't be started: {error.strerror}") from None

    def lines(self, request):
        """Sends a request, and returns the lines up to its answer."""
        lines, size = [], 0
        end = None if self.seconds is None else time.monotonic() + self.seconds
        try:
            self.process.stdin.write(f"{request}\n".encode())
        except BrokenPipeError:
            raise self.ended(request) from None
        while not lines or not lines[-1].startswith(("OK", "ERR", "FAIL")):
            lines.append(self.line(request, end))
            size += len(lines[-1])
            if size > self.MOST_BYTES:
                raise self.too_long(request)
        return lines

    def line(self, request, end):
        """Returns the next line, without its end."""
        while b"\n" not in self.rest:
            if end is not None and not select.select([self.process.stdout], [], [], max(end - time.monotonic(), 0))[0]:
                raise Silent(f"{self.name} didn't answer {request!r:.80} within {self.seconds:g} s")
            data = self.process.stdout.read(1 << 16)
            if not data:
                raise self.ended(request)
            self.rest += data
            if len(self.rest) > self.MOST_BYTES:
                raise self.too_long(request)
        line, _, self.rest = self.rest.partition(b"\n")
        return line.decode("ascii", "backslashreplace")

    def too_long(self, request):
        return Ended(f"{self.name} sent more than {self.MOST_BYTES:,} bytes, and no answer to {request!r:.80}")

    def ended(self, request):
        """The error that the emulator has ended before it answered a request."""
        try:
            status = self.process.wait(1)
        except subprocess.TimeoutExpired:
            return Ended(f"{self.name} closed its standard streams before it answered {request!r:.80}")
        how = f"with exit status {status}" if status >= 0 else f"by {name_of_signal(-status)}"
        return Ended(f"{self.name} ended {how} before it answered {request!r:.80}")

    def refused(self, request, answer, wanted):
        return Ended(f"{self.name} answered {request!r:.80} by {answer!r:.80}, and not by {wanted}")

    def ask(self, request):
        """Returns the answer, and the lines before it."""
        *told, answer = self.lines(request)
        return answer, told

    def number(self, request):
        """Returns the number in the answer, and the lines before it."""
        answer, told = self.ask(request)
        value = number_in(answer)
        if value is None:
            raise self.refused(request, answer, "a number such as OK 0x0")
        return value, told

    def expect_ok(self, request, *others):
        """Sends a request whose answer must begin with OK, or with one of the other words."""
        answer, _ = self.ask(request)
        if not answer.startswith(("OK", *others)):
            raise self.refused(request, answer, " or ".join(("OK", *others)))

    def patience(self):
        """Yields at each turn of waiting for something that another thread of the emulator does: often at first, and
        then more slowly.
        """
        for turn in range(self.WAITS):
            yield
            if turn >= self.WAITS // 2:
                time.sleep(0.01)

    def await_link(self):
        """Waits until the link is up."""
        for _ in self.patience():
            if self.number(f"readl {self.registers + STATUS:#x}")[0] & 2:
                return
            self.work()
        raise Unready(f"{self.name}: the link is never up: LU, bit 1 of STATUS, isn't set")

    def image(self):
        """Reads the 64 words of the EEPROM."""
        return [self.word_of(number) for number in range(64)]

    def word_of(self, number):
        self.ask(f"writel {self.registers + EERD:#x} {number << 8 | 1:#x}")
        for _ in self.patience():
            self.work()
            value = self.number(f"readl {self.registers + EERD:#x}")[0]
            if value & 0x10:
                return value >> 16
        raise Unready(f"{self.name}: the EEPROM doesn't answer: after a write of EERD, DONE, bit 4, isn't set")

    def deliver(self, frames):
        """Lets the first of these frames arrive, at most MOST, for which the ring has free slots, and removes them. A
        slot has 256 bytes. Returns the lines that this causes.
        """
        (length, told), (head, more), (tail, last) = (self.number(f"readl {self.registers + offset:#x}")
                                                      for offset in (RDLEN, RDH, RDT))
        slots = length // 16
        free, some = (tail - head) % slots if slots else 0, []
        while frames and len(some) < self.MOST and -(-len(frames[0]) // 256) <= free:
            free -= -(-len(frames[0]) // 256)
            some.append(frames.popleft())
        return told + more + last + (self.arrive_all(some) if some else [])

    def kill(self):
        self.process.kill()

    def close(self):
        self.kill()
        self.process.wait()
        self.process.stdin.close()
        self.process.stdout.close()


def number_in(answer):
    """The number in an answer, or None."""
    try:
        return int(answer[3:], 16) if answer.startswith("OK 0x") else None
    except ValueError:
        return None


def name_of_signal(number):
    try:
        return signal.Signals(number).name
    except ValueError:
        return f"signal {number}"


class Serve(Emulator):
    """The adapter of `nicbench serve`. It takes steps when it is asked to, and random ones with `interleave`."""

    name = "nicbench serve"

    def __init__(self, program, seed=0, interleave=0, registers=0xFEB00000, image=None, memory=MEMORY):
        self.memory = memory
        words = words_of(program) + ["serve", "--memory", str(memory), "--registers", hex(registers), "--seed",
                                        str(seed)]
        if image is None:
            super().__init__(words + ["--address", ADDRESS], registers)
        else:
            with tempfile.NamedTemporaryFile() as file:
                file.write(struct.pack("<64H", *image))
                file.flush()
                super().__init__(words + ["--image", file.name], registers)
                self.ask("endianness")  # the server has read the image when it answers
        self.expect_ok("events on")
        if interleave:
            self.ask(f"interleave {interleave}")

    def arrive(self, frame):
        """Lets a frame arrive. Returns its fate, and the lines that this causes."""
        answer, told = self.ask(f"arrive {frame.hex()}")
        return answer.removeprefix("OK "), told

    def work(self):
        """Lets the adapter do all that it can do. Returns the lines that this causes."""
        return self.ask("settle")[1]

    def arrive_all(self, frames):
        """Lets some frames arrive, which must be stored, and be moved to memory. Returns the lines that this causes."""
        told = []
        for frame in frames:
            fate, more = self.arrive(frame)
            told += more
            if fate != "stored":
                raise Ended(f"a frame was {fate}")
        return told + self.work()


class Other(Emulator):
    """A program that answers the requests of `nicbench serve`: `readl`, `writel`, `read`, `write`, `memset` and
    `arrive`.

    It needn't know `settle` if its adapter does its work at once, nor `events` if it always reports frames. Each answer
    may take some seconds. When it is closed, the processes that it has started are ended, too.
    """

    name, MOST_BYTES = "the other emulator", 1 << 20

    def __init__(self, command, registers, seconds=None):
        self.seconds = seconds
        super().__init__(words_of(command), registers, start_new_session=True)
        try:
            self.expect_ok("events on", "FAIL")
        except BaseException:
            self.close()
            raise

    def kill(self):
        try:
            os.killpg(self.process.pid, signal.SIGKILL)
        except ProcessLookupError:
            pass  # all of them have ended

    def arrive(self, frame):
        answer, told = self.ask(f"arrive {frame.hex()}")
        return answer.removeprefix("OK "), told

    def work(self):
        return self.ask("settle")[1]


class Qemu(Emulator):
    """QEMU's e1000. There is no guest: the processor halts, and virtual time jumps from one timer to the next.

    Frames go over a pair of sockets, one a datagram. The script sets up the PCI device, and routes its interrupt. After
    a write of RCTL the script lets a second of virtual time pass, in which the adapter doesn't receive.
    """

    ADVICE, name, seconds = "; on Debian: apt-get install qemu-system-x86", "QEMU", 60
    # The interrupt of the device, on the interrupt controller whose inputs are reported
    INTERRUPT = 11
    # The nanoseconds for which reception is held back after a write of RCTL, and some more
    HELD = 1_002_000_000

    def __init__(self, program="qemu-system-x86_64", registers=0xE0000000):
        self.folder = tempfile.TemporaryDirectory()
        rom = os.path.join(self.folder.name, "rom")
        with open(rom, "wb") as file:
            file.write(ROM)
        self.wire, theirs = socket.socketpair(socket.AF_UNIX, socket.SOCK_DGRAM)
        self.wire.setblocking(False)
        words = words_of(program) + [
            "-nodefaults", "-machine", "pc", *WORDS, "-m", "64M", "-bios", rom, "-display", "none", "-qtest", "stdio",
            "-qtest-log", "/dev/null", "-netdev", f"dgram,id=net,local.type=fd,local.str={theirs.fileno()}",
            "-device", f"e1000,mac={ADDRESS},mitigation=off,netdev=net"]
        # QEMU warns that no timer is active. This is expected, so standard error goes to a file.
        with open(os.path.join(self.folder.name, "errors"), "wb") as errors:
            super().__init__(words, registers, pass_fds=[theirs.fileno()], stderr=errors)
        theirs.close()
        try:
            self.time = VirtualTime(self.lines)
            self.set_up()
        except BaseException:
            self.close()
            raise

    def ask(self, request):
        """Returns the answer, and the lines before it without those of other interrupts. After a write, adds the lines
        of frames that the adapter has sent since the last write.
        """
        word, *rest = request.split()
        *lines, answer = self.lines(request)
        told = self.interrupts(lines)
        if word.startswith("write"):
            told = self.sent() + told
            if int(rest[0], 0) == self.registers + RCTL:
                told += self.interrupts(self.time.step(self.HELD))
        return answer, told

    def interrupts(self, lines):
        """The lines about the device's interrupt, with its number replaced by 0."""
        levels = [line.split()[1:] for line in lines if line.startswith("IRQ ")]
        return [f"IRQ {level} 0" for level, number in levels if number == str(self.INTERRUPT)]

    def turns(self):
        """Sends requests that do nothing, so that QEMU's main loop does what it has to do. Returns the lines about the
        interrupt.
        """
        return [line for _ in range(2) for line in self.ask("inb 0x80")[1]]

    def sent(self):
        """The lines of the frames that the adapter has sent since the last call."""
        lines = []
        while True:
            try:
                lines.append(f"frame {self.wire.recv(0x10000).hex()}")
            except BlockingIOError:
                return lines

    def configuration(self, device, offset):
        self.lines(f"outl 0xcf8 {0x80000000 | device << 11 | offset:#x}")
        return self.number("inl 0xcfc")[0]

    def configure(self, device, offset, value):
        self.lines(f"outl 0xcf8 {0x80000000 | device << 11 | offset:#x}")
        self.lines(f"outl 0xcfc {value:#x}")

    def set_up(self):
        """Finds the device on the bus, sets its address, lets it use the bus, and has its interrupt reported."""
        device = next((number for number in range(32) if self.configuration(number, 0) == 0x100E8086), None)
        if device is None:
            raise Ended(f"{self.name} has no e1000 on its bus")
        self.configure(1, 0x60, self.INTERRUPT * 0x01010101)  # the four interrupts of the bus
        self.configure(device, 0x10, self.registers)
        self.configure(device, 4, 6)  # memory, bus master
        self.lines("irq_intercept_in ioapic")

    def arrive(self, frame):
        """Lets a frame arrive. QEMU doesn't report its fate. Returns `taken` in place of the fate, and the lines that
        this causes.
        """
        return "taken", self.arrive_all([frame])

    def arrive_all(self, frames):
        """Lets some frames arrive, at most ten. Returns the lines that this causes."""
        told = []
        for frame in frames:
            self.wire.send(frame)
        for _ in self.patience():
            told += self.turns()
            if not self.waits():
                return told + self.turns()
        raise Ended("QEMU leaves a frame in the socket")

    def waits(self):
        """Whether QEMU has left a frame in the socket."""
        return struct.unpack("i", fcntl.ioctl(self.wire, termios.TIOCOUTQ, bytes(4)))[0] > 0

    def work(self):
        """QEMU's adapter has no work left after an answer. Returns no lines."""
        return []

    def close(self):
        super().close()
        self.wire.close()
        self.folder.cleanup()
