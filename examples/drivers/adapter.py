"""The adapter of `nicbench serve`, as a driver and a wire see it."""

import os
from contextlib import contextmanager

# Where the registers begin.
REGISTERS = 0xFEB00000
# The most bytes of requests that are sent before answers are read. Every pipe holds at least this many bytes. So
# sending them never waits for the server, which may itself wait until its answers are read.
MOST_AT_ONCE = 4096


class Refused(Exception):
    """A request was refused, or the server has ended."""


class Adapter:
    """Registers and memory, an interrupt line, and a wire."""

    def __init__(self, program, *options):
        """Starts the server with these options of `serve`."""
        self.requests, self.answers = self.start(program, options)
        self.line = False  # whether the interrupt line is asserted
        self.wire = []  # the frames that were put onto the wire
        self.told = []  # the lines before answers: events, and the log
        self.arrived = []  # the frames that arrived, each as a pair with its fate
        self.faults = []  # the faults of engines, each as the words after `fault`
        self.handler = None  # if set, it is called as soon as the line is asserted, between any two requests
        self.has_events = False  # whether the server was asked for events
        self.takes_interrupts = True  # whether the processor takes interrupts, so that the handler may be called

    def __enter__(self):
        return self

    def __exit__(self, *_):
        """Ends the input, which ends the server."""
        self.process.communicate()

    def start(self, program, options):
        """Starts the server, and returns the stream of requests and the stream of answers."""
        import subprocess  # only here: a test of the finder of races starts no server
        self.process = subprocess.Popen([program, "serve", *options], stdin=subprocess.PIPE, stdout=subprocess.PIPE)
        return self.process.stdin, self.process.stdout

    # Requests and answers

    def ask(self, *requests):
        """Returns the answers to requests, each without its OK.

        Sends many requests before it reads the first answer, but a long request by itself. If a handler is set, sends
        each request by itself. So the handler may cut in between any two requests.
        """
        if len(requests) == 1:
            answers = self.ask_at_once(requests)
            self.cut_in()
            return answers
        answers, some, size = [], [], 0
        for request in requests:
            if some and (self.handler or size + len(request) + 1 > MOST_AT_ONCE):
                answers += self.ask_at_once(some)
                self.cut_in()
                some, size = [], 0
            some.append(request)
            size += len(request) + 1
        answers += self.ask_at_once(some)
        self.cut_in()
        return answers

    def ask_at_once(self, requests):
        """Sends these requests, then reads and returns their answers."""
        try:
            if not self.has_events:
                self.ask_for_events()
            self.requests.write(("\n".join(requests) + "\n").encode())
            self.requests.flush()
        except BrokenPipeError:
            raise Refused(f"{requests[0]}: the server has ended") from None
        return [self.answer(request) for request in requests]

    def ask_for_events(self):
        """Asks for the lines `frame`, `arrived` and `fault`."""
        self.has_events = True
        self.ask_at_once(["events on"])

    def answer(self, request):
        """Returns the next answer. Lines before it report what happened."""
        for line in self.answers:
            word, _, rest = line.decode().rstrip("\n").partition(" ")
            if word == "OK":
                return rest
            if word == "IRQ":
                self.line = rest == "raise 0"
            if word == "frame":
                self.wire.append(bytes.fromhex(rest))
            if word == "arrived":
                fate, _, frame = rest.partition(" ")
                self.arrived.append((fate, bytes.fromhex(frame)))
            if word == "fault":
                self.faults.append(rest)
            if word in ("IRQ", "frame", "arrived", "fault", "#"):
                self.told.append(f"{word} {rest}")
            else:
                raise Refused(f"{request}: {word} {rest}")
        raise Refused(f"{request}: the server has ended")

    # Interrupts

    def cut_in(self):
        """Calls the handler while the line is asserted, if the processor takes interrupts. During a call, the processor
        takes no interrupt.
        """
        while self.line and self.handler and self.takes_interrupts:
            self.takes_interrupts = False
            self.mark("the handler cuts in")
            self.handler()
            self.mark("the handler returns")
            self.takes_interrupts = True

    def mark(self, text):
        """Adds a row to the chart of the finder, which sets NIC_MARKS."""
        if "NIC_MARKS" in os.environ:
            self.ask_at_once([f"mark {text}"])

    @contextmanager
    def interrupts_off(self):
        """In this block, the processor takes no interrupt. At its end, the handler cuts in if the line is asserted,
        unless interrupts were off before.
        """
        before, self.takes_interrupts = self.takes_interrupts, False
        yield
        self.takes_interrupts = before
        self.cut_in()

    # Accesses of a driver

    def read(self, register):
        return int(self.ask(f"readl {REGISTERS + register:#x}")[0], 0)

    def write(self, *pairs):
        """Writes registers, each a pair of its offset and a value, in order."""
        self.ask(*(f"writel {REGISTERS + register:#x} {value:#x}" for register, value in pairs))

    def load(self, address, size):
        return bytes.fromhex(self.ask(f"read {address:#x} {size}")[0][2:])

    def store(self, *pairs):
        """Stores bytes, each pair an address and the bytes for it, in order."""
        self.ask(*(f"write {address:#x} {len(data)} 0x{data.hex()}" for address, data in pairs))

    # What the adapter and the wire do

    def step(self, kind):
        """Plays a step of the adapter, and returns its outcome."""
        return self.ask(f"step {kind}")[0]

    def arrive(self, frame):
        """Lets a frame arrive from the wire, and returns its fate."""
        fate = self.ask(f"arrive {frame.hex()}")[0]
        self.arrived.append((fate, frame))
        return fate

    def offer(self, frame):
        """Offers a frame. It arrives when the adapter settles, or earlier by a random step or a schedule of
        `tools/races`.
        """
        self.ask(f"offer {frame.hex()}")

    def settle(self):
        """Delivers offered frames, and plays steps until nothing is left to do. Returns how many steps did something.
        """
        return int(self.ask("settle")[0], 0)

    def choose(self, limit):
        """A number below the limit: from a schedule of `tools/races`, drawn after `interleave`, or else 0."""
        return int(self.ask(f"choose {limit}")[0], 0)

    def interleave(self, count):
        """From now on, plays up to `count` random steps and arrivals of offered frames before each access."""
        self.ask(f"interleave {count}")

    def log(self, on):
        """Turns the log of steps, accesses and arrivals on or off."""
        self.ask(f"log {'on' if on else 'off'}")
