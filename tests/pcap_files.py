"""Makes traces, and runs `nicbench pass` on them."""

import os
import struct

from codes import failure
from harness import Program

FILE_HEADER = bytes.fromhex("d4c3b2a1020004000000000000000000ffff000001000000")


def packet(frame, original=None, time=0):
    length = len(frame)
    return struct.pack("<IIII", time // 1000000, time % 1000000, length,
                       length if original is None else original) + frame


def trace(*packets):
    return FILE_HEADER + b"".join(packets)


def trace_in(order, magic, *packets):
    """A trace in a byte order, '<' or '>', with this magic number. Each packet is a tuple of four numbers (seconds,
    fraction, captured length, original length) and a frame.
    """
    header = struct.pack(order + "IHHIIII", magic, 2, 4, 0, 0, 65535, 1)
    return header + b"".join(struct.pack(order + "IIII", *numbers) + frame for *numbers, frame in packets)


def written(frames):
    """The trace that `nicbench pass` writes for these pairs of a number and a frame."""
    return trace(*(packet(frame.ljust(60, b"\0"), time=number) for number, frame in frames))


class Traces(Program):
    """Runs of `pass` on traces."""

    def writes(self, name, words, line, frames):
        """Runs the program with these words; checks that it succeeds with this line, and writes these frames to
        out.pcap.
        """
        self.remove("out.pcap")
        self.ends(name, words, 0, line)
        self.check(f"{name}: what is written", self.get("out.pcap"), written(frames))

    def passes(self, name, data, line, frames):
        """Passes a trace; checks the line, and the frames in the written trace."""
        self.put("in.pcap", data)
        self.writes(name, ["pass", "in.pcap", "out.pcap"], line, frames)

    def fails(self, name, given, fault, status):
        """Checks that a trace is rejected or can't be read, and that no output is created."""
        self.remove("made.pcap")
        self.ends(name, ["pass", given, "made.pcap"], status, b"", failure(fault, given))
        self.check(f"{name}: no output is made", os.path.exists(self.path("made.pcap")), False)

    def refuses(self, name, data, fault):
        """Checks that a trace is rejected, and that no output is created."""
        self.put("in.pcap", data)
        self.fails(name, "in.pcap", fault, 1)
