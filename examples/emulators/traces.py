"""Traces of libpcap (pcap-savefile), version 2.4, little-endian, with times in microseconds."""

import struct

FILE_HEADER = struct.pack("<IHHIIII", 0xA1B2C3D4, 2, 4, 0, 0, 65535, 1)


def write_trace(path, frames):
    with open(path, "wb") as file:
        file.write(FILE_HEADER)
        for number, frame in enumerate(frames):
            file.write(struct.pack("<IIII", number // 1_000_000, number % 1_000_000, len(frame), len(frame)) + frame)


def read_trace(path):
    """The frames of a trace that this program or `nicbench` wrote."""
    with open(path, "rb") as file:
        data = file.read()
    frames, at = [], len(FILE_HEADER)
    while at < len(data):
        size, = struct.unpack_from("<I", data, at + 8)
        frames.append(data[at + 16:at + 16 + size])
        at += 16 + size
    return frames
