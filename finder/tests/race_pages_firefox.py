"""Opens docs/race.html in headless Firefox once, from the disk. The picture must have what only the script draws.

The picture is .build/race_pages/firefox.png. If there is no Firefox (Debian: package firefox-esr), the test prints what
it doesn't test.
"""

import os
import shutil
import signal
import struct
import subprocess
import tempfile
import zlib

from harness import TOP, not_run

NAMES = "firefox-esr", "firefox"
PICTURE = os.path.join(TOP, ".build", "race_pages", "firefox.png")
SIZE = 600, 900
LIMIT = 120
# Colors of page.css, in light or in dark mode: an asserted interrupt line; a slot that is finished, and an offered one
COLORS = {"line": ((0x8A, 0x42, 0x00), (0xFF, 0xB3, 0x66)), "finished": ((0xA8, 0xE6, 0xB1), (0x1D, 0x6B, 0x2C)),
          "offered": ((0xD6, 0xE6, 0xFF), (0x1F, 0x3F, 0x6E))}


def is_seen(colors):
    """Which of COLORS are among these colors, by their names"""
    return {name: bool(colors.intersection(wanted)) for name, wanted in COLORS.items()}


def pixels_of(data):
    """The size of a picture in PNG (8 bits for a color, not interlaced), and the set of the colors of its pixels. Ends
    at the row in which the last one of COLORS is found.
    """
    width, height, depth, kind, _, _, interlace = struct.unpack(">IIBBBBB", data[16:29])
    assert (depth, interlace) == (8, 0) and kind in (2, 6), "another form of PNG"
    at, packed = 8, b""
    while at < len(data):
        size, name = struct.unpack(">I4s", data[at:at + 8])
        packed += data[at + 8:at + 8 + size] if name == b"IDAT" else b""
        at += 12 + size
    rows, step = zlib.decompress(packed), 4 if kind == 6 else 3
    length, above, colors = width * step, bytearray(width * step), set()
    for begin in range(0, height * (length + 1), length + 1):
        row = unfiltered(rows[begin], bytearray(rows[begin + 1:begin + 1 + length]), above, step)
        colors.update(zip(row[0::step], row[1::step], row[2::step]))
        above = row
        if all(is_seen(colors).values()):
            break
    return (width, height), colors


def unfiltered(kind, row, above, step):
    """A row of a picture without its filter (PNG, section 9.2)."""
    if kind == 0:
        return row
    for at in range(len(row)):
        left, up = row[at - step] if at >= step else 0, above[at]
        corner = above[at - step] if at >= step else 0
        guess = left + up - corner
        paeth = min((left, up, corner), key=lambda one: abs(guess - one))
        row[at] = (row[at] + (0, left, up, (left + up) // 2, paeth)[kind]) & 255
    return row


def all_cases(server):
    path = next(filter(None, map(shutil.which, NAMES)), None)
    if not path:
        not_run("docs/race.html in Firefox", f"there is no {NAMES[0]}")
        return
    os.makedirs(os.path.dirname(PICTURE), exist_ok=True)
    if os.path.exists(PICTURE):
        os.remove(PICTURE)
    page = f"file://{os.path.join(TOP, 'docs', 'race.html')}"
    with tempfile.TemporaryDirectory() as profile:
        words = [path, "--headless", "--no-remote", "--profile", profile, f"--window-size={SIZE[0]},{SIZE[1]}",
                 "--screenshot", PICTURE, page]
        process = subprocess.Popen(words, stdin=subprocess.DEVNULL, stdout=subprocess.DEVNULL,
                                   stderr=subprocess.DEVNULL, env={**os.environ, "HOME": profile},
                                   start_new_session=True)
        try:
            status = process.wait(LIMIT)
        except subprocess.TimeoutExpired:
            status = "it doesn't end"
            os.killpg(process.pid, signal.SIGKILL)
            process.wait()
    server.check("firefox: it ends", status, 0)
    if not server.holds("firefox: a picture", os.path.exists(PICTURE)):
        return
    with open(PICTURE, "rb") as file:
        size, colors = pixels_of(file.read())
    server.check("firefox: its size", size, SIZE)
    server.check("firefox: colors", is_seen(colors), dict.fromkeys(COLORS, True))
