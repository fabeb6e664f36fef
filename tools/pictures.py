"""Pages as Chromium draws them, for the tools that look at pictures: Debian's `chromium`, headless, in light or dark."""

import shutil
import struct
import subprocess
import tempfile
import zlib
from pathlib import Path


def chromium():
    """The path of Chromium; None where it is not installed."""
    return shutil.which("chromium")


def draw(page, picture, width, height, dark=False):
    """Draws a page, whose width and height are in pixels, into a file of PNG."""
    with tempfile.TemporaryDirectory() as profile:
        words = [chromium(), "--headless", "--no-sandbox", "--disable-gpu", "--hide-scrollbars", f"--user-data-dir={profile}",
                 f"--blink-settings=preferredColorScheme={0 if dark else 1}", f"--window-size={width},{height}",
                 f"--screenshot={Path(picture).resolve()}", Path(page).resolve().as_uri()]
        done = subprocess.run(words, stdout=subprocess.DEVNULL, stderr=subprocess.PIPE, timeout=300)
    if done.returncode or not Path(picture).exists():
        raise RuntimeError(f"{page} is not drawn: {done.stderr[-300:]!r}")


def chunks(data):
    """The chunks of a PNG: name and bytes (ISO/IEC 15948, 5.3)."""
    at = 8
    while at < len(data):
        size, = struct.unpack_from(">I", data, at)
        yield data[at + 4: at + 8], data[at + 8: at + 8 + size]
        at += 12 + size


def unfiltered(kind, row, above, step):
    """A row of a PNG without its filter (ISO/IEC 15948, 9.2)."""
    row = bytearray(row)
    for i, value in enumerate(row):
        left, corner = (row[i - step], above[i - step]) if i >= step else (0, 0)
        if kind == 1:
            value += left
        elif kind == 2:
            value += above[i]
        elif kind == 3:
            value += (left + above[i]) // 2
        elif kind == 4:
            guess = left + above[i] - corner
            value += min((abs(guess - left), 0, left), (abs(guess - above[i]), 1, above[i]), (abs(guess - corner), 2, corner))[2]
        row[i] = value & 255
    return row


def pixels(picture):
    """The rows of a picture of 8 bits a colour, each a list of (red, green, blue)."""
    parts = list(chunks(Path(picture).read_bytes()))
    width, height, depth, colour, *_ = struct.unpack(">IIBBBBB", dict(parts)[b"IHDR"])
    step = {2: 3, 6: 4}[colour]
    if depth != 8:
        raise ValueError(f"{depth} bits a colour")
    data = zlib.decompress(b"".join(body for name, body in parts if name == b"IDAT"))
    above, size = bytes(width * step), width * step + 1
    for at in range(0, height * size, size):
        above = unfiltered(data[at], data[at + 1: at + size], above, step)
        yield [tuple(above[i: i + 3]) for i in range(0, width * step, step)]
