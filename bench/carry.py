#!/usr/bin/env python3
"""carry.py BINARY: the speed of `carry` on unit records for about 46 MB and 150 MB of packets, as processor time, beside a program that
reads, copies and writes the packets, and a copy of them in memory. It needs cc."""

import random
import struct
import subprocess
import sys
import tempfile
from pathlib import Path

from common import beside, measured

binary = sys.argv[1]
words = [binary, "carry", "--id", "224"]
chance = random.Random(1)
for size in (20_000, 576):
    for wanted in (46_000_000, 150_000_000):
        count = wanted // (188 * -(-(size + 14) // 184))
        unit = chance.randbytes(size)
        stamps = (10_000 + index * 1_800 for index in range(count))
        with tempfile.TemporaryDirectory() as scratch:
            made, packets = Path(scratch, "records"), Path(scratch, "packets")
            made.write_bytes(b"".join(struct.pack(">BIQQ", 0, size, stamp, stamp) + unit for stamp in stamps))
            with open(made, "rb") as source, open(packets, "wb") as sink:
                subprocess.run(words, stdin=source, stdout=sink, check=True)
            sent = packets.stat().st_size // 188
            print(beside(f"carry, units of {size} bytes", sent, *measured(words, made, packets)))
