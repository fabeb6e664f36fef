#!/usr/bin/env python3
"""measure.py: the speed of `measure` on 100,000 packets of one stream (18.8 MB, 5,000 units), as processor time for ten
measurements less that for none, beside a copy of as many packets in memory. It builds bench/measuring.txt over the library, and
needs cc."""

import tempfile
from pathlib import Path

from common import built, copy_seconds, seconds

with tempfile.TemporaryDirectory() as scratch:
    binary = built(Path(scratch), "measuring", ["tstd", "description", "pes_packet", "ts_packet", "arrayvec"])
    copy = copy_seconds(100_000)
    none = min(seconds([binary]) for _ in range(5))
    ten = min(seconds([binary, *["again"] * 10]) for _ in range(5))
    ours = (ten - none) / 10
    print(f"measure: 18.8 MB in {ours:.3f} s of processor time, {18.8 / ours:.0f} MB a second; copy {copy:.4f} s, {1000 * copy / ours:.0f} permille")
