#!/usr/bin/env python3
"""check.py: the time of one `check`, as processor time, by the slots of the period and the number of streams: of plans that
only the last condition refuses, so that every condition is looked at; beside a copy of as many packets in memory as the period has
slots. It builds bench/checks.txt over the library, and needs cc."""

import subprocess
import tempfile
from pathlib import Path

from common import built, copy_seconds, seconds

TIMES = 200
SIZES = [(128, 8), (256, 8), (512, 8), (1024, 8), (1024, 1), (1024, 16), (1024, 32)]

with tempfile.TemporaryDirectory() as scratch:
    binary = built(Path(scratch), "checks", ["plan_checker", "slot_plan", "description"])
    for blocks, streams in SIZES:
        said = subprocess.run([binary, str(blocks), str(streams), "2"], capture_output=True, check=True, text=True).stdout
        assert said == "18\n", said
        none = min(seconds([binary, blocks, streams, 0]) for _ in range(3))
        some = min(seconds([binary, blocks, streams, TIMES]) for _ in range(3))
        ours = (some - none) / TIMES
        print(f"{64 * blocks} slots, {streams} streams: {1000 * ours:.1f} ms, {1000 * copy_seconds(64 * blocks) / ours:.0f} permille of a copy")
