#!/usr/bin/env python3
"""packets.py: the speed of `read_packet` on packets with a payload alone and of `overwrite_payload` on payloads of 1 to 128 bytes, as
processor time for 20 million packets, beside a copy of as many packets in memory. It builds bench/packets.txt over the library,
and needs cc."""

import tempfile
from pathlib import Path

from common import built, copy_seconds, seconds

with tempfile.TemporaryDirectory() as scratch:
    binary = built(Path(scratch), "packets", ["ts_packet"])
    copy = 10 * copy_seconds(2_000_000)
    for name, words in (("read_packet", []), ("overwrite_payload", ["write"])):
        ours = min(seconds([binary, *words]) for _ in range(5))
        print(f"{name}: 20 million packets in {ours:.2f} s of processor time, {20 / ours:.0f} million a second; copy {copy:.2f} s,"
              f" {1000 * copy / ours:.0f} permille")
