#!/usr/bin/env python3
"""slots.py BINARY: the speed of `Mux::next_packet` over plans by `plan`, with all tables, for 32 streams with few and with many
units that wait and for one stream: the median time of 1,000 packets by the clock (some 0.05 ms: other work falls between them), beside a
copy of as many packets in memory. It builds bench/slots.txt over the library, and needs cc."""

import subprocess
import sys
import tempfile
from pathlib import Path

from common import audio_rate, audio_service, built, copy_seconds

CASES = [(32, 600), (32, 20_000), (1, 20_000)]


def batches(program, job, packets, units):
    """The nanoseconds of each 1,000 packets, and how many of these are not null packets."""
    with open(job, "rb") as source:
        said = subprocess.run([program, str(packets), str(units)], stdin=source, capture_output=True, check=True, text=True).stdout
    assert said and "no" not in said, said
    return [tuple(map(int, line.split())) for line in said.strip().split("\n")]


with tempfile.TemporaryDirectory() as scratch:
    program = built(Path(scratch), "slots", ["mux_core", "pes_packet", "plan_checker", "slot_plan", "description"])
    copy = 1e9 * copy_seconds(2_000_000) / 2_000_000
    for streams, units in CASES:
        text = audio_service(streams).encode()
        plan = subprocess.run([sys.argv[1], "plan"], input=text, capture_output=True, check=True).stdout
        job = Path(scratch, "job")
        job.write_bytes(text + plan)
        packets = units * 2160 * audio_rate(streams) // (90_000 * 1504)
        found = sorted(batch for _ in range(max(1, 2_000_000 // packets)) for batch in batches(program, job, packets, units))
        spent = found[len(found) // 2][0] / 1_000
        full = sum(sent for _, sent in found) / len(found) / 1_000
        print(f"{streams} streams, {units} units of each waiting: {1000 / spent:.1f} million packets a second, {spent:.0f} ns each ({100 * full:.0f} % of"
              f" them no null packets), of {1_000 * len(found)} packets; a copy {copy:.0f} ns, {1000 * copy / spent:.0f} permille")
