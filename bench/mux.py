#!/usr/bin/env python3
"""mux.py BINARY: the speed and the memory of `mux` on jobs of about 46 MB and 150 MB with one stream of audio, of as many packets with
32, and of television (one stream of video, two of audio), all tables and a plan by `plan`, as processor time, of the whole job and of its
slots with their output alone, beside a program that reads, copies and writes as many packets, one that holds the job and then writes as
many, and a copy of them in memory. It needs cc."""

import subprocess
import sys
import tempfile
from pathlib import Path

from common import SIZES, TELEVISION_SIZES, audio_job, beside, hold_spent, least, measured, peak_bytes, television_job

binary = sys.argv[1]
jobs = (
    ("1 stream", SIZES, lambda size: audio_job(binary, 1, size)),
    ("32 streams", SIZES, lambda size: audio_job(binary, 32, size)),
    ("television", TELEVISION_SIZES, lambda size: television_job(binary, size)),
)
for name, sizes, job in jobs:
    for wanted in sizes:
        with tempfile.TemporaryDirectory() as scratch:
            made, packets = Path(scratch, "job"), Path(scratch, "packets")
            made.write_bytes(job(wanted))
            with open(made, "rb") as source, open(packets, "wb") as sink:
                subprocess.run([binary, "mux"], stdin=source, stdout=sink, check=True)
            count = packets.stat().st_size // 188
            ours, limit, copy = measured([binary, "mux"], made, packets)
            small, huge = hold_spent(made, count)
            slots = ours.whole - least([binary, "mux", "--slots", "0"], made).whole
            size, most = made.stat().st_size / 1e6, peak_bytes([binary, "mux"], made) / 1e6
            print(beside(f"mux, {name}, {size:.0f} MB of job", count, ours, limit, copy) + f"; the slots alone {slots:.3f} s,"
                  f" {count / slots / 1e6:.1f} million a second, {limit.whole / slots:.2f} of the limit; at most {most:.0f} MB of memory,"
                  f" {most / size:.2f} times the job; a program that holds the job {small}, {limit.whole / small.whole:.2f} of the limit,"
                  f" in huge pages {huge}, {limit.whole / huge.whole:.2f}")
