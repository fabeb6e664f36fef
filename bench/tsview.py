#!/usr/bin/env python3
"""tsview.py TSVIEW TSMUX: the speed and the memory of `tsview` on about 46 MB and 150 MB of packets that `tsmux mux` made, of 1 and of 32
streams of audio and of television, with all tables: as processor time, beside a program that reads, copies and writes the packets, and a
copy of them in memory. It needs cc."""

import subprocess
import sys
import tempfile
from pathlib import Path

from common import audio_job, beside, measured, peak_bytes, television_job

tsview, tsmux = sys.argv[1:3]
jobs = (
    ("1 stream", lambda size: audio_job(tsmux, 1, size)),
    ("32 streams", lambda size: audio_job(tsmux, 32, size)),
    ("television", lambda size: television_job(tsmux, size)),
)
for name, job in jobs:
    for wanted in (46_000_000, 150_000_000):
        with tempfile.TemporaryDirectory() as scratch:
            stream = Path(scratch, "stream.ts")
            given = job(wanted)
            rate = next(line.split(b"=")[1].strip().decode() for line in given.splitlines() if line.startswith(b"rate"))
            with open(stream, "wb") as sink:
                subprocess.run([tsmux, "mux"], input=given, stdout=sink, check=True)
            size = stream.stat().st_size
            words = [tsview, "--rate", rate]
            done = subprocess.run(words, stdin=open(stream, "rb"), capture_output=True)
            assert done.returncode == 0, done.stderr[-500:]
            print(beside(f"tsview, {name}, {size / 1e6:.0f} MB", size // 188, *measured(words, stream, stream))
                  + f"; {len(done.stdout) / 1e3:.0f} kB of lines, at most {peak_bytes(words, stream) / 1e6:.0f} MB of memory")
