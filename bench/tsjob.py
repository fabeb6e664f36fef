#!/usr/bin/env python3
"""tsjob.py TSJOB TSMUX: the speed and the memory of `tsjob` on about 46 MB and 150 MB of packets that `tsmux mux` made, of 1 and of 32
streams of audio and of television, with all tables: the whole job, its description alone (`describe`), its records alone (`units`), its
records while the stream comes (`units --stream`, by that description), as processor time, beside a program that reads, copies and writes the packets, and a copy of them in memory;
and the memory of `units --stream` over 4 GB of packets, or as many GB as a third word says, which are made as they are read. It needs cc."""

import subprocess
import sys
import tempfile
from pathlib import Path

from common import audio_job, beside, measured, peak_bytes, peak_of_pipe, television_job, television_pieces, television_text

tsjob, tsmux = sys.argv[1:3]
LONG = int(sys.argv[3]) if len(sys.argv) > 3 else 4
jobs = (
    ("1 stream", lambda size: audio_job(tsmux, 1, size)),
    ("32 streams", lambda size: audio_job(tsmux, 32, size)),
    ("television", lambda size: television_job(tsmux, size)),
)
for name, job in jobs:
    for wanted in (46_000_000, 150_000_000):
        with tempfile.TemporaryDirectory() as scratch:
            stream = Path(scratch, "stream.ts")
            with open(stream, "wb") as sink:
                subprocess.run([tsmux, "mux"], input=job(wanted), stdout=sink, check=True)
            size = stream.stat().st_size
            description = Path(scratch, "description")
            with open(stream, "rb") as source, open(description, "wb") as sink:
                subprocess.run([tsjob, "describe"], stdin=source, stdout=sink, stderr=subprocess.DEVNULL)
            for word in ([], ["describe"], ["units"], ["units", "--stream", str(description)]):
                done = subprocess.run([tsjob, *word], stdin=open(stream, "rb"), capture_output=True)
                # 1: what the end of the input cuts short is told, beside a job of the rest
                assert done.returncode in (0, 1) and done.stdout, done.stderr[-500:]
                most = peak_bytes([tsjob, *word], stream)
                print(beside(" ".join(["tsjob", *word[:2]]) + f", {name}, {size / 1e6:.0f} MB", size // 188, *measured([tsjob, *word], stream, stream))
                      + f"; {len(done.stdout) / 1e6:.1f} MB of job, at most {most / 1e6:.0f} MB of memory, {most / size:.2f} times the stream")
with tempfile.TemporaryDirectory() as scratch:
    description = Path(scratch, "description")
    description.write_text(television_text())
    most = peak_of_pipe([tsjob, "units", "--stream", description], television_pieces(tsmux, LONG * 10**9)) / 1e6
print(f"tsjob units --stream, television, {LONG} GB of packets through a pipe: at most {most:.1f} MB of memory")
