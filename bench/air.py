#!/usr/bin/env python3
"""air.py TSMUX TSAIR: the speed and the memory of `tsair` on the jobs of bench/mux.py, as processor time, beside `mux` of the same job, a
program that reads, copies and writes as many packets, and a copy of them in memory; and its memory over 4 GB of records, or as many GB
as a third word says, which are made as they are read. It needs cc."""

import subprocess
import sys
import tempfile
from pathlib import Path

from common import SIZES, audio_front, audio_job, audio_pieces, beside, least, measured, peak_bytes, peak_of_pipe

tsmux, tsair = sys.argv[1:3]
LONG = int(sys.argv[3]) if len(sys.argv) > 3 else 4
for streams in (1, 32):
    for wanted in SIZES:
        with tempfile.TemporaryDirectory() as scratch:
            made, packets = Path(scratch, "job"), Path(scratch, "packets")
            made.write_bytes(audio_job(tsmux, streams, wanted))
            with open(made, "rb") as source, open(packets, "wb") as sink:
                subprocess.run([tsair], stdin=source, stdout=sink, check=True)
            with open(made, "rb") as source:
                same = subprocess.run([tsmux, "mux"], stdin=source, capture_output=True, check=True).stdout == packets.read_bytes()
            count = packets.stat().st_size // 188
            (ours, limit, copy), mux = measured([tsair], made, packets), least([tsmux, "mux"], made)
            size, most = made.stat().st_size / 1e6, peak_bytes([tsair], made) / 1e6
            print(beside(f"tsair, {streams} streams, {size:.0f} MB of job", count, ours, limit, copy) + f"; {'the bytes of' if same else 'NOT THE BYTES OF'}"
                  f" mux, which takes {mux.whole:.2f} s; at most {most:.1f} MB of memory")
most = peak_of_pipe([tsair], audio_pieces(audio_front(tsmux, 32), 32, LONG * 10**9)) / 1e6
print(f"tsair, 32 streams, {LONG} GB of records through a pipe: at most {most:.1f} MB of memory")
