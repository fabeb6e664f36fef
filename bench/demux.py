#!/usr/bin/env python3
"""demux.py BINARY: the speed of `demux` on about 46 MB and 150 MB of packets, as processor time, and of `Demux::take` and `Demux::push`
without lines (less a run that reads the packets alone), beside a program that reads, copies and writes the packets, and a copy of them
in memory. The packets are those of the radio example, over and over, with a PAT before each turn, and then television that `mux` made;
there `ffprobe -show_packets` and GStreamer's demultiplexer stand beside it, where they are installed. It builds bench/findings.txt over
the library, and needs cc."""

import shutil
import subprocess
import sys
import tempfile
from pathlib import Path

from common import beside, built, least, measured, peak_bytes, television_job

PAT = bytes.fromhex("4740001000" "00b00d0001c100000001f0002ab104b2") + b"\xff" * 167


def radio(binary, size):
    """About so many bytes of packets of the radio example."""
    units = (Path(__file__).resolve().parent.parent / "examples" / "radio" / "radio.units").read_bytes()
    packets = subprocess.run([binary, "carry"], input=units, stdout=subprocess.PIPE, check=True).stdout
    turn = PAT + packets
    return turn * (size // len(turn))


def television(binary, size):
    """About so many bytes of packets of television."""
    return subprocess.run([binary, "mux"], input=television_job(binary, size), stdout=subprocess.PIPE, check=True).stdout


PEERS = (
    ["ffprobe", "-v", "quiet", "-show_packets", "-of", "compact", "-"],
    ["gst-launch-1.0", "-q", "fdsrc", "!", "tsdemux", "!", "fakesink"],
)
binary = sys.argv[1]
with tempfile.TemporaryDirectory() as scratch:
    work = Path(scratch)
    calls = built(work, "findings", ["demux"])
    for made, peers in ((radio, ()), (television, PEERS)):
        for size in (46_000_000, 150_000_000):
            stream = work / "stream.ts"
            stream.write_bytes(made(binary, size))
            count = stream.stat().st_size // 188
            ours, limit, copy = measured([binary, "demux"], stream, stream)
            print(beside(f"demux, {made.__name__}, {size // 1_000_000} MB", count, ours, limit, copy)
                  + f"; at most {peak_bytes([binary, 'demux'], stream) / 1e6:.0f} MB of memory")
            none = least([calls], stream).whole
            for name in ("take", "push"):
                alone = least([calls, name], stream).whole - none
                print(f"Demux::{name}: {count / alone / 1e6:.1f} million a second, {limit.whole / alone:.2f} of the limit,"
                      f" {1000 * copy / alone:.0f} permille of a copy")
            for words in peers:
                if shutil.which(words[0]):
                    print(beside(words[0], count, least(words, stream), limit, copy))
