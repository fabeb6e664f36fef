#!/usr/bin/env python3
"""film.py TSMUX TSJOB TSAIR: all programs on one film, 300 s of MPEG-2 video and two sounds that ffmpeg makes (1.2 million packets at
6 Mbit/s), as processor time, beside a program that reads, copies and writes the same packets and a copy of them in memory: `tsjob` on
ffmpeg's stream, whose job is that of `mux` and `tsair`; `demux`, `monitor` and `tsjob` on what `mux` makes of it; and peers, where they are
installed: ffmpeg, which makes a stream of the same film, GStreamer's demultiplexer and ffprobe. It needs ffmpeg and cc."""

import shutil
import subprocess
import sys
import tempfile
from pathlib import Path

from common import HUGE_PAGES, beside, hold_spent, measured, peak_bytes

RATE = 6_000_000
SECONDS = 300
SOURCES = ("testsrc2=size=720x576:rate=25", "sine=440", "sine=880")
CODECS = "-c:v mpeg2video -b:v 3600k -maxrate 3600k -bufsize 1835k -g 12 -bf 2 -c:a mp2 -b:a 128k".split()
PEERS = (
    ["gst-launch-1.0", "-q", "fdsrc", "!", "tsdemux", "!", "fakesink"],
    ["ffprobe", "-v", "quiet", "-show_packets", "-of", "compact", "-"],
)
tsmux, tsjob, tsair = sys.argv[1:4]


def run(words, source, target, statuses=(0,)):
    """Runs a program from a file to another."""
    with open(source, "rb") as given, open(target, "wb") as sink:
        done = subprocess.run([str(word) for word in words], stdin=given, stdout=sink, stderr=subprocess.PIPE)
    assert done.returncode in statuses, done.stderr[-500:]


def remux(film):
    """ffmpeg's words to make a transport stream of a film."""
    return ["ffmpeg", "-v", "error", "-i", film, "-map", "0", "-c", "copy", "-f", "mpegts", "-muxrate", RATE, "-"]


def film_at(path):
    """The film."""
    inputs = [word for source in SOURCES for word in ("-f", "lavfi", "-i", source)]
    maps = [word for k in range(len(SOURCES)) for word in ("-map", str(k))]
    subprocess.run(["ffmpeg", "-v", "error", *inputs, "-t", str(SECONDS), *maps, *CODECS, path], check=True)


def tell(name, words, source, packets):
    """A line on a program."""
    line = beside(name, packets.stat().st_size // 188, *measured(words, source, packets))
    print(f"{line}; at most {peak_bytes(words, source) / 1e6:.0f} MB of memory", flush=True)


with tempfile.TemporaryDirectory() as scratch:
    film, theirs, job, ours = (Path(scratch, name) for name in ("film.mkv", "theirs.ts", "job", "ours.ts"))
    film_at(film)
    run(remux(film), film, theirs)
    # 1: what the end of the input cuts short is told, beside a job of the rest
    run([tsjob, "--rate", RATE], theirs, job, (0, 1))
    run([tsmux, "mux"], job, ours)
    count, size = ours.stat().st_size // 188, job.stat().st_size
    print(f"{theirs.stat().st_size // 188} packets by ffmpeg, {count} by mux, of {size / 1e6:.0f} MB of job")
    tell("mux", [tsmux, "mux"], job, ours)
    tell("mux in huge pages", [*HUGE_PAGES, tsmux, "mux"], job, ours)
    print("a program that holds the job: {}; in huge pages: {}".format(*hold_spent(job, count)))
    tell("tsair", [tsair], job, ours)
    tell("demux", [tsmux, "demux"], ours, ours)
    tell("monitor", [tsmux, "monitor", "--rate", RATE], ours, ours)
    tell("tsjob", [tsjob], ours, ours)
    tell("tsjob in huge pages", [*HUGE_PAGES, tsjob], ours, ours)
    tell("tsjob of ffmpeg's stream", [tsjob], theirs, theirs)
    tell("ffmpeg", remux(film), film, theirs)
    for words in PEERS:
        if shutil.which(words[0]):
            tell(words[0], words, ours, ours)
