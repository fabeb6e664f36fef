#!/usr/bin/env python3
"""instructions.py TSMUX PROGRAM..: the instructions that programs take for a packet, of tsmux and of those of tsjob, tsair, tsremux and
tsview that are given, on 1, 32 and 254 streams of audio and on television, with all tables. From those for about 16 MB of packets
those for about 8 MB are taken away, so that what a program does once does not count. It needs valgrind."""

import re
import subprocess
import sys
import tempfile
from pathlib import Path

from common import audio_job, television_job

SIZES = (8_000_000, 16_000_000)
STREAMS = ("1 stream", "32 streams", "254 streams", "television")
tsmux, *others = sys.argv[1:]


def job_of(name, size):
    """A job of one of these streams, whose packets have about this many bytes."""
    return television_job(tsmux, size) if name == "television" else audio_job(tsmux, int(name.split()[0]), size)


def words_of(program, rate):
    """What is counted of a program: its words, and whether it takes the job in place of the packets."""
    return {
        "tsmux": ((["mux"], True), (["demux"], False), (["monitor", "--rate", rate], False)),
        "tsair": (([], True),),
        "tsjob": (([], False),),
        "tsremux": ((["--rate", rate], False),),
        "tsview": ((["--rate", rate], False), ([], False)),
    }[Path(program).name]


def instructions(words, given):
    """The instructions that a program takes for this input; it must not fail."""
    counting = ["valgrind", "--tool=callgrind", "--callgrind-out-file=/dev/null", *words]
    with open(given, "rb") as source:
        done = subprocess.run(counting, stdin=source, stdout=subprocess.DEVNULL, stderr=subprocess.PIPE, text=True)
    assert done.returncode in (0, 1), done.stderr[-500:]
    return int(re.search(r"Collected : (\d+)", done.stderr)[1])


def made(scratch, name, size):
    """A job, its packets, their number, and the rate in the job."""
    job, packets = Path(scratch, f"job.{size}"), Path(scratch, f"packets.{size}")
    job.write_bytes(job_of(name, size))
    with open(job, "rb") as source, open(packets, "wb") as sink:
        subprocess.run([tsmux, "mux"], stdin=source, stdout=sink, check=True)
    rate = re.search(rb"^rate *= *(\d+)", job.read_bytes(), re.MULTILINE)[1].decode()
    return job, packets, packets.stat().st_size // 188, rate


for name in STREAMS:
    with tempfile.TemporaryDirectory() as scratch:
        less, more = (made(scratch, name, size) for size in SIZES)
        for program in (tsmux, *others):
            for words, takes_job in words_of(program, less[3]):
                few, many = (instructions([program, *words], it[0 if takes_job else 1]) for it in (less, more))
                said = " ".join([Path(program).name, *words[:1]])
                print(f"{said}, {name}: {(many - few) / (more[2] - less[2]):.0f} instructions a packet", flush=True)
