#!/usr/bin/env python3
"""monitor.py BINARY: the speed of `monitor` on about 46 MB and 150 MB of packets, as processor time, beside a program that reads, copies
and writes them and a copy of them in memory, and the most memory that it holds on 150 MB and on 2 GB through a pipe. The packets are
television that `mux` made, and then those of the radio example, over and over, with a PAT before each turn; their continuity_counters
count on. No fault is found. It needs cc."""

import subprocess
import sys
import tempfile
from pathlib import Path

from common import beside, measured, peak_bytes, television_job

PAT = bytes.fromhex("4740001000" "00b00d0001c100000001f0002ab104b2") + b"\xff" * 167
# A PMT without streams, so that the program that the PAT names is never late.
PMT = bytes.fromhex("4750001000" "02b00d0001c10000e101f000")
PIPED = 'i=0; while [ $i -lt $1 ]; do cat "$0"; i=$((i + 1)); done | "$2" monitor --rate 100000000'


def check_word(data):
    register = 0xFFFFFFFF
    for byte in data:
        register ^= byte << 24
        for _ in range(8):
            register = (register << 1 ^ (0x04C11DB7 if register >> 31 else 0)) & 0xFFFFFFFF
    return register.to_bytes(4, "big")


def counted(packets):
    """The packets, each PID's continuity_counter counting on."""
    counters, out = {}, bytearray(packets)
    for at in range(0, len(out), 188):
        pid = (out[at + 1] & 0x1F) << 8 | out[at + 2]
        counters[pid] = (counters.get(pid, -1) + 1) % 16
        out[at + 3] = out[at + 3] & 0xF0 | counters[pid]
    return bytes(out)


def radio(binary):
    """Turns of the radio example's packets, some 1 MB, in which no fault is found."""
    units = (Path(__file__).resolve().parent.parent / "examples" / "radio" / "radio.units").read_bytes()
    packets = subprocess.run([binary, "carry"], input=units, stdout=subprocess.PIPE, check=True).stdout
    map_packet = (PMT + check_word(PMT[5:])).ljust(188, b"\xff")
    return counted((PAT + map_packet + packets) * 16)


binary = sys.argv[1]
words = [binary, "monitor", "--rate", "100000000"]


def tell(name, stream):
    """A line on a stream without faults."""
    count = stream.stat().st_size // 188
    report = subprocess.run(words, stdin=open(stream, "rb"), stdout=subprocess.PIPE, check=True).stdout
    assert report.endswith(b"\nfaults 0\n"), report[-200:]
    print(beside(f"monitor, {name}, {stream.stat().st_size / 1e6:.0f} MB", count, *measured(words, stream, stream)))


with tempfile.TemporaryDirectory() as scratch:
    stream = Path(scratch, "stream.ts")
    turns = radio(binary)
    for size in (46_000_000, 150_000_000):
        stream.write_bytes(subprocess.run([binary, "mux"], input=television_job(binary, size), stdout=subprocess.PIPE, check=True).stdout)
        tell("television", stream)
        stream.write_bytes(turns * (size // len(turns)))
        tell("radio", stream)
    for times in (1, 13):
        peak = peak_bytes(["sh", "-c", PIPED, stream, times, binary], "/dev/null")
        print(f"monitor: {times * stream.stat().st_size / 1e9:.1f} GB through a pipe, at most {peak / 1e6:.1f} MB of memory")
