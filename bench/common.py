"""What the benches share: processor time of a program, of a copy of the same packets in memory, and of a program that reads, copies
and writes them; programs over the library; a service to multiplex, and jobs of it."""

import random
import resource
import shutil
import struct
import subprocess
import sys
import tempfile
from contextlib import contextmanager
from pathlib import Path
from typing import NamedTuple

COPY = r"""
#include <stdio.h>
#include <stdlib.h>
#include <string.h>
#include <time.h>
int main(int count, char **words) {
    size_t packets = strtoull(words[1], 0, 10), size = packets * 188;
    unsigned char *from = malloc(size), *to = malloc(size);
    struct timespec before, after;
    memset(from, 0x47, size);
    memset(to, 0, size);
    clock_gettime(CLOCK_PROCESS_CPUTIME_ID, &before);
    for (size_t at = 0; at < size; at += 188)
        memcpy(to + at, from + at, 188);
    clock_gettime(CLOCK_PROCESS_CPUTIME_ID, &after);
    printf("%.6f %d\n", after.tv_sec - before.tv_sec + 1e-9 * (after.tv_nsec - before.tv_nsec), to[size / 2]);
    return 0;
}
"""


LIMIT = r"""
#include <string.h>
#include <unistd.h>
enum { PACKET = 188, PIECE = 348 * PACKET };
static unsigned char from[PIECE], to[PIECE];
int main(void) {
    for (;;) {
        size_t have = 0, sent = 0;
        ssize_t n;
        while (have < PIECE && (n = read(0, from + have, PIECE - have)) > 0)
            have += n;
        for (size_t at = 0; at + PACKET <= have; at += PACKET)
            memcpy(to + at, from + at, PACKET);
        while (sent < have && (n = write(1, to + sent, have - sent)) > 0)
            sent += n;
        if (have < PIECE)
            return 0;
    }
}
"""

# A program that holds its input, as one must that judges all of it before it writes, and does nothing else with it: each 64 KiB are read
# straight into a room of their own, of memory as it is asked for or, with a second word, of one piece that may have pages of 2 MiB; then so
# many packets are made of these bytes, 184 each, and written as by the limit.
HOLD = r"""
#define _GNU_SOURCE
#include <stdlib.h>
#include <string.h>
#include <sys/mman.h>
#include <unistd.h>
enum { PACKET = 188, PAYLOAD = 184, HEADER = PACKET - PAYLOAD, ROOM = 1 << 16, ROOMS = 1 << 20, WRITTEN = 348 * PACKET };
static unsigned char *held[ROOMS], to[WRITTEN], *huge;
static unsigned char *room_at(size_t index) { return huge ? huge + index * ROOM : malloc(ROOM); }
static int is_written(size_t size) {
    ssize_t n = 0;
    for (size_t sent = 0; sent < size; sent += n)
        if ((n = write(1, to + sent, size - sent)) <= 0)
            return 0;
    return 1;
}
int main(int count, char **words) {
    size_t packets = strtoull(words[1], 0, 10), size = 0;
    if (count > 2) {
        huge = mmap(0, (size_t)ROOM * ROOMS, PROT_READ | PROT_WRITE, MAP_PRIVATE | MAP_ANONYMOUS | MAP_NORESERVE, -1, 0);
        madvise(huge, (size_t)ROOM * ROOMS, MADV_HUGEPAGE);
    }
    for (size_t have = ROOM, rooms = 0; have == ROOM; size += have) {
        unsigned char *room = held[rooms] = room_at(rooms);
        ssize_t n;
        for (have = 0, rooms++; have < ROOM && (n = read(0, room + have, ROOM - have)) > 0;)
            have += n;
    }
    size_t filled = 0;
    for (size_t packet = 0, at = 0; packet < packets; packet++, at += PAYLOAD) {
        if (at + 2 * ROOM >= size)
            at = 0;
        size_t place = at % ROOM, part = ROOM - place < PAYLOAD ? ROOM - place : PAYLOAD;
        memset(to + filled, 0x47, HEADER);
        memcpy(to + filled + HEADER, held[at / ROOM] + place, part);
        memcpy(to + filled + HEADER + part, held[at / ROOM + 1], PAYLOAD - part);
        filled += PACKET;
        if (filled == WRITTEN) {
            if (!is_written(filled))
                return 1;
            filled = 0;
        }
    }
    return !is_written(filled);
}
"""


class Spent(NamedTuple):
    """Processor time in seconds: the program's own, and the system's for it."""

    user: float
    system: float

    @property
    def whole(self):
        return self.user + self.system

    def __str__(self):
        return f"{self.whole:.3f} s of processor time ({self.user:.3f} its own, {self.system:.3f} the system's)"


def spent(words, path=None):
    """What a program takes whose standard input is this file, and whose output goes through a pipe to a process that drops it."""
    before = resource.getrusage(resource.RUSAGE_CHILDREN)
    with open(path or "/dev/null", "rb") as source, open("/dev/null", "wb") as nothing:
        # The process that drops the output is waited for after the times are taken, so it does not count.
        sink = subprocess.Popen(["cat"], stdin=subprocess.PIPE, stdout=nothing)
        subprocess.run([str(word) for word in words], stdin=source, stdout=sink.stdin, stderr=subprocess.DEVNULL)
        after = resource.getrusage(resource.RUSAGE_CHILDREN)
        sink.stdin.close()
        sink.wait()
    return Spent(after.ru_utime - before.ru_utime, after.ru_stime - before.ru_stime)


# The speed of a shared machine changes from one second to the next: of so many runs the least is taken.
RUNS = 11


def least(words, path=None):
    """The least of these runs."""
    return min((spent(words, path) for _ in range(RUNS)), key=lambda it: it.whole)


@contextmanager
def compiled(**sources):
    """The programs of these texts in C, by name."""
    with tempfile.TemporaryDirectory() as scratch:
        programs = []
        for name, text in sources.items():
            source, binary = Path(scratch, name + ".c"), Path(scratch, name)
            source.write_text(text)
            subprocess.run(["cc", "-O2", "-o", binary, source], check=True)
            programs.append(binary)
        yield programs


def copied(binary, packets):
    """The processor time of a copy, packet by packet, of so many packets in memory that is at hand."""
    return float(subprocess.run([binary, str(packets)], capture_output=True, check=True, text=True).stdout.split()[0])


def measured(words, path, packets):
    """What a program takes, whose standard input is the file at `path`; what the machine takes at least for these packets: a program that
    reads them, copies each, and writes them, through pieces of 64 KiB, whose output goes where `spent` lets that of any program go; and
    what a copy of as many in memory takes. The least of as many runs, one of each in turn."""
    count = packets.stat().st_size // 188
    with compiled(limit=LIMIT, copy=COPY) as (limit, copy):
        ours, limits, copies = zip(*((spent(words, path), spent([limit], packets), copied(copy, count)) for _ in range(RUNS)))
    return min(ours, key=lambda it: it.whole), min(limits, key=lambda it: it.whole), min(copies)


# By these words a program's memory may have pages of 2 MiB, where the system gives them to those that ask (`madvise`).
HUGE_PAGES = ["env", "GLIBC_TUNABLES=glibc.malloc.hugetlb=1"]


def hold_spent(job, count):
    """What a plain program takes that holds this job before it writes so many packets, and what in pages of 2 MiB."""
    with compiled(hold=HOLD) as (hold,):
        return least([hold, count], job), least([hold, count, "huge"], job)


def beside(name, count, ours, limit, copy):
    """A line: a program's time for so many packets, beside the machine's limit and a copy in memory."""
    return (f"{name}: {count} packets in {ours}, {count / ours.whole / 1e6:.1f} million a second; limit {limit}, {limit.whole / ours.whole:.2f}"
            f" of it; copy {copy:.3f} s, {1000 * copy / ours.whole:.0f} permille")


def seconds(words, path=None):
    """The processor time of a program whose standard input is this file, and whose answer is not looked at."""
    before = resource.getrusage(resource.RUSAGE_CHILDREN)
    with open(path or "/dev/null", "rb") as source:
        subprocess.run([str(word) for word in words], stdin=source, stdout=subprocess.DEVNULL, stderr=subprocess.DEVNULL)
    after = resource.getrusage(resource.RUSAGE_CHILDREN)
    return after.ru_utime - before.ru_utime + after.ru_stime - before.ru_stime


PEAK = """
import resource, subprocess, sys
subprocess.run(sys.argv[1:], stdout=subprocess.DEVNULL, stderr=subprocess.DEVNULL)
print(resource.getrusage(resource.RUSAGE_CHILDREN).ru_maxrss * 1024)
"""


def peak_bytes(words, path):
    """The most memory that a program holds whose standard input is this file, started from a small process: one that is
    started here would count the memory of this one as its own."""
    with open(path, "rb") as source:
        done = subprocess.run(
            [sys.executable, "-c", PEAK, *map(str, words)], stdin=source, capture_output=True, check=True, text=True
        )
    return int(done.stdout)


def copy_seconds(packets):
    """That of such a copy: the least of as many runs."""
    with compiled(copy=COPY) as (copy,):
        return min(copied(copy, packets) for _ in range(RUNS))


def built(work, name, uses):
    """The program of bench/NAME.txt, made in a scratch copy of this repository with what earlier checks kept; what they did not
    keep is proved there first (of a whole repository that is never checked: up to half an hour)."""
    root = Path(__file__).resolve().parent.parent
    below = dict(line.split(":") for line in (root / "crates.txt").read_text().split("\n") if ":" in line and not line.startswith("#"))
    wanted = [crate for crate in uses if crate in below]
    for crate in wanted:
        wanted += [other for other in below[crate].split() if other in below and other not in wanted]
    for crate in wanted:
        shutil.copytree(root / "crates" / crate, work / "crates" / crate)
    shutil.copy(root / "HANDLES", work)
    source = work / "crates" / name / "src"
    source.mkdir(parents=True)
    shutil.copy(root / "bench" / f"{name}.txt", source / "main.rt")
    lines = [f"{crate}:{below[crate]}\n" for crate in wanted] + [f"{name}: {' '.join(uses)}\n"]
    (work / "crates.txt").write_text("".join(lines))
    done = subprocess.run(["rt", "run"], cwd=source.parent, stdin=subprocess.DEVNULL, capture_output=True, text=True)
    if done.returncode != 0:
        sys.exit(done.stderr[-2000:])
    return source.parent / "out" / name


PROGRAM = """ts_id = 1
original_network_id = 1
sdt = true
tdt = true
start = "2026-03-29T00:59:50"

[network]
id = 1
name = "Net"

[[program]]
number = 1
pmt_pid = 4096
pcr_pid = 257
service_type = 2
name = "One"

[[event]]
program = 1
id = 7
start = "2026-03-29T00:59:00"
duration = 5400
language = "eng"
name = "News"
text = ""
"""
STREAM = """
[[stream]]
program = 1
pid = {pid}
id = {id}
type = 3
interval = 2160
size = 576
lead = 12960
"""


def audio_rate(streams):
    """The rate of a service of so many streams: three quarters of it are their packets."""
    return 330_000 * streams + 100_000


def transponder_service(streams):
    """The description of 64 services on one clock with so many of these streams between them, with all tables."""
    top, _, event = PROGRAM.partition("[[program]]")
    event = event[event.index("[[event]]"):]
    text = f"rate = {audio_rate(streams)}\ntransponder = true\nclock_pid = 257\n" + top
    for p in range(64):
        text += f'[[program]]\nnumber = {p + 1}\npmt_pid = {4096 + p}\nname = "Service {p + 1}"\n' + event.replace("program = 1", f"program = {p + 1}")
    return text + "".join(STREAM.replace("program = 1", f"program = {k % 64 + 1}").format(pid=300 + k, id=192 + k // 64) for k in range(streams))


def audio_service(streams):
    """The description of a service of so many streams of MPEG audio, of more than 32 of a transponder, with all tables: a unit of 576 bytes each
    24 ms, in 4 packets."""
    if streams > 32:
        return transponder_service(streams)
    parts = [STREAM.format(pid=300 + k, id=192 + k) for k in range(streams)]
    return f"rate = {audio_rate(streams)}\n" + PROGRAM + "".join(parts)


def audio_front(binary, streams):
    """The description of such a service, and its plan by `plan`."""
    text = audio_service(streams).encode()
    return text + subprocess.run([binary, "plan"], input=text, capture_output=True, check=True).stdout


def audio_records(streams, begin, end):
    """The records of these of its units, a unit of each stream after the other."""
    unit = random.Random(1).randbytes(576)
    return b"".join(
        struct.pack(">BIQQ", k, 576, 12_960 + 2160 * i, 12_960 + 2160 * i) + unit for i in range(begin, end) for k in range(streams)
    )


def audio_job(binary, streams, size):
    """A job of such a service, whose packets have about this many bytes: its description, its plan by `plan`, its units."""
    return audio_front(binary, streams) + audio_records(streams, 0, size * 8 * 90_000 // (audio_rate(streams) * 2160))


def peak_of_pipe(words, pieces):
    """The most memory that a program holds whose input is a pipe with these pieces, one after the other as they are made."""
    running = subprocess.Popen([sys.executable, "-c", PEAK, *map(str, words)], stdin=subprocess.PIPE, stdout=subprocess.PIPE)
    for piece in pieces:
        running.stdin.write(piece)
    running.stdin.close()
    return int(running.stdout.read())


def audio_pieces(front, streams, size):
    """This front, and records of such a service, about so many bytes of them."""
    yield front
    step = 1 + 1_000_000 // (597 * streams)
    for begin in range(0, size // (597 * streams), step):
        yield audio_records(streams, begin, begin + step)


VIDEO = """
[[stream]]
program = 1
pid = 299
id = 224
type = 2
interval = 3600
size = 20000
lead = 27000
rx = 10000000
main = 240000
"""

# Nine tenths of it are packets of the three streams.
TELEVISION_RATE = 5_200_000


def television_text():
    """The description of a service of one stream of video, a unit of 20,000 bytes each 40 ms, and two of audio as above."""
    streams = VIDEO + "".join(STREAM.format(pid=300 + k, id=192 + k) for k in range(2))
    return f"rate = {TELEVISION_RATE}\n" + PROGRAM + streams


def television_job(binary, size):
    """A job of such a service, whose packets have about this many bytes: its description, its plan by `plan`, its units by DTS."""
    text = television_text().encode()
    plan = subprocess.run([binary, "plan"], input=text, capture_output=True, check=True).stdout
    end = 27_000 + size * 8 * 90_000 // TELEVISION_RATE
    units = [(dts, 0, 20_000) for dts in range(27_000, end, 3600)]
    units += [(dts, k, 576) for dts in range(27_000, end, 2160) for k in (1, 2)]
    random_bytes = random.Random(1).randbytes(20_000)
    return text + plan + b"".join(struct.pack(">BIQQ", k, n, dts, dts) + random_bytes[:n] for dts, k, n in sorted(units))


# The bytes of packets of a job of about 46 MB and 150 MB: with one stream of audio, or television.
SIZES = (100_000_000, 326_000_000)
TELEVISION_SIZES = (53_000_000, 174_000_000)


def time_stamp(prefix, moment):
    """A PTS in the header of a PES packet (ISO/IEC 13818-1, 2.4.3.7)."""
    return ((prefix << 36 | (moment >> 30 & 7) << 33 | 1 << 32 | (moment >> 15 & 0x7FFF) << 17 | 1 << 16 | (moment & 0x7FFF) << 1 | 1)).to_bytes(5, "big")


def counted(packet, counter):
    """A packet with another continuity_counter."""
    return packet[:3] + bytes([packet[3] & 0xF0 | counter % 16]) + packet[4:]


def unit_packets(pid, stream_id, size):
    """The packets of a PES packet of this many bytes, with counters from 0 and a PTS of 0: it stands at byte 13 of the first."""
    length = 0 if size > 60_000 else size + 8
    data = b"\0\0\1" + bytes([stream_id]) + length.to_bytes(2, "big") + b"\x80\x80\x05" + time_stamp(2, 0) + random.Random(pid).randbytes(size)
    packets = []
    while data:
        body, data = data[:184], data[184:]
        fill = 184 - len(body)
        field = b"" if fill == 0 else bytes([fill - 1]) + (b"\0" + b"\xFF" * (fill - 2))[: fill - 1]
        start = 0 if packets else 0x40
        packets.append(bytes([0x47, start | pid >> 8, pid & 255, 0x30 if fill else 0x10]) + field + body)
    return packets


def pcr_packet(pid, moment):
    """A packet with a clock reference alone."""
    return bytes([0x47, pid >> 8, pid & 255, 0x20, 183, 0x10]) + (moment << 15 | 0x7E00).to_bytes(6, "big") + b"\xFF" * 176


def television_pieces(binary, size):
    """About so many bytes of packets of the television service, in no multiplex: each 40 ms its tables, a clock reference and a unit of
    video, and units of both sounds where they are due; stamps and counters rise through all of them."""
    muxed = subprocess.run([binary, "mux"], input=television_job(binary, 200_000), capture_output=True, check=True).stdout
    packets = [muxed[at : at + 188] for at in range(0, len(muxed), 188)]
    tables = [next(packet for packet in packets if packet[1] & 0x1F == pid >> 8 and packet[2] == pid & 255) for pid in (0, 4096)]
    streams = [unit_packets(299, 224, 20_000), unit_packets(300, 192, 576), unit_packets(301, 193, 576)]
    made = [[b"".join(counted(packet, first + k) for k, packet in enumerate(unit)) for first in range(16)] for unit in streams]
    tables = [[counted(table, counter) for counter in range(16)] for table in tables]
    stands = [unit[0].index(b"\0\0\1") + 9 for unit in streams]
    counters, due, moment, left = [0, 0, 0], [0, 0, 0], 90_000, size
    while left > 0:
        piece = [b"".join(table[(moment // 3600) % 16] for table in tables), pcr_packet(257, (moment - 45_000) % 2**33)]
        for k, apart in enumerate((3600, 2160, 2160)):
            while due[k] < moment + 3600 - 90_000:
                unit, stamp = made[k][counters[k] % 16], time_stamp(2, (90_000 + due[k]) % 2**33)
                piece.append(unit[: stands[k]] + stamp + unit[stands[k] + 5 :])
                counters[k], due[k] = counters[k] + len(streams[k]), due[k] + apart
        moment += 3600
        left -= sum(map(len, piece))
        yield b"".join(piece)
