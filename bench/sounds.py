#!/usr/bin/env python3
"""sounds.py [-s SECONDS] [-k WORD] TSVIEW TSREMUX [TSREMUX]: sound of several encoders, multiplexed, and what a receiver's main buffer does.

ffmpeg makes each sound: MPEG-1 and MPEG-2 audio layers II and III, AAC in ADTS and in LATM, AC-3 and Enhanced AC-3, of several bit rates, at
32, 44.1 and 48 kHz, in PES packets of ffmpeg's size and of 170 to 5,600 bytes, alone and beside a picture. For each sound and each TSREMUX a
row says the rate of the multiplex, whether each frame is kept by its own time (`yes`, `whole` if only whole PES packets are, `-` if nothing is
written), and how many lines of an excess and of a late unit `tsview` has. With two programs the last column is how much less the second one's
rate is. -k: only the sounds whose names have this word."""

import argparse
import re
import subprocess
import tempfile
from pathlib import Path

# A sound that is neither silence nor always the same: noise whose strength rises and falls.
NOISE = "anoisesrc=color=pink:amplitude=0.6:seed=7:sample_rate={rate},tremolo=f=1.3:d=0.9"
PICTURE = "testsrc2=size=320x180:rate=25"
LINE = re.compile(rb": (\d+) bit/s, .* packets: every accepted unit by its DTS, no buffer over its size(.*)")


def sounds():
    """Names, and the words of ffmpeg for the sound and its packets."""
    rows = [("mp2", "mp2", rate, kbit, 2) for rate, all_kbit in ((48, (64, 96, 128, 192, 256, 320, 384)), (44.1, (128, 192, 256)), (32, (128, 192)))
            for kbit in all_kbit]
    rows += [("mp3", "libmp3lame", rate, kbit, 2) for rate, all_kbit in ((48, (64, 128, 192, 320)), (44.1, (128, 256)), (32, (128,))) for kbit in all_kbit]
    rows += [("aac", "aac", rate, kbit, 2) for rate, all_kbit in ((48, (48, 64, 96, 128, 192, 256)), (44.1, (64, 128, 192)), (32, (64, 128))) for kbit in all_kbit]
    rows += [("aac-mono", "aac", 48, 64, 1), ("aac-5.1", "aac", 48, 320, 6)]
    rows += [("latm", "aac", rate, kbit, 2) for rate, all_kbit in ((48, (64, 128, 192)), (44.1, (128,)), (32, (96,))) for kbit in all_kbit]
    rows += [("ac3", "ac3", rate, kbit, 2) for rate, all_kbit in ((48, (192, 384)), (44.1, (192,)), (32, (192,))) for kbit in all_kbit]
    rows += [("ac3-5.1", "ac3", 48, 448, 6), ("eac3", "eac3", 48, 96, 2), ("eac3", "eac3", 48, 256, 2), ("eac3", "eac3", 44.1, 192, 2)]
    for kind, coder, rate, kbit, channels in rows:
        words = ["-c:a", coder, "-ar", str(int(rate * 1000)), "-b:a", f"{kbit}k", "-ac", str(channels)]
        yield f"{kind} {kbit}k {rate} kHz", words + (["-mpegts_flags", "latm"] if kind == "latm" else []), False
    yield "mp3 VBR 48 kHz", ["-c:a", "libmp3lame", "-ar", "48000", "-q:a", "2"], False
    yield "aac VBR 48 kHz", ["-c:a", "aac", "-ar", "48000", "-q:a", "2"], False
    for size in (170, 700, 1400, 3500, 5600):
        for kind, coder, kbit in (("mp2", "mp2", 192), ("aac", "aac", 128), ("latm", "aac", 128)):
            words = ["-c:a", coder, "-ar", "48000", "-b:a", f"{kbit}k", "-ac", "2", "-pes_payload_size", str(size)]
            yield f"{kind} {kbit}k 48 kHz, packets of {size}", words + (["-mpegts_flags", "latm"] if kind == "latm" else []), False
    for kind, coder, rate, kbit in (("mp2", "mp2", 48000, 192), ("mp3", "libmp3lame", 44100, 128), ("aac", "aac", 48000, 128), ("aac", "aac", 48000, 256),
                                    ("latm", "aac", 48000, 128), ("ac3", "ac3", 48000, 192), ("eac3", "eac3", 48000, 256)):
        words = ["-c:a", coder, "-ar", str(rate), "-b:a", f"{kbit}k", "-ac", "2"] + (["-mpegts_flags", "latm"] if kind == "latm" else [])
        yield f"{kind} {kbit}k {rate / 1000:g} kHz and a picture", words, True


def made(path, words, picture, seconds):
    rate = words[words.index("-ar") + 1]
    inputs = ["-f", "lavfi", "-i", NOISE.format(rate=rate)] + (["-f", "lavfi", "-i", PICTURE] if picture else [])
    video = ["-c:v", "mpeg2video", "-b:v", "1M", "-maxrate", "1M", "-bufsize", "1M", "-g", "12", "-bf", "2"] if picture else []
    subprocess.run(["ffmpeg", "-v", "error", "-y", *inputs, "-t", str(seconds), *video, *words, "-fflags", "+bitexact", "-f", "mpegts", path], check=True)


def answer(tsremux, tsview, path, folder):
    """The rate of the multiplex, whether frames are kept, and the lines of excesses and late units."""
    out = folder / "out.ts"
    out.unlink(missing_ok=True)
    done = subprocess.run([tsremux, path, "-o", out], stdout=subprocess.PIPE, stderr=subprocess.PIPE, timeout=600)
    line = LINE.search(done.stderr)
    if not line:
        return None, "-", 0
    seen = subprocess.run([tsview, out], stdout=subprocess.PIPE, timeout=600).stdout.decode().splitlines()
    faults = sum(1 for one in seen if re.match(r"(system_|multiplexing_|elementary_|main_|system_main_)?(excess|late)\b", one))
    return int(line[1]), "whole" if b"frame by frame" in line[2] else "yes", faults


def main():
    parser = argparse.ArgumentParser(usage=__doc__)
    parser.add_argument("-s", type=float, default=8)
    parser.add_argument("-k", default="")
    parser.add_argument("tsview")
    parser.add_argument("tsremux", nargs="+")
    words = parser.parse_args()
    kept, faulty, count = [0] * len(words.tsremux), [0] * len(words.tsremux), 0
    with tempfile.TemporaryDirectory() as folder:
        folder = Path(folder)
        for name, sound, picture in sounds():
            if words.k not in name:
                continue
            made(folder / "in.ts", sound, picture, words.s)
            answers = [answer(one, words.tsview, folder / "in.ts", folder) for one in words.tsremux]
            less = f" | {100 - 100 * answers[1][0] / answers[0][0]:5.1f} %" if len(answers) == 2 and answers[0][0] and answers[1][0] else ""
            print(f"{name:36}" + "".join(f" | {rate or 0:8} {frames:5} {faults}" for rate, frames, faults in answers) + less, flush=True)
            count += 1
            for i, (rate, frames, faults) in enumerate(answers):
                kept[i] += frames == "yes"
                faulty[i] += faults > 0
    print(f"{count} sounds: kept frame by frame {', '.join(map(str, kept))}; with an excess or a late unit {', '.join(map(str, faulty))}")


main()
