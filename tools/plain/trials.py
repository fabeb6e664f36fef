"""Streams for comparisons: made of sound packets, and damaged by chance; and the comparison of many of them at once."""

import multiprocessing
from collections import Counter

PAT = bytes.fromhex("00b00d0001c100000001f0002ab104b2")


def damaged(stream, rng):
    """The stream as it is, and damaged in one way after another and in all."""
    yield "as it is", stream
    packets = [stream[i: i + 188] for i in range(0, len(stream), 188)]
    some = lambda: rng.random() < 0.02

    def flip(packet, at, mask):
        return packet[:at] + bytes([packet[at] ^ mask]) + packet[at + 1:]

    ways = {
        "lost": lambda ps: [p for p in ps if not some()],
        "doubled": lambda ps: [q for p in ps for q in ([p, p] if some() else [p])],
        "tripled": lambda ps: [q for p in ps for q in ([p, p, p] if some() else [p])],
        "swapped": lambda ps: [q for i in range(0, len(ps), 2) for q in (ps[i: i + 2][::-1] if some() else ps[i: i + 2])],
        "scrambled": lambda ps: [flip(p, 3, 0x80) if some() else p for p in ps],
        "errored": lambda ps: [flip(p, 1, 0x80) if some() else p for p in ps],
        "headers changed": lambda ps: [flip(p, rng.randrange(12), 1 << rng.randrange(8)) if some() else p for p in ps],
        "bytes changed": lambda ps: [flip(p, rng.randrange(len(p)), 1 << rng.randrange(8)) if some() else p for p in ps],
    }
    everything = packets
    for name, way in ways.items():
        yield name, b"".join(way(packets))
        everything = way(everything)
    yield "all of these", b"".join(everything)
    yield "cut", stream[: rng.randrange(len(stream))]


# ---- streams of its own


def filled(pid, start, payload, rest=0xFF):
    """A packet whose payload begins so, and has this byte after that."""
    return (bytes([0x47, start << 6 | pid >> 8, pid & 255, 0x10]) + payload).ljust(188, bytes([rest]))


def stuffed(pid, start, payload, flags=0, fields=b""):
    """A packet with this payload after an adaptation field."""
    field = (bytes([flags]) + fields).ljust(183 - len(payload), b"\xff")
    return bytes([0x47, start << 6 | pid >> 8, pid & 255, 0x30, len(field)]) + field + payload


def clocked(payload):
    """A packet of PID 259 with a PCR."""
    return stuffed(259, 1, payload, 0x10, bytes.fromhex("000000007e00"))


def numbered(packets):
    """The packets, each with the counter that follows on its PID."""
    counters, out = {}, []
    for packet in packets:
        pid = (packet[1] & 31) << 8 | packet[2]
        out.append(packet[:3] + bytes([packet[3] | counters.get(pid, 0) % 16]) + packet[4:])
        counters[pid] = counters.get(pid, 0) + 1
    return out


def sound_packets():
    """Packets of five PIDs: PES packets with a length and without, with PTS and DTS and without, a PCR; sections alone, two in a
    payload, and in two packets."""
    more = filled(257, 0, b"", 0xA5)
    return [
        filled(257, 1, bytes.fromhex("000001e00000800000"), 0xA5),
        stuffed(256, 1, bytes.fromhex("000001c0000b8080052100 05bf21414243")),
        filled(0, 1, b"\0" + PAT),
        more,
        stuffed(0, 1, b"\0" + PAT[:10]),
        filled(258, 1, bytes.fromhex("000001e00100808005 210005bf21"), 0xA5),
        clocked(bytes.fromhex("000001e0000080c00a 310005e021 110005bf21 a5a5")),
        filled(0, 0, PAT[10:]),
        filled(257, 1, bytes.fromhex("000001e00000808005 210005bf21"), 0xA5),
        filled(258, 0, b"", 0xA5),
        filled(0, 1, b"\0" + PAT + PAT),
        clocked(bytes.fromhex("000001c00000808005 210005bf21 a5")),
        more,
    ]


def changed(packet, at, change):
    return packet[:at] + bytes([change(packet[at]) & 255]) + packet[at + 1:]


def on_its_way(packet, rng):
    """A packet as it arrives: lost, doubled, tripled, doubled with another PCR, scrambled, flagged in error, broken in its header, or
    as it was."""
    chance = rng.randrange(100)
    ways = (
        (8, lambda: []),
        (18, lambda: [packet] * 2),
        (24, lambda: [packet] * 3),
        (28, lambda: [changed(packet, 3, lambda b: b | 0x80)]),
        (32, lambda: [changed(packet, 1, lambda b: b | 0x80)]),
        (36, lambda: [changed(packet, 3, lambda b: b & 0x0F)]),
        (40, lambda: [changed(packet, 4, lambda b: b ^ 0x11)]),
        (44, lambda: [changed(packet, 3, lambda b: b ^ 0x05)]),
        (46, lambda: [packet, changed(packet, 7, lambda b: b + 1)]),
        (49, lambda: [changed(packet, rng.randrange(24), lambda b: rng.randrange(256))]),
    )
    return next((way() for below, way in ways if chance < below), [packet])


def small_stream(rng, rounds=1):
    """Sound packets, so many times, with neighbours swapped and damage done, and the last one cut."""
    packets = numbered(sound_packets() * rounds)
    for i in range(1, len(packets)):
        if rng.random() < 0.15:
            packets[i - 1: i + 1] = packets[i], packets[i - 1]
    stream = b"".join(p for packet in packets for p in on_its_way(packet, rng))
    return stream[: len(stream) - rng.randrange(100)] if len(stream) > 100 else stream


# ---- the runs


def run_all(compare, streams, kinds):
    """Compares each stream; the status. Of the kinds each has to come."""
    counts, passed, failed = Counter(), 0, 0
    with multiprocessing.get_context("fork").Pool() as pool:
        for wrong, met in pool.imap(compare, streams, 8):
            counts += met
            passed, failed = passed + (wrong is None), failed + (wrong is not None)
            if wrong:
                print(wrong, flush=True)
    for kind in kinds:
        if not counts[kind]:
            print(f"no {kind}")
            failed += 1
    print(", ".join(f"{kind} {count}" for kind, count in sorted(counts.items())))
    print(f"{passed} passed, {failed} failed")
    return 1 if failed else 0
