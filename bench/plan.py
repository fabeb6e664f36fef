#!/usr/bin/env python3
"""plan.py BINARY [SERVICES]: how full a multiplex `plan` fills, and in what time. Of services that an operator would write
(radio, SD, HD and mixed bouquets, with groups of units and all tables; 120 where not given), at loads of 50, 80, 90, 95 and 98 %,
with main buffers just large enough and with ample ones: how many the plain plan alone serves, how many `plan` finds, in which
periods, and how long it takes, start of the process included; in how many of these plans two packets of service information are
closer than 25 ms (EN 300 468, 5.1.4). Each plan, plain or found, is judged by `check`. Then 32 streams at
loads for which only a long period has room, and with PCRs that fit together badly. The load is the sum over all items of the least
share of slots that the conditions on rates, PCRs and tables ask for; no plan at all exists above 100 %."""

import random
import subprocess
import sys
import time
from fractions import Fraction

SLOT = 135_360_000
LIMITS = {"PAT": 500, "PMT": 500, "NIT": 10_000, "SDT": 2_000, "EIT": 2_000, "TDT": 30_000}


def packets_of(size):
    return -(-(size + 19) // 184)


# ---- services


def audio(chance):
    """MPEG audio, AC-3 (greatest units alike) or AAC (units that vary, in groups); as many frames to a unit as let two units wait."""
    coding = chance.choice(("mp2", "mp2", "ac3", "aac", "aac", "he-aac"))
    frames = chance.choice((1, 2, 4))
    frame, bits, main = {"mp2": (2160, (128_000, 192_000, 256_000), 3584), "ac3": (2880, (192_000, 384_000), 5696),
                         "aac": (1920, (96_000, 128_000), 3584), "he-aac": (3840, (32_000, 48_000, 64_000), 3584)}[coding]
    rate = chance.choice(bits)
    while True:
        interval = frame * frames
        size = rate * interval // 90_000 // 8
        stream = dict(id=189 if coding == "ac3" else 192, type={"mp2": 3, "ac3": 6}.get(coding, 15), interval=interval, group=1)
        if coding in ("aac", "he-aac"):
            whole = -(-(8 * (size + 19)) // 184) + 8
            size = size * 3 // 2
            stream.update(group=8, packets=min(8 * packets_of(size), max(packets_of(size), whole)))
        stream.update(size=size, lead=min(4, main // (size + 19)) * interval, rx=2_000_000, main=main)
        stream.setdefault("packets", packets_of(size))
        if stream["lead"] >= 2 * interval or frames == 1:
            return stream
        frames //= 2


def video(high, chance):
    """25 pictures a second: a greatest picture of 3 to 6 times the mean, one in a group. The lead: half a second to a second, and no
    less than lets the greatest pictures of a group go out at the stream's own pace. The main buffer: as the level has it or, where
    that is more, 5 % over what the stream's own pace needs (tight); all that can wait within the lead (ample)."""
    mean = chance.randint(6_000_000, 10_000_000) if high else chance.randint(2_000_000, 4_500_000)
    average, interval = mean // 8 // 25, 3600
    size, group = int(average * chance.uniform(3, 6)), chance.choice((12, 24, 32))
    packets = min(packets_of(size) + (group - 1) * packets_of(int(average * 1.05)), group * packets_of(size))
    least = max(min(m * packets_of(size), packets) * group * interval // packets - (m - 1) * interval for m in range(1, group + 1))
    lead = chance.randint(min(90_000, max(45_000, least + interval)), 90_000)
    waiting = -(-lead // interval)
    ample = 184 * (waiting // group * packets + min(waiting % group * packets_of(size), packets))
    level = 3_750_000 if high else 229_376
    tight = max(level, 184 * 105 * (1 + lead * packets // (group * interval)) // 100)
    return dict(id=224, type=27 if high else 2, interval=interval, size=size, group=group, packets=packets, lead=lead,
                rx=30_000_000 if high else 18_000_000, main=ample, tight=min(ample, tight))


def teletext():
    return dict(id=189, type=6, interval=3600, size=1472 - 45, group=1, packets=8, lead=7200, rx=6_750_000, main=2 * 1472)


def service(kind, chance):
    """A bouquet of at most half the highest rate."""
    programs = chance.randint(10, 16) if kind == "radio" else chance.randint(4, 8)
    streams, tables_of = [], dict(events=chance.random() < 0.8, private=chance.choice((0, 0, 1, 2)))
    for program in range(1, programs + 1):
        own = []
        if kind != "radio":
            own.append(video(kind == "hd" or kind == "mixed" and chance.random() < 0.4, chance))
        own += [audio(chance) for _ in range(chance.choice((1, 2)))]
        if kind != "radio" and chance.random() < 0.3:
            own.append(teletext())
        more = streams + [dict(s, program=program) for s in own]
        made = dict(tables_of, streams=more, programs=program)
        if program > 1 and (len(more) > 32 or load(made, 100_000_000) > Fraction(1, 2)):
            return dict(tables_of, streams=streams, programs=program - 1)
        streams = more
    return made


def section(table_id, body):
    """A private section of the long form, with its check word."""
    data = bytes((table_id, 0xF0 | (len(body) + 9) >> 8, (len(body) + 9) & 255, 0, 1, 0xC1, 0, 0)) + body
    register = 0xFFFFFFFF
    for bit in "".join(f"{byte:08b}" for byte in data):
        register = (register << 1 & 0xFFFFFFFF) ^ (0x04C11DB7 if (register >> 31) != int(bit) else 0)
    return (data + register.to_bytes(4, "big")).hex()


PRIVATE = [(dict(pid=7000, limit=2000), [section(0x74, bytes(200))]),
           (dict(pid=7001, limit=5000), [section(0x80, bytes(900)), section(0x81, bytes(60))])]


def text(made, rate, ample):
    lines = [f'rate = {rate}', 'start = "2026-03-29T00:59:50"', 'ts_id = 1', 'original_network_id = 1', 'sdt = true', 'tdt = true',
             *made.get("top", []), '[network]', 'id = 1', 'name = "Net"']
    for p, limit in enumerate(pcr_limits(made)):
        lines += ['[[program]]', f'number = {p + 1}', f'pmt_pid = {200 + p}', f'name = "Service {p + 1}"', f'pcr_limit = {limit}']
        lines += [] if p in made.get("shared", ()) else [f'pcr_pid = {300 + p}']
    for k, s in enumerate(made["streams"]):
        main = s["main"] if ample else s.get("tight", s["main"])
        lines += ['[[stream]]', f'program = {s["program"]}', f'pid = {1000 + k}', f'id = {s["id"]}', f'type = {s["type"]}',
                  f'interval = {s["interval"]}', f'size = {s["size"]}', f'lead = {s["lead"]}', f'rx = {s["rx"]}', f'main = {main}',
                  f'group = {s["group"]}', f'group_packets = {s["packets"]}']
    if made["events"]:
        for p in range(made["programs"]):
            lines += ['[[event]]', f'program = {p + 1}', 'id = 1', 'start = "2026-03-29T00:59:00"', 'duration = 3600',
                      'language = "eng"', 'name = "News of the hour"', 'text = "What happened"']
    for table, sections in PRIVATE[:made["private"]]:
        lines += ['[[table]]', f'pid = {table["pid"]}', f'limit = {table["limit"]}', f"sections = {sections}".replace("'", '"')]
    return "\n".join(lines) + "\n"


# ---- loads


def pcr_limits(made):
    """In ms, of each program."""
    return made.get("pcr_limits", [40] * made["programs"])


def clock_limits(made):
    """In ms, of each clock: of a shared one the least of its programs."""
    shared = made.get("shared", ())
    limits = pcr_limits(made)
    return [limit for p, limit in enumerate(limits) if p not in shared] + ([min(limits[p] for p in shared)] if shared else [])


def sdt_lengths(programs):
    """Of the SDT's sections, each with as many services as 1,009 bytes hold."""
    lengths = [15]
    for p in range(programs):
        size = 10 + len(f"Service {p + 1}")
        if lengths[-1] + size > 15 + 1009:
            lengths.append(15)
        lengths[-1] += size
    return lengths


def tables(made):
    """Limit in ms and places in a round of each table, by the greatest lengths of the sections."""
    programs = made["programs"]
    found = [(LIMITS["PAT"], [12 + 4 * (programs + 1)])]
    for p in range(programs):
        found.append((LIMITS["PMT"], [16 + 5 * sum(s["program"] == p + 1 for s in made["streams"])]))
    found += [(LIMITS["NIT"], [27]), (LIMITS["SDT"], sdt_lengths(programs))]
    if made["events"]:
        one = 18 + 12 + 5 + 1 + len("News of the hour") + 1 + len("What happened")
        found.append((LIMITS["EIT"], [one, one] * programs))
    found.append((LIMITS["TDT"], [8]))
    found += [(table["limit"], [len(s) // 2 for s in sections]) for table, sections in PRIVATE[:made["private"]]]
    return [(limit, sum(-(-(1 + length) // 184) for length in lengths)) for limit, lengths in found]


def load(made, rate):
    """The least share of slots, or None where a limit is shorter than its slots."""
    total = sum(Fraction(s["packets"] * SLOT, s["group"] * s["interval"] * rate) for s in made["streams"])
    for limit, k in [(limit, 1) for limit in clock_limits(made)] + tables(made):
        gap = limit * rate // 1_504_000
        if gap < k:
            return None
        total += Fraction(k, gap)
    return total


def rate_of(made, wanted):
    """The least rate of that load."""
    low, high = 100_000, 100_000_000
    while low < high:
        middle = (low + high) // 2
        share = load(made, middle)
        if share is not None and share <= wanted:
            high = middle
        else:
            low = middle + 1
    return low


# ---- the plain plan


def power(room):
    return 0 if room < 1 else min(65_536, 1 << (room.bit_length() - 1))


def plain(made, rate):
    """The plain plan's slots, by its rule, or None."""
    items = [(f"S{k}", power(s["group"] * s["interval"] * rate // (s["packets"] * SLOT))) for k, s in enumerate(made["streams"])]
    items += [(f"P{p}", power(limit * rate // 1_504_000)) for p, limit in enumerate(pcr_limits(made))]
    items += [(f"T{t}", power(limit * rate // (1_504_000 * k))) for t, (limit, k) in enumerate(tables(made))]
    if any(g == 0 for _, g in items):
        return None
    period = max(g for _, g in items)
    slots = ["-"] * period
    for name, g in sorted(items, key=lambda item: item[1]):
        for x in range(g):
            if slots[x::g].count("-") == period // g:
                slots[x::g] = [name] * (period // g)
                break
        else:
            return None
    return slots


def work(rate, drain, own, period, start):
    """The work after a period that begins with `start`, and the greatest after an own slot."""
    most, now, at = 0, start, -1
    for slot in own:
        now = max(0, now - 188 * drain * (slot - at)) + 188 * rate
        most, at = max(most, now), slot
    return max(0, now - 188 * drain * (period - 1 - at)), most


def claim(rate, drain, own, period):
    start = work(rate, drain, own, period, 0)[0]
    return start, work(rate, drain, own, period, start)[1]


def plan_text(made, rate, slots):
    own = {}
    for at, slot in enumerate(slots):
        own.setdefault(slot, []).append(at)
    lines = []
    for k, s in enumerate(made["streams"]):
        lines.append("stream {} spread 0 start {} peak {}".format(k, *claim(rate, s["rx"], own[f"S{k}"], len(slots))))
    for p in range(made["programs"]):
        system = sorted(own["T0"] + own[f"T{p + 1}"])
        numbers = claim(rate, 1_000_000, system, len(slots)) + claim(rate, 80_000, system, len(slots))
        lines.append("program {} tstart {} tpeak {} bstart {} bpeak {}".format(p, *numbers))
    rows = [" ".join(slots[i:i + 24]) for i in range(0, len(slots), 24)]
    return "\n".join(["tsplan 1", f"period {len(slots)}", *rows, *lines, "end"]) + "\n"


# ---- the program


def run(word, given):
    before = time.perf_counter()
    done = subprocess.run([binary, word], input=given.encode(), capture_output=True)
    return done.returncode, done.stdout.decode(), 1000 * (time.perf_counter() - before)


def accepted(description, plan):
    status, said, _ = run("check", description + plan)
    assert (status, said) == (0, "accepted\n") or status == 1 and said.startswith("refused"), (status, said)
    return status == 0


def is_close(made, rate, plan):
    """Whether two packets of NIT, SDT, EIT or TDT have less than 25 ms between them."""
    lines = plan.split("\n")
    period = int(lines[1].split()[1])
    slots = " ".join(lines[2:]).split()[:period]
    for table in range(made["programs"] + 1, made["programs"] + (5 if made["events"] else 4)):
        own = [at for at, slot in enumerate(slots) if slot == f"T{table}"]
        if any((after - at - 1) * 1_504_000 < 25 * rate for at, after in zip(own, own[1:] + [own[0] + period])):
            return True
    return False


def cell(services, percent, ample):
    """Of these services at that load: how many each way serves, and the periods and times of those found."""
    alone, close, missed, took, periods = 0, 0, [], [], []
    for number, made in enumerate(services):
        rate = rate_of(made, Fraction(percent, 100))
        description = text(made, rate, ample)
        status, plan, milliseconds = run("plan", description)
        took.append(milliseconds)
        if status == 0:
            assert accepted(description, plan)
            periods.append(int(plan.split("\n")[1].split()[1]))
            close += is_close(made, rate, plan)
        else:
            missed.append(number)
        slots = plain(made, rate)
        alone += slots is not None and accepted(description, plan_text(made, rate, slots))
    took.sort()
    print(f"{percent} %, {'ample' if ample else 'tight'} buffers: of {len(services)} services the plain plan serves {alone}, plan finds"
          f" {len(periods)}, {close} of them close; periods {min(periods, default=0)} to {max(periods, default=0)};"
          f" {took[len(took) // 2]:.0f} ms in the median, {took[-1]:.0f} at most" + (f"; missed {missed}" if missed else ""), flush=True)


def full(chance):
    """32 streams and 16 programs, with all tables; where there is chance in it, PCRs within 20 to 100 ms."""
    sound = dict(id=192, type=3, interval=2160, size=768, group=1, packets=5, lead=6480, rx=2_000_000, main=3584)
    streams = [dict(audio(chance) if chance else sound, program=k // 2 + 1) for k in range(32)]
    limits = dict(pcr_limits=[chance.randint(20, 100) for _ in range(16)]) if chance else {}
    return dict(streams=streams, programs=16, events=True, private=2, **limits)


def longest(percent):
    """The same sound 32 times, at that load."""
    made = full(None)
    status, plan, milliseconds = run("plan", text(made, rate_of(made, Fraction(percent) / 100), True))
    print(f"32 streams, {len(tables(made))} tables at {percent} %: {plan.split(chr(10))[1] if status == 0 else 'no plan'},"
          f" {milliseconds:.0f} ms", flush=True)


def hardest(percent, count):
    """Different sounds, and PCRs within different times, at that load."""
    took, found = [], 0
    for number in range(count):
        made = full(random.Random(number))
        description = text(made, rate_of(made, Fraction(percent) / 100), True)
        status, plan, milliseconds = run("plan", description)
        found += status == 0 and accepted(description, plan)
        took.append(milliseconds)
    took.sort()
    print(f"{count} services of 32 different streams, PCR limits of 20 to 100 ms, at {percent} %: plan finds {found};"
          f" {took[count // 2]:.0f} ms in the median, {took[-1]:.0f} at most", flush=True)


if __name__ == "__main__":
    binary = sys.argv[1]
    count = int(sys.argv[2]) if len(sys.argv) > 2 else 120
    made_services = [service(("radio", "sd", "hd", "mixed")[i % 4], random.Random(i)) for i in range(count)]
    for load_percent in (50, 80, 90, 95, 98):
        for is_ample in (False, True):
            cell(made_services, load_percent, is_ample)
    for load_percent in ("99", "99.9", "100.5"):
        longest(load_percent)
    for load_percent in ("95", "98", "99"):
        hardest(load_percent, count)
