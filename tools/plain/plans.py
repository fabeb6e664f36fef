"""A plain reading of the conditions on plans by docs/REFUSALS.md, written here apart from the proved ones, for jobs whose description and plans
are as they must be (jobs.py)."""

from plain import jobs as reading

BYTE, SLOT, SLOT_MS, SLOT_S = 720_000, 135_360_000, 1_504_000, 1_504  # units of 90 kHz, ms and s, times the rate


class Plan:
    """The text of a plan that jobs.py accepts: its slots as words, and what it claims."""

    def __init__(self, text):
        lines = text.decode().splitlines()
        period = int(lines[1].split()[1])
        rows = 2 + -(-period // 24)
        self.slots = " ".join(lines[2:rows]).split() if period else []
        words = [line.split() for line in lines[rows:-1]]
        # no claim on a multiplexing buffer is one of no work
        self.streams = [(tuple(map(int, w[3::2])) + (0, 0))[:5] for w in words if w[0] == "stream"]
        self.programs = [tuple(map(int, w[3::2])) for w in words if w[0] == "program"]

    def own(self, *names):
        return [slot in names for slot in self.slots]


def plans_in(data, count):
    """The plans of a job that jobs.py accepts."""
    place = 0 if data.startswith(b"tsplan 1\n") else data.find(b"\ntsplan 1\n") + 1
    plans = []
    for _ in range(count):
        size, _ = reading.planned(data[place:])
        plans.append(Plan(data[place: place + size]))
        place += size
    return plans


class Stream:
    """What a stream declares, with the defaults."""

    def __init__(self, table):
        self.interval, self.lead, self.size = table["interval"], table["lead"], table["size"]
        self.rx, self.main = table.get("rx", 2_000_000), table.get("main", 3_584)
        self.rbx, self.mb = table.get("rbx"), table.get("mb")
        self.packets = reading.packets_of(self.size)
        self.group = table.get("group", 1)
        self.most = table.get("group_packets", self.group * self.packets)
        self.burst, self.pace = table.get("burst_packets"), table.get("pace")
        self.frames, self.frame = table.get("frames", 1), table.get("frame", 0)
        self.rest = table.get("frame_rest", max(0, self.interval - (self.frames - 1) * self.frame))
        self.left = table.get("frame_left") or [j * table.get("frame_size", 0) for j in range(1, self.frames)]

    def rows(self):
        """The numbers of units in a row that the lead pays for."""
        return range(1, 1 + (1 if self.pace else self.group))

    def at_once(self, units):
        """The most packets of so many units in a row; by time, of any that are due at once."""
        return self.burst if self.pace else min(units * self.packets, self.most)

    def steady(self):
        """Packets in the long run, times 135,360,000, and the time in which they come."""
        return (self.pace, 1) if self.pace else (self.most * SLOT, self.group * self.interval)


def section_packets(length):
    return -(-(1 + length) // 184)


def scheduled(d):
    """The programs that the EIT has: all, or those with an event."""
    return [p for p in d["program"] if d.get("eit") or any(e["program"] == p["number"] for e in reading.parts(d, "event"))]


def event_packets(d):
    """Of each place of a program in the EIT the packets of its longest section there: the places after the last program are for programs that come later."""
    sizes = {}
    for e in reading.parts(d, "event"):
        sizes.setdefault(e["program"], []).append(reading.event_length(e))
    room = d.get("eit_packets", 2) if d.get("eit") else 1
    longest = [max(sizes.get(p["number"], [0])) for p in scheduled(d)]
    longest += [0] * (d.get("eit_programs", 1) - len(longest)) if d.get("eit") else []
    return [section_packets(reading.with_room(4096, room, 18 + length)) for length in longest]


def spaced_tables(d):
    """Of a transponder's NIT, SDT, EIT and TDT, which are on PIDs 0x10 to 0x14, the number, and how many places the next section of the same
    sub-table begins after the last place of a section (EN 300 468, 5.1.4.1): in the EIT the sections of all other programs come between."""
    if not reading.is_transponder(d):
        return
    events = event_packets(d)
    there = ["network" in d, d.get("sdt"), bool(events), d.get("tdt")]
    places = [1, 1, sum(events) - max(events, default=0) + 1, 1]
    yield from enumerate([apart for is_there, apart in zip(there, places) if is_there], 1 + len(d["program"]))


def tables_of(d):
    """Of each table its limit in ms and the packets of a round of its sections."""
    programs, lengths = d["program"], list(reading.section_lengths(d))
    whole = lambda number: sum(section_packets(3 + length) for table, length in lengths if table == number)
    tables = [(500, section_packets(reading.with_room(1024, d.get("pat_packets", 1), 12 + 4 * (len(programs) + ("network" in d)))))]
    tables += [(500, whole(1 + p)) for p in range(len(programs))]
    number = 1 + len(programs)
    if "network" in d:
        tables.append((10_000, whole(number)))
        number += 1
    if d.get("sdt"):
        tables.append((2_000, whole(number)))
    if scheduled(d):
        tables.append((2_000, 2 * sum(event_packets(d))))
    if d.get("tdt"):
        tables.append((30_000, section_packets(8)))
    return tables + [(t["limit"], sum(section_packets(len(s) // 2) for s in t["sections"])) for t in reading.parts(d, "table")]


def clock_of(d, program):
    """The number of the program whose slots carry the clock references of a program: its own, or those of the first program that shares a clock."""
    shares = ["pcr_pid" not in p for p in d["program"]]
    return shares.index(True) if shares[program] else program


# ---- measures of own slots


def position(own, i):
    places = [s for s, mark in enumerate(own) if mark]
    return places[i % len(places)] + i // len(places) * len(own)


def gap(own, k):
    places = [s for s, mark in enumerate(own) if mark]
    at = lambda i: places[i % len(places)] + i // len(places) * len(own)
    return max(at(i + k) - at(i) for i in range(len(places)))


def least_gap(own, k):
    return min(position(own, i + k) - position(own, i) for i in range(sum(own)))


def back(own, x):
    return x * len(own) - position(own, x * sum(own) - x)


def spread(own):
    places = [s for s, mark in enumerate(own) if mark]
    strays = [len(places) * s - i * len(own) for i, s in enumerate(places)]
    return max(strays) - min(strays)


def works(rate, drain, start, own):
    """The greatest work with a slot's packet on top, the greatest after a slot, and what a period leaves."""
    before, after, work = 0, 0, start
    for mark in own:
        if mark:
            before = max(before, work + 188 * rate)
        work = max(0, work - 188 * drain) + 188 * rate * mark
        if mark:
            after = max(after, work)
    return before, after, work


def empties(rate, drain, start, own):
    """The slots of a period in which the buffer becomes empty: these are not its own, and drain all that is left."""
    found, work = [], start
    for s, mark in enumerate(own):
        if not mark and max(0, work - 188 * drain) < 188 * drain:
            found.append(s)
        work = max(0, work - 188 * drain) + 188 * rate * mark
    return found


# ---- the conditions: code, part, item, left, right


def shape(d, plan):
    counts = {"S": len(reading.parts(d, "stream")), "P": len(d["program"]), "T": len(tables_of(d))}
    clockless = [f"P{i}" for i in range(counts["P"]) if clock_of(d, i) != i]  # programs on the clock of an earlier one
    yield 1, 1, 0, 1, len(plan.slots)
    yield 1, 2, 0, len(plan.slots), 65_536
    for s, slot in enumerate(plan.slots):
        if slot in clockless:
            yield 1, 3, s, int(slot[1:]) + 1, 0
        elif slot != "-":
            yield 1, 3, s, int(slot[1:]) + 1, counts[slot[0]]
    names = [f"{kind}{i}" for kind, count in counts.items() for i in range(count)]
    for i, name in enumerate(names):
        if name not in clockless:
            yield 1, 4, i, 1, sum(plan.own(name))
    for part, claims, wanted in ((5, plan.streams, counts["S"]), (6, plan.programs, counts["P"])):
        yield 1, part, 0, len(claims), wanted


def buffer(code, item, rate, drain, room, start, peak, own):
    before, after, left = works(rate, drain, start, own)
    yield code, 1, item, before, room * rate
    yield code, 2, item, after, peak
    yield code, 3, item, left, start


def emptied(code, item, rate, drain, start, own):
    """Whether it is empty at least once a second."""
    slots = empties(rate, drain, start, own)
    yield code, 4, item, 1, len(slots)
    if slots:
        yield code, 5, item, max(b - a for a, b in zip(slots, slots[1:] + [slots[0] + len(own)])) * SLOT_S, rate


def in_a_row(stream):
    """How many units in a row code 7 and 15 look at, with their part."""
    return [(m if len(stream.rows()) > 1 else 0, m) for m in stream.rows()]


def waiting(stream, rate, shares, lead):
    """The bytes that can wait at once where units come at most `lead` ahead: shares has own slots, period and spread of each plan."""
    units = -(-lead // stream.interval)
    if stream.pace:
        packets = stream.burst + stream.pace * lead // SLOT
    else:
        packets = units // stream.group * stream.most + min(units % stream.group * stream.packets, stream.most)
    window = -(-lead * rate // SLOT)
    by_slots = sum(184 * ((max(0, window - 1) * c + a) // n + 1) for c, n, a in shares)
    return min(units * (19 + stream.size), 184 * packets, by_slots)


def in_turn(stream, rate, shares):
    """The bytes that can wait at once when 0, 1, .. access units of a unit have been removed: those left of it, and later units."""
    yield 0, waiting(stream, rate, shares, stream.lead)
    for gone in range(1, stream.frames):
        left = stream.frames - gone
        ahead = min(stream.rest + (left - 1) * stream.frame, stream.lead)
        later = waiting(stream, rate, shares, stream.lead - ahead) if ahead < stream.lead else 0
        yield gone, stream.left[left - 1] + later


def own_streams(d, plan):
    return [(i, Stream(s), plan.own(f"S{i}"), plan.streams[i]) for i, s in enumerate(reading.parts(d, "stream"))]


def own_systems(d, plan):
    return [(i, plan.own("T0", f"T{1 + i}"), plan.programs[i]) for i in range(len(d["program"]))]


def timing(d, plan):
    rate = d["rate"]
    streams, systems = own_streams(d, plan), own_systems(d, plan)
    for i, program in enumerate(d["program"]):
        yield 2, 0, i, gap(plan.own(f"P{clock_of(d, i)}"), 1) * SLOT_MS, program.get("pcr_limit", 40) * rate
    for t, (limit, places) in enumerate(tables_of(d)):
        yield 3, 0, t, gap(plan.own(f"T{t}"), places) * SLOT_MS, limit * rate
    for i, _, own, claim in streams:
        yield 4, 0, i, spread(own), claim[0]
    for i, s, own, _ in streams:
        packets, time = s.steady()
        yield 5, 0, i, packets * len(own), sum(own) * time * rate
    for i, s, own, claim in streams:
        yield from buffer(6, i, rate, s.rx, 512, claim[1], claim[2], own)
        if s.rbx:
            yield from emptied(6, i, rate, s.rx, claim[1], own)
    for i, own, claim in systems:
        yield from buffer(6, len(streams) + i, rate, 1_000_000, 512, claim[0], claim[1], own)
    for i, s, own, claim in streams:
        for part, m in in_a_row(s):
            slots = claim[0] + s.at_once(m) * len(own) + sum(own)
            yield 7, part, i, slots * SLOT * s.rx + sum(own) * claim[2] * BYTE, sum(own) * (s.lead + (m - 1) * s.interval) * rate * s.rx
    for i, s, own, claim in streams:
        for part, bytes in in_turn(s, rate, [(sum(own), len(own), claim[0])]):
            yield 8, part, i, bytes, s.main
    for i, own, claim in systems:
        yield from buffer(9, i, rate, 80_000, 1_536, claim[2], claim[3], own)
    leaking = [(i, s, own, claim) for i, s, own, claim in streams if s.rbx]
    for i, s, own, claim in leaking:
        yield from buffer(10, i, rate, s.rbx, s.mb, claim[3], claim[4], own)
        yield from emptied(10, i, rate, s.rbx, claim[3], own)
    for i, s, own, claim in leaking:
        for part, m in in_a_row(s):
            slots = claim[0] + s.at_once(m) * len(own) + sum(own)
            work = sum(own) * (claim[4] + rate)
            yield 11, part, i, slots * SLOT * s.rbx + work * BYTE, sum(own) * (s.lead + (m - 1) * s.interval) * rate * s.rbx
    for t, apart in spaced_tables(d):
        yield 18, 0, t, 25 * rate + SLOT_MS, least_gap(plan.own(f"T{t}"), apart) * SLOT_MS


def changed_streams(d, first, second):
    """The streams that codes 15 to 17 ask: all, or in a description with `rbx` or `frames` those whose own slots differ in the two plans."""
    finer = any("rbx" in stream or "frames" in stream for stream in reading.parts(d, "stream"))
    return [row for row in own_streams(d, first) if not finer or row[2] != second.own(f"S{row[0]}")]


def emptied_across(item, rate, drain, first, second):
    """Whether a buffer is empty at least once a second across the switch: of each plan the start of its work and the own slots."""
    last, next = empties(rate, drain, *first)[-1], empties(rate, drain, *second)[0]
    yield 14, 1, item, (len(first[1]) - last + next) * SLOT_S, rate


def joint(d, first, second):
    rate = d["rate"]
    across = lambda one, two, k: max(position(two, k - x) + back(one, x) for x in range(1, k + 1))
    streams, systems = own_streams(d, first), own_systems(d, first)
    for i, program in enumerate(d["program"]):
        clock = f"P{clock_of(d, i)}"
        yield 12, 0, i, across(first.own(clock), second.own(clock), 1) * SLOT_MS, program.get("pcr_limit", 40) * rate
    for t, (limit, places) in enumerate(tables_of(d)):
        yield 13, 0, t, across(first.own(f"T{t}"), second.own(f"T{t}"), places) * SLOT_MS, limit * rate
    for t, apart in spaced_tables(d):
        one, two = first.own(f"T{t}"), second.own(f"T{t}")
        yield 18, 1, t, 25 * rate + SLOT_MS, min(position(two, apart - x) + back(one, x) for x in range(1, apart + 1)) * SLOT_MS
    for i, s, own, claim in streams:
        yield 14, 0, i, works(rate, s.rx, claim[1], own)[2], second.streams[i][1]
        if s.rbx:
            yield from emptied_across(i, rate, s.rx, (claim[1], own), (second.streams[i][1], second.own(f"S{i}")))
    for place, drain in ((0, 1_000_000), (2, 80_000)):
        for i, own, claim in systems:
            item = len(streams) + i + (len(systems) if place else 0)
            yield 14, 0, item, works(rate, drain, claim[place], own)[2], second.programs[i][place]
    leaking = [(i, s, own, claim) for i, s, own, claim in streams if s.rbx]
    for i, s, own, claim in leaking:
        item = len(streams) + 2 * len(systems) + i
        yield 14, 0, item, works(rate, s.rbx, claim[3], own)[2], second.streams[i][3]
        yield from emptied_across(item, rate, s.rbx, (claim[3], own), (second.streams[i][3], second.own(f"S{i}")))

    def leads(code, i, s, one, drain, peak):
        two, claims = second.own(f"S{i}"), (first.streams[i], second.streams[i])
        c, e = sum(one), sum(two)
        late = max(0, back(one, 1) - back(two, 1))
        for part, m in in_a_row(s):
            slots = claims[0][0] * e + claims[1][0] * c + s.at_once(m) * max(len(one) * e, len(two) * c) + c * e * (late + 1)
            yield code, part, i, slots * SLOT * drain + c * e * max(map(peak, claims)) * BYTE, c * e * (s.lead + (m - 1) * s.interval) * rate * drain

    changed = changed_streams(d, first, second)
    for i, s, one, _ in changed:
        yield from leads(15, i, s, one, s.rx, lambda claim: claim[2])
    for i, s, one, claim in changed:
        two = second.own(f"S{i}")
        for part, bytes in in_turn(s, rate, [(sum(one), len(one), claim[0]), (sum(two), len(two), second.streams[i][0])]):
            yield 16, part, i, bytes, s.main
    for i, s, one, _ in changed:
        if s.rbx:
            yield from leads(17, i, s, one, s.rbx, lambda claim: claim[4] + rate)


def first_failing(entries):
    for code, part, item, left, right in entries:
        if left > right or code == 1 and part in (5, 6) and left != right:
            return f"refused {code} {part} {item} {left} {right}"
    return None


def refusal(d, plans):
    """The line of the first condition that the plans do not keep, None where they keep all."""
    for number, plan in enumerate(plans):
        fault = first_failing(shape(d, plan)) or first_failing(timing(d, plan))
        fault = fault or number and first_failing(joint(d, plans[0], plan)) or None
        if fault:
            return "second " * number + fault
    return None


def checked(job, data, two):
    """What `check` answers, its status, output and fault line: of two plans the first may be refused before the second is read."""
    if job.fault and not job.fault.startswith("second"):
        return 1, b"", job.fault.encode() + b"\n"
    fault = refusal(job.description, plans_in(data, 1))
    if not fault and job.fault:
        return 1, b"", job.fault.encode() + b"\n"
    fault = fault or two and refusal(job.description, plans_in(data, 2))
    return (1, fault.encode() + b"\n", b"") if fault else (0, b"accepted\n", b"")
