"""A plain reading of a job by docs/PLANS.md and docs/DESCRIPTION.md, written here apart from the proved one: the description, the text of a
plan or of two, and the records of the access units after them. It knows no conditions on plans."""

import re
import tomllib
from datetime import datetime, timedelta

from plain.syntax import section_size


# ---- a plain reading of descriptions: FORMATS, "Service descriptions"


def is_number(low, high):
    return lambda value: type(value) is int and low <= value <= high


def is_truth(value):
    return type(value) is bool


def written(text):
    """A text as it is written in a descriptor."""
    return len(text) if re.fullmatch(r"[A-Za-z0-9 ]*", text) else 1 + len(text.encode())


def is_text(most):
    return lambda value: type(value) is str and written(value) <= most


def moment(value):
    if type(value) is not str or not re.fullmatch(r"[0-9]{4}-[0-9]{2}-[0-9]{2}T[0-9]{2}:[0-9]{2}:[0-9]{2}", value):
        return None
    try:
        time = datetime.strptime(value, "%Y-%m-%dT%H:%M:%S")
    except ValueError:
        return None
    return time if 1970 <= time.year <= 2037 else None


def is_time(value):
    return moment(value) is not None


def hex_bytes(value, most):
    if type(value) is not str or not re.fullmatch(r"([0-9a-fA-F]{2})*", value) or len(value) > 2 * most:
        return None
    return bytes.fromhex(value)


def are_descriptors(value, most=700):
    data = hex_bytes(value, most)
    while data:
        if len(data) < 2 or len(data) < 2 + data[1]:
            return False
        data = data[2 + data[1]:]
    return data is not None


def is_language(value):
    return type(value) is str and bool(re.fullmatch(r"[A-Za-z]{3}", value))


def is_section(value):
    data = hex_bytes(value, 4096)
    return data is not None and section_size(data) == len(data)


def are_sections(value):
    return type(value) is list and 1 <= len(value) <= 8 and all(map(is_section, value))


def are_versions(value):
    """Texts that name a table, for a PMT and for events with the program's number, and a version."""
    return type(value) is list and all(type(text) is str and named_version(text) for text in value)


def named_version(text):
    """The table's name and the version that a text names."""
    found = re.fullmatch(r"((?:PAT|NIT|SDT)|(?:PMT|EIT) 0*([1-9][0-9]{0,4})) 0*([0-9]{1,2})", text, re.ASCII)
    if not found or found[2] and int(found[2]) > 65_535 or int(found[3]) > 31:
        return None
    return (text[:3] + (f" {int(found[2])}" if found[2] else ""), int(found[3]))


PID = is_number(32, 8190)
WORD = is_number(0, 65535)
OCTET = is_number(0, 255)

# number, key, whether it must be there, its values
TOP = [(10, "rate", True, is_number(100_000, 100_000_000)), (11, "start", True, is_time), (12, "base0", False, is_number(0, 2**33 - 1)),
       (13, "ts_id", True, WORD), (14, "original_network_id", True, WORD), (15, "sdt", False, is_truth), (16, "tdt", False, is_truth),
       (17, "transponder", False, is_truth), (95, "eit", False, is_truth), (97, "pat_packets", False, is_number(1, 6)),
       (98, "sdt_packets", False, is_number(1, 6)), (99, "nit_packets", False, is_number(1, 6)), (103, "versions", False, are_versions)]
NETWORK = [(21, "id", True, WORD), (23, "descriptors", False, are_descriptors), (24, "network_descriptors", False, are_descriptors)]
OTHER = [(26, "ts_id", True, WORD), (27, "original_network_id", True, WORD), (28, "descriptors", False, are_descriptors)]
PROGRAM = [(31, "number", True, is_number(1, 65535)), (32, "pmt_pid", True, PID),
           (34, "pcr_limit", False, is_number(1, 100)), (35, "descriptors", False, are_descriptors), (36, "service_type", False, OCTET),
           (37, "provider", False, is_text(100)), (38, "name", False, is_text(100)), (89, "running_status", False, is_number(0, 7)),
           (90, "free_ca", False, is_truth), (91, "eit_schedule", False, is_truth), (94, "pmt_packets", False, is_number(1, 6)),
           (104, "on_air", False, is_truth)]
EVENT = [(62, "id", True, WORD), (63, "start", True, is_time), (64, "duration", True, is_number(1, 359_999))]
SHORT = [(65, "language", True, is_language), (66, "name", True, is_text(100)), (67, "text", True, is_text(150))]
TABLE = [(71, "pid", True, PID), (72, "limit", True, is_number(1, 30_000)), (73, "sections", True, are_sections)]
STREAM = [(42, "pid", True, PID), (43, "id", True, lambda v: is_number(189, 239)(v) and (v == 189 or v >= 192)), (44, "type", True, OCTET),
          (45, "interval", True, is_number(1, 90_000)), (47, "lead", True, is_number(1, 90_000)), (50, "tag", False, OCTET),
          (51, "language", False, is_language), (52, "descriptors", False, are_descriptors), (87, "pts_limit", False, is_number(1, 5_400_000))]
# number, key, the least number of tables, the greatest one without and with `transponder`, the keys of a table
ARRAYS = [(30, "program", 1, (16, 64), PROGRAM), (40, "stream", 0, (32, 254), STREAM), (60, "event", 0, (256, 1024), EVENT), (70, "table", 0, (16, 64), TABLE)]
FRAMES = ["frames", "frame", "frame_size", "frame_rest", "frame_left"]
MORE_KEYS = {"program": ["pcr_pid", "lcn", "service_descriptors"], "stream": ["program", "size", "rx", "main", "group", "group_packets", "burst_packets", "pace", "shared_with",
                                         "rbx", "mb", *FRAMES], "event": ["program", "language", "name", "text", "descriptors"],
             "table": ["program", "stream_type", "descriptors"]}


def key_faults(keys, table, item=0):
    """The keys of a table that are refused."""
    for number, key, needed, accepts in keys:
        if (needed if key not in table else not accepts(table[key])):
            yield number, item


def packets_of(size):
    return -(-(19 + size) // 184)


def stream_faults(stream, item):
    """What the keys of a stream are refused for that depend on each other."""
    id = stream.get("id") if STREAM[1][3](stream.get("id")) else 189
    most = 4_000_000 if id >= 224 else 65_522
    size = stream.get("size")
    if not is_number(1, most)(size):
        yield 46, item
    if not is_number(64_000, 200_000_000)(stream["rx"]) if "rx" in stream else "main" in stream or not 192 <= id <= 223:
        yield 48, item
    if not is_number(1, 10_000_000)(stream["main"]) if "main" in stream else "rx" in stream:
        yield 49, item
    yield from buffer_faults(stream, item)
    yield from frame_faults(stream, item, size if is_number(1, most)(size) else 1)
    by_time = "burst_packets" in stream or "pace" in stream
    if "group" in stream and (by_time or not is_number(1, 64)(stream["group"])):
        yield 53, item
    if "group_packets" in stream and by_time:
        yield 54, item
    if not is_number(1, most)(size):
        return
    n, group = packets_of(size), stream.get("group", 1)
    if "group_packets" in stream and not by_time and (not is_number(1, 64)(group) or not is_number(n, group * n)(stream["group_packets"])):
        yield 54, item
    if by_time and not is_number(n, 100_000)(stream.get("burst_packets")):
        yield 55, item
    if by_time and not is_number(1, 100_000_000)(stream.get("pace")):
        yield 56, item


def buffer_faults(stream, item):
    """What the keys of a multiplexing buffer are refused for: both stand there or none, and its leak is not faster than `rx`."""
    if "rbx" not in stream and "mb" not in stream:
        return
    rx = stream.get("rx", 2_000_000)
    if not is_number(64_000, rx if type(rx) is int else 0)(stream.get("rbx")):
        yield 58, item
    if not is_number(1, 10_000_000)(stream.get("mb")):
        yield 59, item


def are_frame_left(value, count, size):
    """A number of bytes for each access unit but one, and none less than the one before it."""
    return type(value) is list and len(value) == count and all(map(is_number(1, size), value)) and value == sorted(value)


def frame_faults(stream, item, size):
    """What the keys of access units are refused for: a stream has `frames`, `frame`, and `frame_size` or `frame_left`, or none of them. The last
    access unit of a unit is due by the next unit's time, or `frame_rest` before it."""
    if not any(key in stream for key in FRAMES):
        return
    interval = stream["interval"] if is_number(1, 90_000)(stream.get("interval")) else 1
    frames = stream["frames"] if is_number(1, 64)(stream.get("frames")) else 1
    if not is_number(1, 64)(stream.get("frames")):
        yield 84, item
    if not is_number(1, 90_000 if "frame_rest" in stream else interval // max(frames - 1, 1))(stream.get("frame")):
        yield 85, item
    if "frame_size" in stream if "frame_left" in stream else not is_number(1, size)(stream.get("frame_size")):
        yield 86, item
    if "frame_rest" in stream and not is_number(0, 90_000)(stream["frame_rest"]):
        yield 100, item
    if "frame_left" in stream and not are_frame_left(stream["frame_left"], frames - 1, size):
        yield 101, item


# where refusals stand among those of keys that are not in the order of their numbers: 84 to 87, 100 and 101 are of a stream, after 59; 88 to 91,
# 93, 94 and 104 of a program, after 38; 95, 96, 105, 97 to 99 and 103 of the whole, after 18
LATER = {88: 38.01, 89: 38.02, 90: 38.03, 91: 38.04, 95: 18.1, 96: 18.15, 105: 18.2, 97: 18.3, 98: 18.4, 99: 18.5, 103: 18.6, 93: 38.1, 94: 38.2, 104: 38.3, 84: 59.1, 85: 59.2, 86: 59.3, 87: 59.4, 100: 59.5, 101: 59.6}


def in_order(fault):
    number, item = fault
    return (LATER.get(number, number), item)


def entry_faults(table, item, numbers):
    """What a private table's entry in a PMT is refused for: three keys that stand together or not at all."""
    if not any(key in table for key in MORE_KEYS["table"]):
        return
    if type(table.get("program")) is not int or table["program"] not in numbers:
        yield 74, item
    if not is_number(1, 255)(table.get("stream_type")):
        yield 75, item
    if not are_descriptors(table.get("descriptors")):
        yield 76, item


def sharer_faults(stream, item, numbers, most):
    """What `shared_with` is refused for: it names up to so many declared programs, each once, and not the stream's own."""
    if "shared_with" not in stream:
        return
    named = stream["shared_with"]
    others = [n for n in numbers if n != stream.get("program")]
    if type(named) is not list or len(named) > most or not all(type(n) is int and n in others for n in named) or len(set(named)) < len(named):
        yield 57, item


def is_transponder(document):
    return document.get("transponder") is True


def shared_clock_faults(document):
    """What `clock_pid` is refused for: another value than a PID, or that each program has a `pcr_pid`."""
    if "clock_pid" in document and (not PID(document["clock_pid"]) or all(type(p) is dict and "pcr_pid" in p for p in parts(document, "program"))):
        yield 18, 0


def event_room_faults(document):
    """What `eit_packets` is refused for: another number of packets, or that there is no `eit`."""
    if "eit_packets" in document and (not is_number(2, 23)(document["eit_packets"]) or document.get("eit") is not True):
        yield 105, 0


def event_place_faults(document):
    """What `eit_programs` is refused for: another number of programs, or that there is no `eit`."""
    if "eit_programs" in document and (not is_number(1, 64)(document["eit_programs"]) or document.get("eit") is not True):
        yield 96, 0


def network_faults(network):
    """What the keys of a network are refused for: a loop of its own may stand for the name, or after it. The other transport streams are tables."""
    yield from key_faults(NETWORK, network)
    if not is_text(200)(network["name"]) if "name" in network else "network_descriptors" not in network:
        yield 22, 0
    if "stream" in network and (type(network["stream"]) is not list or len(network["stream"]) > 64 or not all(type(t) is dict for t in network["stream"])):
        yield 25, 0
        return
    for item, other in enumerate(parts(network, "stream")):
        yield from key_faults(OTHER, other, item)


def service_faults(program, item):
    """What the loop of a service is refused for: another value than descriptors, or that a key is there that it takes the place of."""
    if "service_descriptors" in program:
        if not are_descriptors(program["service_descriptors"], 1004) or {"service_type", "provider", "name"} & set(program):
            yield 88, item


def event_faults(event, item):
    """What the texts of an event, or its loop in their place, are refused for."""
    if "descriptors" not in event:
        yield from key_faults(SHORT, event, item)
    elif not are_descriptors(event["descriptors"], 4000) or {"language", "name", "text"} & set(event):
        yield 68, item


def own_clock_faults(document, program, item):
    """What `pcr_pid` is refused for: another value than a PID, or that there is none, and the document has no `clock_pid` either."""
    if not PID(program["pcr_pid"]) if "pcr_pid" in program else not PID(document.get("clock_pid")):
        yield 33, item


def channel_faults(document, program, item):
    """What `lcn` is refused for: a number out of its range, without a network, or of another program."""
    if "lcn" not in program:
        return
    others = [p.get("lcn") for p in parts(document, "program") if type(p) is dict and p.get("number") != program.get("number")]
    if not is_number(1, 1_023)(program["lcn"]) or "network" not in document or program["lcn"] in others:
        yield 93, item


def unknown_keys(document):
    """Whether a key stands nowhere in the tables of FORMATS."""
    def unknown(table, keys, more=()):
        return type(table) is dict and set(table) - {key for _, key, _, _ in keys} - set(more)
    network = document.get("network")
    if unknown(document, TOP, ["network", "clock_pid", "eit_packets", "eit_programs"] + [key for _, key, _, _, _ in ARRAYS]):
        return True
    if unknown(network, NETWORK, ["name", "stream"]) or type(network) is dict and any(unknown(other, OTHER) for other in parts(network, "stream")):
        return True
    return any(unknown(part, keys, MORE_KEYS[name]) for _, name, _, _, keys in ARRAYS for part in parts(document, name))


def parts(document, name):
    value = document.get(name)
    return value if type(value) is list else []


def all_key_faults(document):
    if unknown_keys(document):
        yield 2, 0
    yield from key_faults(TOP, document)
    yield from shared_clock_faults(document)
    yield from event_place_faults(document)
    yield from event_room_faults(document)
    if "network" in document:
        yield from network_faults(document["network"]) if type(document["network"]) is dict else [(20, 0)]
    numbers = [p.get("number") for p in parts(document, "program") if type(p) is dict and is_number(1, 65535)(p.get("number"))]
    for number, name, low, limits, keys in ARRAYS:
        tables, high = parts(document, name), limits[is_transponder(document)]
        if name in document and type(document[name]) is not list or not low <= len(tables) <= high or not all(type(t) is dict for t in tables):
            yield number, 0
            continue
        for item, table in enumerate(tables):
            yield from key_faults(keys, table, item)
            if name == "program":
                yield from own_clock_faults(document, table, item)
                yield from service_faults(table, item)
                yield from channel_faults(document, table, item)
            if name == "event":
                yield from event_faults(table, item)
            if name == "stream":
                yield from stream_faults(table, item)
                yield from sharer_faults(table, item, numbers, (15, 63)[is_transponder(document)])
            if name == "table":
                yield from entry_faults(table, item, numbers)
            if name in ("stream", "event"):
                if type(table.get("program")) is not int or table["program"] not in numbers:
                    yield number + 1, item


def service_length(program):
    """The bytes of a service in the SDT, with its loop or its service_descriptor (EN 300 468, 5.2.3 and 6.2.33)."""
    if "service_descriptors" in program:
        return 5 + len(program["service_descriptors"]) // 2
    return 5 + 5 + written(program.get("provider", "")) + written(program.get("name", ""))


def event_length(event):
    """The bytes of an event in the EIT, with its loop or its short_event_descriptor (EN 300 468, 5.2.4 and 6.2.37)."""
    return 12 + (len(event["descriptors"]) // 2 if "descriptors" in event else 7 + written(event["name"]) + written(event["text"]))


def service_parts(document):
    """The services of each section of the SDT: all in one, of a transponder in each as many as the 1,021 bytes of a section_length hold."""
    found = [[]]
    for program in document["program"]:
        if is_transponder(document) and found[-1] and 12 + sum(map(service_length, [*found[-1], program])) > 1021:
            found.append([])
        found[-1].append(program)
    return found


def network_streams(document):
    """The transport streams of the NIT with the bytes of each in its loop (EN 300 468, 5.2.1): this one, which has the channel numbers, and the others."""
    channels = sum("lcn" in p for p in document["program"])
    own = 6 + 2 * -(-channels // 63) + 4 * channels if channels else 0
    hexes = lambda table: len(table.get("descriptors", "")) // 2
    this = {"ts_id": document["ts_id"], "original_network_id": document["original_network_id"]}
    yield this, 6 + hexes(document["network"]) + own
    yield from ((other, 6 + hexes(other)) for other in parts(document["network"], "stream"))


def network_loop_length(network):
    return (2 + written(network["name"]) if "name" in network else 0) + len(network.get("network_descriptors", "")) // 2


def network_parts(document):
    """The transport streams of each section of the NIT: all in one, of a transponder in each as many as the 1,021 bytes of a section_length hold beside
    the network's own loop, which is in the first section; that one may have none."""
    found, left = [[]], 1021 - 13 - network_loop_length(document["network"])
    for other, length in network_streams(document):
        if is_transponder(document) and length > left and (found[-1] or len(found) == 1):
            found.append([])
            left = 1021 - 13
        found[-1].append((other, length))
        left -= length
    return found


def with_room(most, packets, size):
    """The greatest size of a section, of at most so many bytes, that is declared to have room for some packets, each of 184 bytes with
    the pointer_field before the section (ISO/IEC 13818-1, 2.4.4.1); one packet reserves nothing."""
    return max(size, min(most, 184 * packets - 1)) if packets > 1 else size


def section_lengths(document):
    """The greatest section_length of each PMT, of the NIT and of each section of the SDT, with the table's number."""
    for number, packets, length in own_section_lengths(document):
        yield number, with_room(1024, packets, 3 + length) - 3


def own_section_lengths(document):
    """The section_length of each of them with all that it may say, the table's number, and the packets that it has room for."""
    programs = document["program"]
    hexes = lambda table: len(table.get("descriptors", "")) // 2
    for p, program in enumerate(programs):
        streams = [s for s in parts(document, "stream") if program["number"] in [s["program"]] + s.get("shared_with", [])]
        own = sum(5 + 3 * ("tag" in s) + 6 * ("language" in s) + hexes(s) for s in streams)
        own += sum(5 + hexes(t) for t in parts(document, "table") if t.get("program") == program["number"])
        yield 1 + p, program.get("pmt_packets", 1), 9 + 4 + hexes(program) + own
    number = 1 + len(programs)
    if "network" in document:
        for place, streams in enumerate(network_parts(document)):
            own = network_loop_length(document["network"]) if place == 0 else 0
            yield number, document.get("nit_packets", 1), 13 + own + sum(length for _, length in streams)
        number += 1
    if document.get("sdt"):
        for services in service_parts(document):
            yield number, document.get("sdt_packets", 1), 12 + sum(map(service_length, services))


def whole_faults(document):
    """What is refused of a description whose keys are each in their range."""
    programs, streams = document["program"], parts(document, "stream")
    pids = [p[key] for p in programs for key in ("pmt_pid", "pcr_pid") if key in p] + [s["pid"] for s in streams + parts(document, "table")]
    pids += [document["clock_pid"]] if "clock_pid" in document else []
    if len(set(pids)) < len(pids):
        yield 80, 0
    if len({p["number"] for p in programs}) < len(programs):
        yield 81, 0
    ends = []
    for item, event in enumerate(parts(document, "event")):
        begin = moment(event["start"])
        if any(begin < end for owner, end in ends if owner == event["program"]):
            yield 82, item
        ends.append((event["program"], begin + timedelta(seconds=event["duration"])))
    for number, length in section_lengths(document):
        if length > 1021:
            yield 83, number


def integers(value):
    if type(value) is int:
        yield value
    elif type(value) in (dict, list):
        for part in value.values() if type(value) is dict else value:
            yield from integers(part)


def described(data):
    """The description, or the number and place of its refusal."""
    try:
        document = tomllib.loads(data.decode())
    except (UnicodeDecodeError, tomllib.TOMLDecodeError, ValueError):
        return (1, 0)
    if not all(-(2**63) <= n < 2**63 for n in integers(document)):
        return (1, 0)
    return min(all_key_faults(document), key=in_order, default=None) or min(whole_faults(document), default=None) or document


# ---- a plain reading of plans' texts and of records


def planned(data):
    """The size of the plan's text at the front and its period, or the number of the first bad line below 0."""
    place = line = 0

    def next_line():
        nonlocal place, line
        line += 1
        end = data.find(b"\n", place)
        text, place = (None, place) if end < 0 else (data[place:end], end + 1)
        return text

    def number(digits, end):
        return re.fullmatch(rb"0|[1-9][0-9]*", digits) and int(digits) < end

    if next_line() != b"tsplan 1":
        return -line, 0
    words = (next_line() or b"").split(b" ")
    if len(words) != 2 or words[0] != b"period" or not number(words[1], 100_000):
        return -line, 0
    period = left = int(words[1])
    while left:
        words = (next_line() or b"").split(b" ")
        if len(words) != min(left, 24) or not all(w == b"-" or w[:1] in (b"S", b"P", b"T") and number(w[1:], 256) for w in words):
            return -line, 0
        left -= len(words)
    for kind, names in ((b"stream", [b"spread", b"start", b"peak"]), (b"program", [b"tstart", b"tpeak", b"bstart", b"bpeak"])):
        count = 0
        while count < 256 and data[place: place + 1] == kind[:1]:
            words = (next_line() or b"").split(b" ")
            wanted = names + [b"mstart", b"mpeak"] if kind == b"stream" and len(words) > 8 else names
            if words[:2] != [kind, b"%d" % count] or words[2::2] != wanted or not all(number(w, 10**18) for w in words[3::2]) or len(words) != 2 + 2 * len(wanted):
                return -line, 0
            count += 1
    return (place, period) if next_line() == b"end" else (-line, 0)


# marks of a unit that more follows from than its bits in a header, and all that there are
RANDOM_ACCESS, PRIVATE, LONG, MARKS = 0x40, 0x20, 0x10, 0x7F


def records_of(data):
    """The records: stream, DTS, PTS, size of the unit, and marks; or the fault's line. PES_private_data comes before the unit."""
    records = []
    while data:
        marks, size = int.from_bytes(data[1:2], "big"), int.from_bytes(data[2:5], "big")
        private = 16 if marks & PRIVATE else 0
        if len(data) >= 5 and (size > 4_000_000 or marks & ~MARKS or marks and size <= private):
            return f"file {len(records)} 2"
        if len(data) < 21 + size:
            return f"file {len(records)} 1"
        records.append((data[0], int.from_bytes(data[5:13], "big"), int.from_bytes(data[13:21], "big"), size - private, marks))
        data = data[21 + size:]
    return records


def marks_size(marks):
    """What marks take beside the 19 bytes of the greatest header without them: of a header of 45 bytes, or of PES_private_data, and of an
    adaptation field."""
    return (26 if marks & LONG else 17 if marks & PRIVATE else 0) + (2 if marks & RANDOM_ACCESS else 0)


def pieces_of(dts, pts, size, marks=0):
    header = 45 if marks & LONG else (14 if pts % 2**33 == dts % 2**33 else 19) + (17 if marks & PRIVATE else 0)
    return -(-(size + header + (2 if marks & RANDOM_ACCESS else 0)) // 184)


def unit_fault(streams, records):
    """The first unit that is refused, where all of them are fed before the first slot."""
    last, sent, levels = {}, {}, {}
    for index, (stream, dts, pts, size, marks) in enumerate(records):
        if stream >= len(streams):
            return f"unit {index} 1"
        keys = streams[stream]
        packets = pieces_of(dts, pts, size, marks)
        group = keys.get("group", 1)
        before = sent.setdefault(stream, [])
        level = max(0, levels.get(stream, 0) - keys.get("pace", 0) * (dts - last.get(stream, 0))) + packets * 135_360_000
        causes = [
            (2, size == 0), (3, size + marks_size(marks) > keys["size"]), (4, stream in last and dts < last[stream] + keys["interval"]),
            (5, pts < dts or pts > dts + keys.get("pts_limit", 90_000)), (6, dts < keys["lead"]), (7, dts > 2**52),
            (9, "pace" not in keys
             and packets + sum(before[len(before) - group + 1:] if group > 1 else []) > keys.get("group_packets", group * packets_of(keys["size"]))),
            (10, "pace" in keys and level > keys["burst_packets"] * 135_360_000),
        ]
        for code, holds in causes:
            if holds:
                return f"unit {index} {code}"
        last[stream], levels[stream] = dts, level
        before.append(packets)
    return None


def carried(data):
    """How many packets `carry` writes, and its fault's line."""
    packets, index, last = 0, 0, None
    while data:
        records = records_of(data[: 21 + int.from_bytes(data[2:5], "big")])
        if type(records) is str:
            return packets, f"file {index} {records[-1]}"
        stream, dts, pts, size, marks = records[0]
        causes = [(1, stream != 0), (2, size == 0), (3, size + marks_size(marks) > 65_522), (4, last is not None and dts <= last), (5, pts < dts or pts > dts + 90_000), (7, dts > 2**52)]
        for code, holds in causes:
            if holds:
                return packets, f"unit {index} {code}"
        packets += pieces_of(dts, pts, size, marks)
        index, last, data = index + 1, dts, data[21 + int.from_bytes(data[2:5], "big"):]
    return packets, None


class Job:
    """What a plain reading says of a job: its fault's line, or None; and what it needs for `mux`."""

    def __init__(self, data, two):
        self.fault, self.rest, self.periods = None, b"", []
        place = 0 if data.startswith(b"tsplan 1\n") else data.find(b"\ntsplan 1\n") + 1
        if not data[place:].startswith(b"tsplan 1\n"):
            self.fault = "job"
            return
        self.description = described(data[:place])
        if type(self.description) is tuple:
            self.fault = "description %d %d" % self.description
            return
        self.rest = data[place:]
        for second in range(2 if two else 1):
            size, period = planned(self.rest)
            if size < 0:
                self.fault = f"{'second ' if second else ''}plan {-size}"
                return
            self.rest = self.rest[size:]
            self.periods.append(period)


def fault_of(data, two):
    """Returns the line of the first fault of a job with one plan or two; None without one."""
    job = Job(data, two)
    records = records_of(job.rest) if job.fault is None else []
    return job.fault or (records if type(records) is str else unit_fault(parts(job.description, "stream"), records) if records else None)
