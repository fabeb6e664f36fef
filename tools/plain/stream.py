"""A transport stream read plainly: the PES packets and sections of each PID with their bytes, and its tables as docs/CARRIED_TABLES.md takes
them. tools/plain-job uses it."""

from plain import capture, jobs, listing, syntax, texts
from plain.syntax import NO_FLAGS, descriptors, loops


class Marks(int):
    """The marks of a unit in one byte, and its PES_private_data."""

    private = b""

    @classmethod
    def of(cls, marks, private):
        made = cls(marks | (jobs.PRIVATE if private else 0))
        made.private = private
        return made


WRAP = 2**33


class Refused(Exception):
    """There is no job of the stream: the line that says why."""


# ---- what is found of each PID


class Pid(listing.Pid):
    """One PID: its PES packets with their bytes, its sections, and the rest as lines, each with the packet in which it begins."""

    def __init__(self, pid, accesses):
        super().__init__(pid, [])
        self.found, self.begun, self.accesses = [], None, accesses

    def look(self, packet):
        self.begun = packet if self.begun is None else self.begun
        done = super().look(packet)
        self.begun = None if done else self.begun
        return done

    def truncate(self, packet):
        super().truncate(packet)
        self.begun = None

    def stray(self, packet, payload):
        self.found.append((packet, packet, "stray", (len(payload),)))

    def unstamped(self, part):
        """Whether a part of a PES packet was cut short that has no PTS, as far as it was read."""
        kind, data = part
        return kind == "pes" and not (len(data) > 8 and data[3] not in NO_FLAGS and data[6] >> 6 == 2 and data[7] >> 7 == 1)

    def tell_pes(self, packet, header, size, tail):
        number, _, pts, dts, length = header
        data = self.part[1]
        body = data[length: length + size]
        marks = data[6] & 15 | (16 if data[8] == 36 else 0) if length > 6 else 0
        marks |= jobs.RANDOM_ACCESS if self.begun in self.accesses else 0
        marks = Marks.of(marks, private_data(data) if length > 6 else b"")
        self.found.append((packet, self.begun, "pes", (number, dts if dts is not None else pts, pts, body, tail != "", marks)))

    def tell(self, packet, text):
        kind, *rest = text.split()
        # a pointer_field past the end of its packet is of that packet, whatever was begun before
        of_part = kind in ("truncated", "bad-pes", "section", "bad-section") and text != "bad-section 5"
        begins = self.begun if of_part and self.begun is not None else packet
        value = self.part[1][: int(rest[2])] if kind == "section" else rest
        value = (rest[0], self.unstamped(self.part)) if kind == "truncated" else value
        self.found.append((packet, begins, kind, value))


def in_step(data):
    """The bytes of a stream without those of its slips, and a line for each slip: where a packet's sync byte does not stand 188 bytes after
    the one before, and three that do so begin within four packets, in another step. And of each PID the fields that are not written again."""
    sync = lambda at: data[at: at + 1] == b"\x47"
    row = lambda at: sync(at) and sync(at + 188) and sync(at + 376)
    kept, at, lines = [], 0, []
    while at + 188 <= len(data):
        lost = at + 188 < len(data) and not sync(at + 188) and not row(at + 376)
        size = next((n for n in range(1, 752) if n % 188 and row(at + n)), None) if lost else None
        if size is None:
            kept.append(data[at: at + 188])
        else:
            lines.append(f"packet {len(kept)} slip of {size} bytes")
        at += size or 188
    fields = dict.fromkeys(((p[1] & 31) << 8 | p[2], field) for p in kept for field in fields_of(p))
    return b"".join(kept) + data[at:], lines, list(fields)


TRANSPORT_PRIORITY = "transport priority left out"
INDICATORS = ((0x80, "discontinuity indicators left out"), (0x40, "random access indicators left out"),
              (0x20, "elementary stream priority indicators left out"), (8, "original program clock references left out"),
              (4, "splice countdown left out"), (2, "private data of adaptation fields left out"), (1, "extension of adaptation fields left out"))
OF_PACKETS = (TRANSPORT_PRIORITY, *(name for _, name in INDICATORS))
ALIGNMENT = "data alignment indicators left out"
FLAGS = "priority, copyright or original flags of PES headers left out"
SCRAMBLED = "scrambled in PES packets: taken as it is"
LONG = "PES headers of 45 bytes: written without stuffing"
PRIVATE = "private data of PES headers left out"
OTHER = "other data of PES headers left out"
UNREAD = "PES header continues in another packet: not read"


def adaptation_flags(p):
    """The flags of the adaptation field of a packet; none without one, or if it has no byte of flags."""
    return p[5] if p[3] & 0x20 and p[4] else 0


def before_extension(flags):
    """The bytes of a PES header before the flags of its PES extension, by the second flag byte."""
    return 9 + sum(n for bit, n in ((7, 5), (6, 5), (5, 6), (4, 3), (3, 1), (2, 1), (1, 2)) if flags >> bit & 1)


def private_data(header):
    """PES_private_data of a PES header with flags, if it is whole."""
    at = before_extension(header[7])
    data = header[:9 + header[8]]
    return data[at + 1: at + 17] if header[7] & 1 and len(data) >= at + 17 and data[at] & 0x80 else b""


def fields_of(p):
    """The fields of a packet and of a PES header at its front that are not written again."""
    body = p[5 + p[4] if p[3] & 0x20 else 4:] if p[1] >> 6 == 1 and p[3] >> 6 == 0 and p[3] & 0x10 else b""
    begins = body[:3] == b"\0\0\1" and body[3] not in NO_FLAGS and body[7] >= 0x80 if len(body) > 8 else bool(body)
    flags = adaptation_flags(p) & ~(jobs.RANDOM_ACCESS if begins else 0)
    told = [TRANSPORT_PRIORITY] * bool(p[1] & 0x20) + [name for bit, name in INDICATORS if flags & bit]
    if len(body) < 9:
        return told + [UNREAD] * bool(body)
    if body[:3] != b"\0\0\1" or body[3] in NO_FLAGS:
        return told
    first, second, size = body[6:9]
    more = before_extension(second)
    extension = body[more] if second & 1 and more < min(9 + size, len(body)) else 0
    goes_on = second < 0x80
    stand = ((ALIGNMENT, goes_on and first & 4), (FLAGS, goes_on and first & 0x0B), (SCRAMBLED, first & 0x30), (LONG, goes_on and body[3] == 0xBD and size == 36), (PRIVATE, extension & 0x80 and (goes_on or 9 + size < more + 17)),
             (OTHER, second & 0x3E or extension & 0x71), (UNREAD, len(body) < 9 + size))
    return told + [name for name, there in stand if there]


AS_IT_IS, CODED = ": ffmpeg -i IN -c copy -f mpegts OUT makes one", ": ffmpeg -i IN -f mpegts OUT makes one"
FORMS = {"mp4": ("MP4", AS_IT_IS), "matroska": ("Matroska", AS_IT_IS), "avi": ("AVI", AS_IT_IS), "wav": ("WAV", CODED), "ogg": ("Ogg", CODED),
         "program_stream": ("MPEG program stream", AS_IT_IS), "elementary_stream": ("elementary stream of video", CODED),
         "network_capture": ("capture of network packets", ""), "text": ("text", ""), "unknown": ("of unknown form", "")}


def no_stream(data):
    """The refusal of an input that is no transport stream: no five sync bytes 188 bytes apart in its first 4 MiB, or in a shorter one of a known form."""
    front, at, form = data[:1 << 22], -1, capture.form_of(data)
    if capture.size_of(data) != 188 or len(front) < 1 << 22 and form == "unknown":
        return None
    while (at := front.find(b"\x47", at + 1)) >= 0:
        if front[at: at + 753: 188] == b"\x47" * 5:
            return None
    return "{}, not a transport stream{}".format(*FORMS[form])


class Stream:
    """The findings of a stream by PID, and its packets that can't be told a PID."""

    def __init__(self, data):
        data, slips, self.fields = in_step(data)
        self.count, self.pids, self.lines, self.bad, self.references = len(data) // 188, {}, slips, 0, []
        accesses = {at // 188 for at in range(0, len(data) - 187, 188) if adaptation_flags(data[at: at + 188]) & jobs.RANDOM_ACCESS}
        for packet in range(self.count):
            fields = syntax.read_packet(data[188 * packet: 188 * packet + 188])
            if isinstance(fields, int):
                self.bad += 1
                self.lines.append(f"packet {packet} bad-packet")
            elif fields["error"]:
                self.lines.append(f"packet {packet} errored")
            elif fields["pid"] != 8191:
                self.pids.setdefault(fields["pid"], Pid(fields["pid"], accesses)).step(packet, fields)
            if not isinstance(fields, int) and not fields["error"] and adaptation_flags(data[188 * packet: 188 * packet + 188]) & 0x10:
                base = int.from_bytes(data[188 * packet + 6: 188 * packet + 11], "big") >> 7
                self.references.append((packet, fields["pid"], base))
        if len(data) % 188:
            self.lines.append(f"rest of {len(data) % 188} bytes")
        for pid in self.pids.values():
            pid.end_pes(self.count, True)

    def found(self, pid):
        return self.pids[pid].found if pid in self.pids else []

    def time_text(self, pid, clock):
        """Gives teletext without PTS the times at which it came: each PES packet has what its clock showed last when it was whole, and is a
        unit with its flags and its long header."""
        shown = [(packet, base) for packet, of, base in self.references if of == clock]
        stamps = [value[2] for _, _, kind, value in self.found(pid) if kind == "pes" and value[0] == 0xBD]
        if not shown or not stamps or any(pts is not None for pts in stamps):
            return
        timed, last = [], shown[0][1]
        for packet, begun, kind, value in self.found(pid):
            while shown and shown[0][0] <= packet:
                last = shown.pop(0)[1]
            if kind == "pes" and value[0] == 0xBD:
                value = (value[0], last, last, *value[3:])
            timed.append((packet, begun, kind, (value[0], False) if kind == "truncated" else value))
        self.pids[pid].found = timed
        self.fields = [(of, field) for of, field in self.fields if of != pid or field not in (ALIGNMENT, FLAGS, LONG)]

    def join(self, clocks):
        """Moves the stamps of the parts of a joined recording, so that they come one after another: a part begins where its clock falls, or goes ahead
        by more than 10 s, and its first DTS comes 0.3 s after the greatest one before. The clocks are the PIDs of the references, by PIDs of streams."""
        for clock in set(clocks.values()):
            shown = [(packet, base) for packet, of, base in self.references if of == clock]
            cuts = [(*before, *after) for before, after in zip(shown, shown[1:]) if (after[1] - before[1]) % WRAP > 900_000]
            part = lambda begun, dts: sum(begun >= at or begun > since and (dts - base) % WRAP < (dts - before) % WRAP for since, before, at, base in cuts)
            pids = [pid for pid, of in clocks.items() if of == clock and pid in self.pids]
            stamps = [(part(begun, value[1]), value[1]) for pid in pids for _, begun, kind, value in self.found(pid) if kind == "pes" and value[2] is not None]
            shifts = [0]
            for number, (_, before, _, base) in enumerate(cuts):
                near = lambda of, reference: [far for part, dts in stamps if part == of and (far := (dts - reference) % WRAP) <= 900_000] or [0]
                shifts.append((shifts[-1] + before + max(near(number, before)) + 27_000 - base - min(near(number + 1, base))) % WRAP)
            later = lambda stamp, by: None if stamp is None else (stamp + shifts[by]) % WRAP
            moved = lambda begun, value: (value[0], *(later(stamp, part(begun, value[1])) for stamp in value[1:3]), *value[3:])
            for pid in pids:
                self.pids[pid].found = [(packet, begun, kind, moved(begun, value) if kind == "pes" and value[2] is not None else value)
                                        for packet, begun, kind, value in self.found(pid)]
            self.references = [(packet, of, later(base, sum(packet >= at for _, _, at, _ in cuts)) if of == clock else base) for packet, of, base in self.references]

    def sections(self, pid, table):
        """The sections of a PID with a table_id, of the long form, in force now, each with the packet in which it ends."""
        whole = [(packet, value) for packet, _, kind, value in self.found(pid) if kind == "section"]
        return [(packet, s) for packet, s in whole if s[0] == table and s[1] >> 7 and s[5] & 1 and len(s) <= 1024]


# ---- tables


def of_multiplex(tag, body):
    """Whether a descriptor speaks of the rates and buffers of the multiplex in which it stands: 12, 14, 16, STD without leak, managed HRD of AVC and of HEVC."""
    managed = tag == 42 and body[:1] >= b"\x80" or tag == 63 and body[:1] == b"\x03" and body[1:2] >= b"\x80"
    return tag in (12, 14, 16) or tag == 17 and body[:1] != b"" and not body[0] & 1 or managed


def kept(data):
    return b"".join(bytes([tag, len(body)]) + body for tag, body in descriptors(data) if tag != 9 and not of_multiplex(tag, body))


def association(stream, lines=None, asked=(), joined=False):
    """transport_stream_id, and (number, PID) of the programs. Told are the first table that says something else, and the first one with a program
    that is asked for and not named, or with `joined` False on another PID."""
    tables = [(packet, s) for packet, s in stream.sections(0, 0) if len(s) % 4 == 0]
    if not tables:
        raise Refused("no PAT")
    version = lambda s: s[5] >> 1 & 31
    first, named = tables[0][1], {}
    for _, s in tables:
        for number, pid in syntax.associations(s) if version(s) == version(first) else []:
            if number:
                named.setdefault(number, pid)
    says_else = lambda s: version(s) != version(first) or s[3:5] != first[3:5] or any(number and named.get(number) != pid for number, pid in syntax.associations(s))
    if lines is not None:
        lines += [f"packet {packet} PAT changes: the first is used" for packet, s in tables if says_else(s)][:1]
        lost = lambda number, pid: number and (not asked or number in asked) and (number not in named or not joined and named[number] != pid)
        lines += [f"packet {packet} PAT names a program or PMT PID that the first does not: left out" for packet, s in tables
                  if any(lost(*entry) for entry in syntax.associations(s))][:1]
    return first[3] << 8 | first[4], list(named.items())


def program_maps(stream, number, pid):
    """Of each program map in force: the packet in which it ends, its descriptors, (stream_type, PID, descriptors) of its streams, and PCR_PID."""
    maps = []
    for packet, s in stream.sections(pid, 2):
        size = (s[10] & 15) << 8 | s[11] if len(s) >= 16 else 4096
        entries = loops(s[12 + size: -4], 5) if len(s) >= 16 + size else None
        if entries is not None and s[3] << 8 | s[4] == number:
            maps.append((packet, s[12: 12 + size], [(h[0], (h[1] & 31) << 8 | h[2], d) for h, d in entries], (s[8] & 31) << 8 | s[9]))
    return maps


def service(stream, number):
    """service_type, provider and name of the last description of a program, all of its descriptors, and its running_status."""
    last = None
    for _, s in stream.sections(0x11, 0x42):
        for head, inner in loops(s[11:-4], 5) or []:
            if head[0] << 8 | head[1] == number:
                texts = [t for t in (texts_of(body) for tag, body in descriptors(inner) if tag == 0x48) if t]
                last = (*texts[0], inner, head[3] >> 5) if texts else last
                if texts:
                    break
    return last


def original(stream):
    """original_network_id of the first service description; None without one."""
    said = (s[8] << 8 | s[9] for _, s in stream.sections(0x11, 0x42) if loops(s[11:-4], 5) is not None)
    return next(said, None)


def network_table(s):
    """network_id, the network's descriptors, and (transport_stream_id, original_network_id, descriptors) of its streams. None where a loop does
    not fit."""
    size = (s[8] & 15) << 8 | s[9] if len(s) >= 16 else 4096
    rest = s[10 + size: -4]
    entries = loops(rest[2:], 6) if len(s) >= 16 + size and (rest[0] & 15) << 8 | rest[1] == len(rest) - 2 else None
    return entries and (s[3] << 8 | s[4], s[10: 10 + size], [(h[0] << 8 | h[1], h[2] << 8 | h[3], d) for h, d in entries])


def network(stream, ts_id):
    """What the first network information section in force says that has this stream: network_id, original_network_id, the network's descriptors and
    the stream's. The other transport streams of this network, each as a section lists it first, at most 64. And the packet in which the first section
    ends that says anything else."""
    known, first, others = original(stream), None, {}

    def said(table):
        entry = next(((o, d) for t, o, d in table[2] if t == ts_id and known in (None, o)), None)
        return (table[0], entry[0], table[1], entry[1]) if entry and is_whole(entry[1], 700) else None

    tables = [(packet, table) for packet, table in ((packet, network_table(s)) for packet, s in stream.sections(0x10, 0x40)) if table]
    found = next((network for network in (said(table) for _, table in tables) if network), None)
    tables = [(packet, table) for packet, table in tables if found and table[0] == found[0]]
    for t, o, d in (entry for _, table in tables for entry in table[2]):
        if (t, o) != (ts_id, found[1]) and (t, o) not in others and is_whole(d, 700) and len(others) < 64:
            others[t, o] = d

    def is_carried(table):
        loops = {**others, (ts_id, found and found[1]): found and found[3]}
        return (not table[1] or is_whole(table[1], 700) and table[1] == found[2]) and all(loops.get((t, o)) == d for t, o, d in table[2])

    carried = [packet for packet, table in tables if is_carried(table)]
    for pid in stream.pids:
        for packet, _, kind, value in stream.found(pid):
            if kind == "section" and value[0] == 0x40:
                if pid == 0x10 and packet in carried:
                    carried.remove(packet)
                else:
                    first = packet if first is None else min(first, packet)
    return found, others, first


def seconds(coded):
    """Of hhmmss in binary coded decimals; None where a digit is none, or over 59."""
    if any(byte >> 4 > 9 or byte & 15 > 9 for byte in coded):
        return None
    hours, minutes, rest = ((byte >> 4) * 10 + (byte & 15) for byte in coded)
    return hours * 3600 + minutes * 60 + rest if minutes < 60 and rest < 60 else None


def moment(coded):
    """Of a Modified Julian Date and hhmmss: a time of 1970 to 2037."""
    at, days = seconds(coded[2:]), (coded[0] << 8 | coded[1]) - 40_587
    return days * 86_400 + at if at is not None and at < 86_400 and 0 <= days <= 24_836 else None


def time(stream):
    """What the first time and date section says, and the packet in which the first of that table_id ends that says nothing."""
    first, surplus = None, []
    for pid in stream.pids:
        for packet, _, kind, s in stream.found(pid):
            if kind == "section" and s[0] == 0x70:
                said = moment(s[3:8]) if pid == 0x14 and not s[1] >> 7 and len(s) == 8 else None
                first = said if first is None else first
                surplus += [packet] if said is None else []
    return first, min(surplus, default=None)


def short_event(loop):
    """Language, name and text of the first short event descriptor."""
    for tag, body in descriptors(loop):
        name = body[4: 4 + body[3]] if len(body) > 3 else b""
        rest = body[4 + len(name):]
        if tag == 0x4D and len(body) > 3 and len(name) == body[3] and rest and len(rest) > rest[0]:
            return body[:3], name, rest[1: 1 + rest[0]]
    return b"", b"", b""


def event(number, head, loop):
    """(start, program, event_id, duration, descriptors) where a description can say it."""
    start, duration = moment(head[2:7]), seconds(head[7:10])
    return None if start is None or not duration or not is_whole(loop, 4000) else (start, number, head[0] << 8 | head[1], duration, loop)


def events(stream, numbers):
    """The events of programs, as they come first, if they overlap none before them; and the packet in which the first section ends of which
    not all is among them."""
    sections, taken, surplus = [], [], []
    for pid in stream.pids:
        for packet, _, kind, s in stream.found(pid):
            if kind == "section" and s[0] == 0x4E:
                good = pid == 0x12 and s[1] >> 7 and len(s) >= 18 and s[5] & 1
                entries = loops(s[14:-4], 12) if good else None
                number = s[3] << 8 | s[4] if entries is not None else None
                sections.append((packet, number, None if entries is None else [event(number, *e) for e in entries]))
    for packet, number, said in sorted(sections, key=lambda one: one[0]):
        for one in said or [] if number in numbers else []:
            clash = one and any(o[1] == number and one[0] < o[0] + o[3] and o[0] < one[0] + one[3] for o in taken)
            if one and not clash and len(taken) < 1024:
                taken.insert(sum(o[0] < one[0] for o in taken), one)
    for packet, number, said in sections:
        if said is None or number in numbers and not all(one in taken for one in said):
            surplus.append(packet)
    return taken, min(surplus, default=None)


def texts_of(body):
    if len(body) < 2 or len(body) < 3 + body[1] or len(body) < 3 + body[1] + body[2 + body[1]]:
        return None
    name = 3 + body[1]
    provider, name = body[2: name - 1], body[name: name + body[name - 1]]
    return body[0], readable(provider), readable(name)


def is_whole(loop, most):
    """Whether bytes are whole descriptors, and at most so many."""
    return len(loop) <= most and sum(2 + len(body) for _, body in descriptors(loop)) == len(loop)


def written(text):
    """A text as a descriptor has it (EN 300 468, annex A): ASCII letters, digits and spaces as they are, any other text after 0x15 in UTF-8."""
    return text.encode() if all(c == " " or c.isascii() and c.isalnum() for c in text) else b"\x15" + text.encode()


def service_loop(kind, provider, name):
    """The service descriptor of these texts (EN 300 468, 6.2.33)."""
    body = bytes([kind]) + b"".join(bytes([len(text)]) + text for text in map(written, (provider, name)))
    return bytes([0x48, len(body)]) + body


def event_loop(language, name, text):
    """The short event descriptor of these texts (EN 300 468, 6.2.37), if the language has three letters."""
    body = language.encode() + b"".join(bytes([len(text)]) + text for text in map(written, (name, text)))
    return bytes([0x4D, len(body)]) + body if len(language) == 3 and language.isascii() and language.isalpha() else None


def network_loop(name):
    """The network name descriptor of a text (EN 300 468, 6.2.27)."""
    return bytes([0x40, len(written(name))]) + written(name)


def readable(data, most=100):
    """A text of EN 300 468, annex A, of at most that many bytes as it is written again."""
    text = texts.shown(data)
    while jobs.written(text) > most:
        text = text[:-1]
    return text


# ---- sections that do not change


def place_of(section):
    """Which section of a table it is: table_id, and of the long form table_id_extension and section_number."""
    return section[:1], section[1] >> 7 and (section[3:5], section[6])


def steady(stream, pid):
    """The sections of a PID, each once, and the greatest number of packets from one start of a section to its next; None where they change, where
    one does not come again, where there are more than 8, or where anything else is found: also stream events (DSM-CC), and splice commands
    (SCTE 35) but a splice_null alone."""
    found = {}
    for packet, begins, kind, value in stream.found(pid):
        if kind == "section" and value[0] != 0x3D and not (value[0] == 0xFC and any(value[13:16])):
            found.setdefault(bytes(value), []).append(begins)
        elif kind not in ("duplicate", "stray") and not (kind == "truncated" and packet >= stream.count):
            return None
    gaps = [max((after - before for before, after in zip(starts, starts[1:])), default=0) for starts in found.values()]
    whole = 1 <= len(found) <= 8 and all(gaps) and len({place_of(s) for s in found}) == len(found)
    return (list(found), max(gaps)) if whole else None
