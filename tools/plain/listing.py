"""What `tsmux demux` lists of a stream, read plainly: the PES packets, sections and faults of each PID (docs/MONITOR.md)."""

from plain.syntax import read_header, read_packet, section_size

LONGEST = 8_388_608


class Pid:
    def __init__(self, pid, lines):
        self.pid, self.lines, self.last, self.part = pid, lines, None, None

    def tell(self, packet, text):
        self.lines.append(f"{packet} pid {self.pid} {text}")

    def stray(self, packet, payload):
        """Takes payload that belongs to no section and no PES packet: the listing has no line for it."""

    def truncate(self, packet):
        if self.part:
            self.tell(packet, f"truncated {len(self.part[1])}")
        self.part = None

    def end_pes(self, packet, unended):
        if self.part and self.part[0] == "pes":
            header = read_header(self.part[1])
            if isinstance(header, tuple) and header[1] == 0:
                self.tell_pes(packet, header, len(self.part[1]) - header[4], " open" if unended else "")
                self.part = None
        self.truncate(packet)

    def tell_pes(self, packet, header, size, tail):
        pts, dts = ("-" if s is None else s for s in header[2:4])
        self.tell(packet, f"pes {header[0]} pts {pts} dts {dts} size {size}{tail}")

    def look(self, packet):
        """Tells what the bytes of the open part decide; True where they did."""
        kind, data = self.part
        if kind == "pes":
            header = read_header(data)
            if header == 1:
                return False
            if isinstance(header, int):
                self.tell(packet, f"bad-pes {header}")
            elif header[1] == 0 and len(data) > LONGEST:
                self.tell(packet, f"truncated {len(data)}")
            elif header[1] and len(data) >= 6 + header[1]:
                self.tell_pes(packet, header, 6 + header[1] - header[4], "")
                if len(data) > 6 + header[1]:
                    self.stray(packet, data[6 + header[1]:])
            else:
                return False
        else:
            size = section_size(data)
            if size is None:
                return False
            self.tell(packet, f"bad-section {-size}" if size < 0 else f"section {data[0]} size {size}")
        self.part = None
        return True

    def sections(self, packet, data):
        while data and data[0] != 0xFF:
            size = section_size(data)
            self.part = ("section", bytes(data))
            if not self.look(packet) or size == -2:
                return
            data = data[3 + ((data[1] & 15) << 8 | data[2]):]

    def step(self, packet, fields):
        last, self.last = self.last, fields
        fields["duplicate"] = bool(
            last and not last["duplicate"] and last["payload"] is not None and fields["payload"] is not None
            and last["counter"] == fields["counter"] and last["content"] == fields["content"])
        if fields["duplicate"]:
            return self.tell(packet, "duplicate")
        if last and not fields["discontinuity"]:
            expected = last["counter"] if fields["payload"] is None else (last["counter"] + 1) % 16
            if fields["counter"] != expected:
                self.tell(packet, f"counter {expected} {fields['counter']}")
                self.truncate(packet)
        if fields["scrambled"]:
            self.tell(packet, "scrambled")
            return self.truncate(packet)
        if fields["payload"] is not None:
            self.read(packet, fields["start"], fields["payload"])

    def read(self, packet, start, payload):
        if not start:
            if self.part:
                self.part = (self.part[0], self.part[1] + payload)
                self.look(packet)
            elif payload:
                self.stray(packet, payload)
        elif payload[:3] == b"\0\0\1"[: len(payload)]:
            self.end_pes(packet, False)
            self.part = ("pes", payload)
            self.look(packet)
        elif payload[0] > len(payload) - 1:
            self.tell(packet, "bad-section 5")
            self.truncate(packet)
        else:
            if self.part and self.part[0] == "section":
                self.part = ("section", self.part[1] + payload[1: 1 + payload[0]])
                self.look(packet)
            self.end_pes(packet, False)
            self.sections(packet, payload[1 + payload[0]:])


def findings(stream):
    lines, pids, count = [], {}, len(stream) // 188
    for packet in range(count):
        fields = read_packet(stream[188 * packet: 188 * packet + 188])
        if isinstance(fields, int):
            lines.append(f"{packet} bad-packet {fields}")
        elif fields["error"]:
            lines.append(f"{packet} errored")
        elif fields["pid"] != 8191:
            pids.setdefault(fields["pid"], Pid(fields["pid"], lines)).step(packet, fields)
    if len(stream) % 188:
        lines.append(f"{count} truncated {len(stream) % 188}")
    for pid in pids.values():
        pid.end_pes(count, True)
    return lines
