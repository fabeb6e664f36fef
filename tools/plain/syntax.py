"""The syntax of ISO/IEC 13818-1, read plainly: CRC_32, packets, PES headers, stamps, sections, descriptors, and the entries of PAT and PMT."""

NULL = b"\x47\x1F\xFF\x10" + b"\xFF" * 184
NO_FLAGS = (0xBC, 0xBE, 0xBF, 0xF0, 0xF1, 0xF2, 0xF8, 0xFF)


# ---- CRC_32 (annex A)


def register_of(byte):
    """Returns the register after a byte's eight bits, from one of the byte alone."""
    register = byte << 24
    for _ in range(8):
        register = (register << 1 ^ (0x04C11DB7 if register >> 31 else 0)) & 0xFFFFFFFF
    return register


REGISTERS = [register_of(byte) for byte in range(256)]


def check_word(data):
    """Returns the CRC_32 of bytes: 0 for a section with its own."""
    register = 0xFFFFFFFF
    for byte in data:
        register = (register << 8 & 0xFFFFFFFF) ^ REGISTERS[register >> 24 ^ byte]
    return register


def checked(section):
    """Returns a section with its CRC_32 after it."""
    return section + check_word(section).to_bytes(4, "big")


# ---- packets (2.4.3)


def pid_of(data, at=1):
    """Returns the PID in the two bytes at a place, without a place the PID of a packet."""
    return (data[at] & 0x1F) << 8 | data[at + 1]


def begins(packet):
    """Returns whether payload_unit_start_indicator is set."""
    return bool(packet[1] & 0x40)


def payload_at(packet):
    """Returns where the payload of a packet begins, if it has one."""
    return 5 + packet[4] if packet[3] & 0x20 else 4


def pcr_of(packet):
    """Returns the PCR of a packet in units of 27 MHz; None without one."""
    if packet[3] & 0x20 and packet[4] >= 7 and packet[5] & 0x10:
        field = int.from_bytes(packet[6:12], "big")
        return (field >> 15) * 300 + (field & 0x1FF)
    return None


def changed(packet, at, byte):
    """Returns a packet with another byte at a place."""
    return packet[:at] + bytes([byte & 0xFF]) + packet[at + 1:]


def read_packet(data):
    """The fields of a packet, or the number of its refusal."""
    if data[0] != 0x47:
        return 1
    control = data[3] >> 4 & 3
    if control == 0:
        return 2
    discontinuity, clock, at = False, False, 4
    if control & 2:
        length = data[4]
        if length > (183 if control == 2 else 182):
            return 3
        at = 5 + length
        if length:
            flags, place = data[5], 6
            discontinuity, clock = flags >> 7 == 1, flags >> 4 & 1 == 1
            for mask, size in ((0x10, 6), (0x08, 6), (0x04, 1)):
                place += size if flags & mask else 0
            for mask in (0x02, 0x01):
                if flags & mask:
                    if place >= at:
                        return 4
                    place += 1 + data[place]
            if place > at:
                return 4
    return {
        "error": data[1] >> 7 == 1, "start": data[1] >> 6 & 1 == 1, "pid": pid_of(data),
        "scrambled": data[3] >> 6 != 0, "counter": data[3] & 15, "discontinuity": discontinuity,
        "payload": data[at:] if control & 1 else None, "content": data[:6] + data[12:] if clock else data,
    }


# ---- PES headers (2.4.3.6)


def stamp(data):
    return (data[0] >> 1 & 7) << 30 | data[1] << 22 | data[2] >> 1 << 15 | data[3] << 7 | data[4] >> 1


def stamp_bytes(mark, value):
    """Returns a stamp as five bytes, the first of which begins with four bits."""
    bits = mark << 36 | (value >> 30 & 7) << 33 | (value >> 15 & 0x7FFF) << 17 | (value & 0x7FFF) << 1 | 0x100010001
    return bits.to_bytes(5, "big")


def read_header(data):
    """A PES header and its size, or the number of its refusal."""
    if bytes(data[:3]) != b"\0\0\1"[: len(data)]:
        return 2
    if len(data) < 6:
        return 1
    length = data[4] << 8 | data[5]
    if data[3] in NO_FLAGS:
        return data[3], length, None, None, 6
    if len(data) < 9 or len(data) < 9 + data[8]:
        return 1
    flags, size = data[7] >> 6, data[8]
    if data[6] >> 6 != 2 or flags == 1:
        return 3
    if size < (0, 0, 5, 10)[flags] or 0 < length < 3 + size:
        return 5
    stamps = [data[9 + 5 * i: 14 + 5 * i] for i in range((0, 0, 1, 2)[flags])]
    if any(not s[i] & 1 for s in stamps for i in (0, 2, 4)):
        return 4
    stamps = [stamp(s) for s in stamps] + [None, None]
    return data[3], length, stamps[0], stamps[1], 9 + size


# ---- sections (2.4.4)


def section_size(data):
    """The size of a section at the front; None while its bytes are too few; or a refusal below 0."""
    if len(data) < 3:
        return None
    length = (data[1] & 15) << 8 | data[2]
    if length > 4093 or data[1] >> 7 and length < 9:
        return -2
    if len(data) < 3 + length:
        return None
    return -3 if data[1] >> 7 and check_word(data[: 3 + length]) else 3 + length


def descriptors(data):
    """Yields tag and body of the whole descriptors at the front of a loop."""
    while len(data) >= 2 and len(data) >= 2 + data[1]:
        yield data[0], data[2: 2 + data[1]]
        data = data[2 + data[1]:]


def loops(data, head):
    """Returns the entries of a loop: a head, whose last 12 bits count the descriptors after it; None if one does not fit."""
    entries = []
    while data:
        size = (data[head - 2] & 15) << 8 | data[head - 1] if len(data) >= head else 4096
        if len(data) < head + size:
            return None
        entries.append((data[:head], data[head: head + size]))
        data = data[head + size:]
    return entries


def associations(section):
    """Returns program_number and PID of each entry of a PAT section; number 0 is the network's."""
    return [(section[at] << 8 | section[at + 1], pid_of(section, at + 2)) for at in range(8, len(section) - 4, 4)]


def streams_of(section):
    """Yields stream_type, PID and descriptors of each entry of a PMT section, also of one whose last entry does not fit."""
    at = 12 + ((section[10] & 15) << 8 | section[11])
    while at < len(section) - 4:
        size = (section[at + 3] & 15) << 8 | section[at + 4]
        yield section[at], pid_of(section, at + 1), section[at + 5: at + 5 + size]
        at += 5 + size
