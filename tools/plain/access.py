"""Where a decoder may begin, read plainly: tools/plain-job asks it for the units of a stream, and tools/streamed-units by tools/plain-job's options."""

import re


def parts(unit):
    """What follows each start code prefix, up to three bytes of which the third is under 2 after two zeros, or the end."""
    for found in re.finditer(rb"(?=\x00\x00\x01)", unit):
        rest = unit[found.start() + 3:]
        end = re.search(rb"\x00\x00[\x00\x01]", rest)
        yield rest, rest[: end.start()] if end else rest


def has_recovery_point(nal):
    """Whether a message of an SEI NAL unit is a recovery point (ISO/IEC 14496-10, 7.3.2.3.1, D.1): payloadType 6."""
    data, at = nal[1:].replace(b"\x00\x00\x03", b"\x00\x00"), 0
    while at < len(data):
        numbers = []
        for _ in range(2):
            number = 0
            while at < len(data) and data[at] == 255:
                number, at = number + 255, at + 1
            number, at = number + (data[at] if at < len(data) else 0), at + 1
            numbers.append(number)
            if numbers == [6]:
                return True
        at += numbers[1]
    return False


def may_begin(kind, unit):
    """Whether a decoder may begin with an access unit of this stream_type."""
    found = [(rest, nal) for rest, nal in parts(unit) if rest]
    if kind in (1, 2):
        pictures = [rest for rest, _ in found if rest[0] == 0]
        return any(rest[0] == 0xB3 for rest, _ in found) and len(pictures[:1]) == 1 and len(pictures[0]) > 2 and pictures[0][2] >> 3 & 7 == 1
    if kind == 0x1B:
        types = {rest[0] & 31 for rest, _ in found}
        return 7 in types and (5 in types or any(rest[0] & 31 == 6 and has_recovery_point(nal) for rest, nal in found))
    if kind == 0x24:
        layer0 = [rest[0] >> 1 for rest, _ in found if len(rest) > 1 and rest[0] < 128 and not rest[0] & 1 and rest[1] < 8]
        return 33 in layer0 and any(16 <= number <= 23 for number in layer0)
    return False
