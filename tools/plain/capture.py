"""Which packets a capture holds, by a plain reading of all its bytes (docs/VIEW.md): packets of 188 bytes that begin where the bytes are in
step, of 192 and 204 bytes the 188 that they hold, and the bytes between packets that are in none."""

SYNC = 0x47
SIZES = {192: 4, 204: 0}


def is_sync(data, at):
    return at < len(data) and data[at] == SYNC


def in_row(data, at, size):
    """Whether three packets of a size begin one after another."""
    return all(is_sync(data, at + size * k) for k in range(3))


def size_of(data):
    """The bytes from one packet to the next."""
    if in_row(data, 0, 188):
        return 188
    return next((size for size, front in SIZES.items() if in_row(data, front, size)), 188)


def heads(data):
    """The four bytes before each packet of 192 bytes, as a number; nothing of other packets."""
    if size_of(data) != 192:
        return None
    return [int.from_bytes(data[at: at + 4], "big") for at in range(0, len(data) // 192 * 192, 192)]


def inner(data):
    """The bytes as packets of 188 bytes; of a last packet that is cut, those that are there."""
    size = size_of(data)
    if size == 188:
        return data
    return b"".join(data[at: at + 188] for at in range(SIZES[size], len(data), size))


def slip_at(data, at):
    """How many bytes are left out from a place on: 0 if a packet is there."""
    after = at + 188
    if after >= len(data) or is_sync(data, after) or in_row(data, after + 188, 188):
        return 0
    return next((size for size in range(1, 752) if size % 188 and in_row(data, at + size, 188)), 0)


def form_of(data):
    """What an input is that is no transport stream, by its first bytes."""
    front = data[:188]
    if front[4:8] == b"ftyp":
        return "mp4"
    if front.startswith(b"\x1A\x45\xDF\xA3"):
        return "matroska"
    if front.startswith(b"RIFF") and front[8:12] in (b"AVI ", b"WAVE"):
        return {b"AVI ": "avi", b"WAVE": "wav"}[front[8:12]]
    if front.startswith(b"OggS"):
        return "ogg"
    if front.startswith(b"\0\0\1\xBA"):
        return "program_stream"
    if front.startswith((b"\0\0\1", b"\0\0\0\1")):
        return "elementary_stream"
    if front.startswith((b"\xD4\xC3\xB2\xA1", b"\xA1\xB2\xC3\xD4", b"\x0A\x0D\x0D\x0A")):
        return "network_capture"
    return "text" if front and all(32 <= byte <= 126 or byte in (9, 10, 13) for byte in front) else "unknown"


def capture(data):
    """The size of packets, all packets, each slip with the number of packets before it, where it begins and its size, and how many bytes
    are left."""
    size = size_of(data)
    if size != 188:
        front, count = SIZES[size], len(data) // size
        return size, [data[at + front: at + front + 188] for at in range(0, size * count, size)], [], len(data) % size
    packets, slips, at = [], [], 0
    while len(data) - at >= 188:
        slipped = slip_at(data, at)
        if slipped:
            slips.append((len(packets), at, slipped))
            at += slipped
        else:
            packets.append(data[at: at + 188])
            at += 188
    return size, packets, slips, len(data) - at
