"""The frames of sound in units, by their headers: a plain reading of ISO/IEC 11172-3 and 13818-3 (layers I to III), 13818-7 (ADTS), 14496-3
(AudioSyncStream) and ETSI TS 102 366 (AC-3, Enhanced AC-3), written here apart from the proved one."""

LAYER_RATES = {(1, 3): range(0, 480, 32), (1, 2): [0, 32, 48, 56, 64, 80, 96, 112, 128, 160, 192, 224, 256, 320, 384],
               (1, 1): [0, 32, 40, 48, 56, 64, 80, 96, 112, 128, 160, 192, 224, 256, 320],
               (0, 3): [0, 32, 48, 56, 64, 80, 96, 112, 128, 144, 160, 176, 192, 224, 256]}
LOW_RATES = [0, 8, 16, 24, 32, 40, 48, 56, 64, 80, 96, 112, 128, 144, 160]
AAC = [96000, 88200, 64000, 48000, 44100, 32000, 24000, 22050, 16000, 12000, 11025, 8000, 7350]
AC3_RATES = [32, 40, 48, 56, 64, 80, 96, 112, 128, 160, 192, 224, 256, 320, 384, 448, 512, 576, 640]
AC3 = [48000, 44100, 32000]


def bits(data, first, count):
    return int.from_bytes(data[:8].ljust(8, b"\0"), "big") >> (64 - first - count) & (1 << count) - 1


def named(table, index):
    return table[index] if index < len(table) else 0


def frame(size, samples, frequency):
    """The bytes of a frame and its time in units of 90 kHz, rounded up; None where one of the numbers is reserved."""
    return (size, -(-samples * 90_000 // frequency)) if size and frequency else None


def layer(data):
    if bits(data, 0, 12) != 0xFFF or len(data) < 3 or not bits(data, 13, 2):
        return None
    id, number, padding = bits(data, 12, 1), bits(data, 13, 2), bits(data, 22, 1)
    rate = 1000 * named(LAYER_RATES.get((id, number), LOW_RATES), bits(data, 16, 4))
    frequency = named([44100, 48000, 32000], bits(data, 20, 2)) // (2 - id)
    if not rate or not frequency:
        return None
    if number == 3:
        return frame((12 * rate // frequency + padding) * 4, 384, frequency)
    low = id == 0 and number == 1
    return frame((72 if low else 144) * rate // frequency + padding, 576 if low else 1152, frequency)


def adts(data):
    if bits(data, 0, 12) != 0xFFF or bits(data, 13, 2) or len(data) < 7:
        return None
    return frame(bits(data, 30, 13), 1024 * (bits(data, 54, 2) + 1), named(AAC, bits(data, 18, 4)))


def loas(data):
    if bits(data, 0, 11) != 0x2B7 or len(data) < 7:
        return None
    size = 3 + bits(data, 11, 13)
    if bits(data, 24, 1):
        return size, 0
    if bits(data, 25, 1) or bits(data, 40, 5) == 31:
        return None
    return frame(size, 1024 * (bits(data, 27, 6) + 1), named(AAC, bits(data, 45, 4)))


def ac3(data):
    if bits(data, 0, 16) != 0x0B77 or len(data) < 6:
        return None
    fscod, code = bits(data, 32, 2), bits(data, 34, 2)
    if bits(data, 40, 5) <= 10:
        rate, odd = named(AC3_RATES, bits(data, 34, 5)), bits(data, 39, 1)
        words = rate * 1000 * 1536 // (16 * AC3[fscod]) + (odd if fscod == 1 else 0) if rate and fscod < 3 else 0
        return frame(2 * words, 1536, named(AC3, fscod))
    if bits(data, 16, 2) == 1 or bits(data, 18, 3):
        return None
    blocks = 6 if fscod == 3 else [1, 2, 3, 6][code]
    return frame(2 * (bits(data, 21, 11) + 1), 256 * blocks, named([24000, 22050, 16000], code) if fscod == 3 else AC3[fscod])


def framing(header, units):
    """The most frames of a unit, the longest time of one, the greatest that is not the first of its unit; None where a unit is no whole frames."""
    most = time = largest = 0
    for unit in units:
        count = 0
        while unit:
            found = header(unit)
            if not found or len(unit) < found[0]:
                return None
            largest, time = max(largest, found[0] if count else 0), max(time, found[1])
            unit, count = unit[found[0]:], count + 1
        most = max(most, count)
    return {"frames": most, "frame": time, "frame_size": largest}


def crosses(header, units):
    """Whether a frame begins in the first of two units and ends in the second, before another frame that ends there too, and a third."""
    one, more = units if len(units) == 2 else (b"", b"")
    whole = one + more
    for at in range(max(0, len(one) - 8194), len(one)):
        places = [at]
        while len(places) < 4 and (found := header(whole[places[-1]:])) and found[0] >= 7:
            places.append(places[-1] + found[0])
        if len(places) > 2 and places[1] > len(one) and places[2] < len(whole):
            return True
    return False


class Walk:
    """The frames of units whose bytes come one by one: where each begins, and how long after the first of its unit it is due."""

    def __init__(self, header):
        self.header, self.text, self.left, self.time, self.ahead = header, None, 0, 0, 0

    def begin(self):
        self.text, self.left, self.ahead = b"", None, 0

    def take(self, byte):
        """A byte of a unit: the time after its first frame at which a frame is due that begins with it, None where none does."""
        begun = None
        if self.text is None:
            return None
        if self.left == 0:
            self.ahead += self.time
            self.text, self.left, begun = b"", None, self.ahead
        if self.left is None:
            self.text += bytes([byte])
            if len(self.text) == 7:
                found = self.header(self.text)
                if not found or found[0] < 7:
                    self.text = None
                else:
                    self.left, self.time = found[0] - 7, found[1] or self.time
        else:
            self.left -= 1
        return begun


def header_of(kind, is_ac3):
    """How the header of a frame of a stream of this stream_type is read; None where it is no sound with frames."""
    return {3: layer, 4: layer, 0x0F: adts, 0x11: loas}.get(kind) or (ac3 if is_ac3 else None)
