"""The buffers that a receiver has for a stream, by stream_type, descriptors and what its first unit says (docs/DECLARED.md): the rate
out of its transport buffer in bits a second, and its main buffer in bytes, of video the elementary stream buffer. tools/plain-job uses
it; tools/plain-view has the multiplexing buffer with it as one."""

from plain.syntax import descriptors

# level: greatest rate in bits a second, video buffer in bits (ISO/IEC 13818-2, tables 8-13 and 8-14)
MPEG2 = {10: (4_000_000, 475_136), 8: (15_000_000, 1_835_008), 6: (60_000_000, 7_340_032), 4: (80_000_000, 9_781_248)}
HIGH_MPEG2 = {8: (20_000_000, 2_441_216), 6: (80_000_000, 9_781_248), 4: (100_000_000, 12_222_464)}  # high profile, all layers
ESCAPED_MPEG2 = {0x82: (300_000_000, 47_185_920), 0x85: (50_000_000, 9_437_184)}  # 4:2:2 profile at high and at main level
# profile_idc: cpbBrNalFactor (ISO/IEC 14496-10, A.3.1, A.3.3, table A-2); 1,200 of others
AVC_FACTORS = {**dict.fromkeys((100, 83, 86, 118, 128, 134, 135, 138, 139), 1_500), 110: 3_600, **dict.fromkeys((122, 244, 44), 4_800)}
# CpbNalFactor for samples of at most 8, 10, 12 and 16 bits (ISO/IEC 23008-2, A.4.2), of profiles with flags of their limits
HEVC_FACTORS = {"400": (733, 917, 1_100, 1_467), "420": (1_100, 1_100, 1_650, 4_400), "422": (1_833, 1_833, 2_200, 4_400), "444": (2_200, 2_750, 3_300, 4_400)}
# level_idc: MaxBR, MaxCPB (ISO/IEC 14496-10, table A-1)
AVC = {10: (64, 175), 9: (128, 350), 11: (192, 500), 12: (384, 1_000), 13: (768, 2_000), 20: (2_000, 2_000), 21: (4_000, 4_000), 22: (4_000, 4_000),
       30: (10_000, 10_000), 31: (14_000, 14_000), 32: (20_000, 20_000), 40: (20_000, 25_000), 41: (50_000, 62_500), 42: (50_000, 62_500),
       50: (135_000, 135_000), 51: (240_000, 240_000), 52: (240_000, 240_000), 60: (240_000, 240_000), 61: (480_000, 480_000),
       62: (800_000, 800_000)}
# general_level_idc: the same of the high tier and of the main tier (ISO/IEC 23008-2, tables A.8 and A.9)
HIGH_TIER = {120: 30_000, 123: 50_000, 150: 100_000, 153: 160_000, 156: 240_000, 180: 240_000, 183: 480_000, 186: 800_000}
HEVC = {30: (128, 350), 60: (1_500, 1_500), 63: (3_000, 3_000), 90: (6_000, 6_000), 93: (10_000, 10_000), 120: (12_000, 12_000), 123: (20_000, 20_000),
        150: (25_000, 25_000), 153: (40_000, 40_000), 156: (60_000, 60_000), 180: (60_000, 60_000), 183: (120_000, 120_000), 186: (240_000, 240_000)}


# channels at most: rx, main
AAC = ((2, (2_000_000, 3_584)), (8, (5_529_600, 8_976)), (12, (8_294_400, 12_804)), (48, (33_177_600, 51_216)))


def mux(rate):
    """Bits of 4 ms for multiplexing, and of a 750th of a second for headers."""
    return 4 * rate // 1000 + rate // 750


def declared(rx, ebs, rbx, mbs):
    """Rx, EBS, Rbx and MBS as a description can declare them: bits a second and bytes."""
    return min(rx, 200_000_000), min(ebs // 8, 10_000_000), min(rbx, 200_000_000), min(mbs // 8, 10_000_000)


def starts(data, prefix):
    """The bytes after each place of a start code and what follows it."""
    at = data.find(prefix)
    while at >= 0:
        yield data[at + len(prefix):]
        at = data.find(prefix, at + 1)


def bits_of(data):
    return "".join(f"{byte:08b}" for byte in data)


def mpeg2_sequence(data):
    """profile_and_level_indication, bit_rate in units of 400 bits a second, vbv_buffer_size in units of 16,384 bits (ISO/IEC 13818-2, 6.2.2)."""
    header = bits_of(next(starts(data, b"\0\0\1\xB3"), b"")[:8])
    extension = bits_of(next((d for d in starts(data, b"\0\0\1\xB5") if d and d[0] >> 4 == 1), b"")[:6])
    number = lambda bits, at, size: int(bits[at: at + size], 2) if len(bits) >= at + size else 0
    indication = number(extension, 4, 8)
    rate = number(header, 32, 18) if len(header) >= 56 else 0
    rate += (number(extension, 19, 12) if len(extension) >= 32 else 0) << 18
    return indication, rate, number(header, 51, 10 if len(header) == 64 else 99) + (number(extension, 32, 8) << 10)


def mpeg2_limits(indication):
    """Rmax and VBVmax."""
    if indication & 0x80:
        return ESCAPED_MPEG2.get(indication, MPEG2[8])
    return (HIGH_MPEG2 if indication >> 4 == 1 else MPEG2).get(indication & 15, (HIGH_MPEG2 if indication >> 4 == 1 else MPEG2)[8])


class Bits:
    """Reads the elements of a raw byte sequence payload (ISO/IEC 14496-10, 7.2 and 9.1)."""

    def __init__(self, nal):
        self.text, self.at, zeros = bytearray(), 0, 0
        for byte in nal[:200_000]:
            if zeros >= 2 and byte == 3:
                zeros = 0
                continue
            zeros = 0 if byte else zeros + 1
            self.text.append(byte)
        del self.text[131_072:]

    def u(self, count):
        value = 0
        for _ in range(count):
            value = value << 1 | self.text[self.at // 8] >> (7 - self.at % 8) & 1
            self.at += 1
        return value

    def ue(self):
        zeros = 0
        while not self.u(1):
            zeros += 1
            if zeros == 32:
                raise IndexError
        return (1 << zeros) - 1 + self.u(zeros)

    def se(self):
        code = self.ue()
        return (code + 1) // 2 if code & 1 else -(code // 2)


def scaling_list(bits, size):
    last = following = 8
    for _ in range(size):
        if following:
            following = (last + bits.se() + 256) % 256
        last = following or last


def avc_cpb_size(nal):
    """CpbSize[cpb_cnt_minus1] of the HRD parameters of NAL units, in bits (ISO/IEC 14496-10, 7.3.2.1.1, E.1.1, E.1.2); 0 without."""
    bits = Bits(nal)
    try:
        profile, _, _, _ = bits.u(8), bits.u(8), bits.u(8), bits.ue()
        if profile in (100, 110, 122, 244, 44, 83, 86, 118, 128, 138, 139, 134, 135):
            chroma = bits.ue()
            if chroma == 3:
                bits.u(1)
            bits.ue(), bits.ue(), bits.u(1)
            if bits.u(1):
                for i in range(12 if chroma == 3 else 8):
                    if bits.u(1):
                        scaling_list(bits, 16 if i < 6 else 64)
        bits.ue()
        order = bits.ue()
        if order == 0:
            bits.ue()
        elif order == 1:
            bits.u(1), bits.se(), bits.se()
            frames = bits.ue()
            if frames > 255:
                return 0
            for _ in range(frames):
                bits.se()
        bits.ue(), bits.u(1), bits.ue(), bits.ue()
        if not bits.u(1):
            bits.u(1)
        bits.u(1)
        if bits.u(1):
            bits.ue(), bits.ue(), bits.ue(), bits.ue()
        if not bits.u(1):
            return 0
        if bits.u(1) and bits.u(8) == 255:
            bits.u(32)
        if bits.u(1):
            bits.u(1)
        if bits.u(1):
            bits.u(4)
            if bits.u(1):
                bits.u(24)
        if bits.u(1):
            bits.ue(), bits.ue()
        if bits.u(1):
            bits.u(65)
        if not bits.u(1):
            return 0
        schedules = bits.ue() + 1
        if schedules > 32:
            return 0
        bits.u(4)
        scale = bits.u(4)
        for _ in range(schedules - 1):
            bits.ue(), bits.ue(), bits.u(1)
        bits.ue()
        return bits.ue() + 1 << 4 + scale
    except IndexError:
        return 0


def avc_sequence(data):
    """level_idc, CpbSize and the factor of the profile; level 1b, 11 with constraint_set3_flag in the Baseline, Main and Extended profiles, is 9."""
    nal = next((d[1:] for d in starts(data, b"\0\0\1") if d and d[0] & 31 == 7), b"")
    if len(nal) < 3:
        return 0, 0, 1_200
    level = 9 if nal[2] == 11 and nal[1] & 0x10 and nal[0] in (66, 77, 88) else nal[2]
    return level, avc_cpb_size(nal), AVC_FACTORS.get(nal[0], 1_200)


def hevc_sequence(data):
    """general_level_idc, general_tier_flag, BrNalFactor and CpbNalFactor."""
    nals = (d[2:64].replace(b"\0\0\3", b"\0\0") for d in starts(data, b"\0\0\1") if len(d) > 1 and d[0] == 0x42 and d[1] < 8)
    plain = next(nals, b"")
    at = lambda place: plain[place] if len(plain) > place else 0
    size = rate = 1_100
    if at(1) & 31 in (4, 5, 9, 10, 11):
        format = "400" if at(7) & 64 else "420" if at(7) & 128 else "422" if at(6) & 1 else "444"
        size = rate = HEVC_FACTORS[format][0 if at(6) & 2 else 1 if at(6) & 4 else 2 if at(6) & 8 else 3]
        rate *= 2 if at(7) & 32 and not at(7) & 8 else 1
    return at(12), at(1) & 0x20 != 0, rate, size


def channels(data):
    """Of the first ADTS frame: channel_configuration, 7 of which are 8; where it is 0, the elements of a program_config_element."""
    at = next((i for i in range(len(data) - 3) if data[i] == 0xFF and data[i + 1] & 0xF6 == 0xF0), None)
    if at is None:
        return 0
    number = (data[at + 2] & 1) << 2 | data[at + 3] >> 6
    block = data[at + (7 if data[at + 1] & 1 else 9):][:4]
    if number == 0 and len(block) == 4 and block[0] >> 5 == 5:
        bits = int.from_bytes(block, "big")
        return sum(bits >> shift & 15 for shift in (15, 11, 7)) + (bits >> 5 & 3)
    return 8 if number == 7 else number


def kept(said, greatest, most):
    """EBS: what is said, at most the level's; that where nothing is said, or less than the greatest unit, of `most` bytes, has."""
    ebs = min(said or greatest, greatest)
    return ebs if ebs // 8 >= most else greatest


def by_rate(units, maximum, size, said, most):
    rate, greatest = max(units[0] * maximum, 2_000_000), units[1] * size
    ebs = kept(said, greatest, most)
    return declared(rate, ebs, rate, mux(rate) + greatest - ebs)


def video(kind, first, most):
    """(rx, main, rbx, mb) of video with this stream_type, first unit and greatest size of a unit; None of other streams."""
    if kind in (1, 2):
        indication, said_rate, said = mpeg2_sequence(first)
        rate, greatest = mpeg2_limits(indication)
        ebs = kept(16_384 * said, greatest, most)
        if indication == 0x82 or indication < 128 and indication & 15 in (4, 6):
            return declared(rate * 12 // 10, ebs, min(420 * said_rate or rate, rate), mux(rate))
        return declared(rate * 12 // 10, ebs, rate, mux(rate) + greatest - ebs)
    if kind == 0x1B:
        level, said, factor = avc_sequence(first)
        return by_rate((factor, factor), *AVC.get(level, AVC[40]), said, most)
    if kind == 0x24:
        level, high, *factors = hevc_sequence(first)
        if high and (level == 0 or level >= 120):
            limit = HIGH_TIER.get(level, HIGH_TIER[120])
            return by_rate(factors, limit, limit, 0, most)
        return by_rate(factors, *HEVC.get(level, HEVC[120]), 0, most)
    return None


def leak(kind, first, most):
    """The keys of a stream's multiplexing buffer, none if it is not video: 19 bytes less than MBS, for a PES packet header that the
    standard lets leave MB with the byte after it."""
    sizes = video(kind, first, most)
    return {"rbx": sizes[2], "mb": sizes[3] - 19 if sizes[3] > 19 else sizes[3]} if sizes else {}


def joined_buffers(kind, loop, number, first):
    """(rx, main) with the multiplexing buffer and the elementary stream buffer of video as one."""
    sizes = video(kind, first, 0)
    return (sizes[0], min(sizes[1] + sizes[3], 10_000_000)) if sizes else buffers(kind, loop, number, first, 0)


def buffers(kind, loop, number, first, most):
    """(rx, main) of a stream with this stream_type, descriptors, stream_id, first unit and greatest size of a unit."""
    found = dict(descriptors(loop))
    sizes = video(kind, first, most)
    if sizes:
        return sizes[:2]
    if kind == 0x21:
        said = found.get(0x32, b"")
        rate, size = (int.from_bytes(said[at : at + 4], "big") if len(said) >= 18 else 0 for at in (10, 14))
        return min(max(rate * 12 // 10, 2_000_000), 200_000_000) if rate else 200_000_000, min(size, 10_000_000) or 10_000_000
    if kind == 6 and any(tag == 5 and body[:4] == b"BSSD" for tag, body in descriptors(loop)):
        return 3_225_600 * (first[2] // 64 + 1 if len(first) > 2 else 4), 65_536
    if kind in (0x81, 0x87) or 0x6A in found or 0x7A in found:
        return 2_000_000, 5_696
    if kind == 0x0F:
        many = channels(first)
        return next(sizes for most, sizes in AAC if many <= most)
    if kind in (3, 4, 0x11):
        return 2_000_000, 3_584
    if 0x59 in found:
        return 400_000, 24_576
    if 0x56 in found:
        return 6_750_000, 1_504
    if 192 <= number <= 223:
        return 2_000_000, 3_584
    return 2_000_000, 65_536


def is_ac3(kind, loop):
    return kind in (0x81, 0x87) or any(tag in (0x6A, 0x7A) or kind == 6 and tag == 5 and body[:4] in (b"AC-3", b"EAC3") for tag, body in descriptors(loop))


def longest_stay(kind, loop):
    """The longest time in seconds that a byte may stay before its decoding time (ISO/IEC 13818-1, 2.4.2.6)."""
    stills = any(len(body) > at and tag == name and body[at] & bit for name, at, bit in ((2, 0, 1), (40, 3, 128), (56, 12, 64)) for tag, body in descriptors(loop))
    if kind in (1, 2, 0x10, 0x1B, 0x24):
        return 60 if stills else 1 if kind < 3 else 10
    return 10 if kind in (0x11, 0x1C) else 1 if kind in (3, 4, 0x0F) or is_ac3(kind, loop) else 60
