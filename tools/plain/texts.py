"""Texts of service information as characters (EN 300 468, annex A), read plainly: parts of ISO/IEC 8859 by Python's codecs, ISO/IEC 6937 by
the names of characters in Unicode. stream.py uses it. U+FFFD stands for what can't be read."""

import unicodedata

UNREAD = "\uFFFD"
# ISO/IEC 6937 from 0xA0 on, without its diacritical marks, 0xC1 to 0xCF; EN 300 468 has the euro sign at 0xA4 (figure A.1)
SINGLE = {
    0xA0: "\u00A0\u00A1\u00A2\u00A3\u20AC\u00A5\uFFFD\u00A7\u00A4\u2018\u201C\u00AB\u2190\u2191\u2192\u2193",
    0xB0: "\u00B0\u00B1\u00B2\u00B3\u00D7\u00B5\u00B6\u00B7\u00F7\u2019\u201D\u00BB\u00BC\u00BD\u00BE\u00BF",
    0xD0: "\u2015\u00B9\u00AE\u00A9\u2122\u266A\u00AC\u00A6\uFFFD\uFFFD\uFFFD\uFFFD\u215B\u215C\u215D\u215E",
    0xE0: "\u2126\u00C6\u0110\u00AA\u0126\uFFFD\u0132\u013F\u0141\u00D8\u0152\u00BA\u00DE\u0166\u014A\u0149",
    0xF0: "\u0138\u00E6\u0111\u00F0\u0127\u0131\u0133\u0140\u0142\u00F8\u0153\u00DF\u00FE\u0167\u014B\u00AD",
}
# the marks, as they stand alone and as they are combined
MARKS = {0xC1: "\u0060\u0300", 0xC2: "\u00B4\u0301", 0xC3: "\u005E\u0302", 0xC4: "\u007E\u0303", 0xC5: "\u00AF\u0304", 0xC6: "\u02D8\u0306", 0xC7: "\u02D9\u0307",
         0xC8: "\u00A8\u0308", 0xCA: "\u02DA\u030A", 0xCB: "\u00B8\u0327", 0xCD: "\u02DD\u030B", 0xCE: "\u02DB\u0328", 0xCF: "\u02C7\u030C"}


def of_bytes(data, codec):
    """Byte by byte; of a table that is not read, without a codec, ASCII."""
    def one(byte):
        if byte < 0xA0:
            return chr(byte)
        return bytes([byte]).decode(codec, "replace") if codec else UNREAD
    return "".join(map(one, data))


def part(number, data):
    return of_bytes(data, f"iso8859_{number}" if number in range(1, 16) and number != 12 else None)


def default(data):
    """ISO/IEC 6937: a diacritical mark stands before its letter."""
    text, at = "", 0
    while at < len(data):
        byte, letter = data[at], data[at + 1: at + 2].decode("latin-1")
        if 0xC1 <= byte <= 0xCF:
            alone, mark = MARKS.get(byte, (UNREAD, None))
            both = alone if letter == " " else unicodedata.normalize("NFC", letter + mark) if mark and letter.isascii() and letter.isalpha() else UNREAD
            text, at = text + (both if len(both) == 1 else UNREAD), at + 2
        else:
            text, at = text + (chr(byte) if byte < 0xA0 else SINGLE.get(byte & 0xF0, UNREAD * 16)[byte & 15]), at + 1
    return text


def wide(data):
    pairs = [data[at: at + 2] for at in range(0, len(data), 2)]
    return "".join(UNREAD if len(p) < 2 or p[0] >> 3 == 0x1B else chr(p[0] << 8 | p[1]) for p in pairs)


def utf8(data, otherwise):
    try:
        return data.decode("utf-8")
    except UnicodeDecodeError:
        return otherwise(data)


def characters(data):
    if not data or data[0] >= 0x20:
        return utf8(data, default)
    first, rest = data[0], data[1:]
    if first == 0x15:
        return utf8(rest, lambda text: of_bytes(text, None))
    if first == 0x11:
        return wide(rest)
    if first == 0x10:
        return part(rest[1], rest[2:]) if len(rest) > 1 and rest[0] == 0 else of_bytes(rest[2:] if len(rest) > 1 else rest, None)
    return part(first + 4 if 1 <= first <= 11 else 0, rest)


def shown(data):
    """Without control characters, those of two bytes too, and a question mark for what can't be read."""
    plain = (chr(ord(c) - 0xE000) if 0xE080 <= ord(c) < 0xE0A0 else c for c in characters(data))
    return "".join(c.replace(UNREAD, "?") for c in plain if ord(c) >= 0x20 and not 0x7F <= ord(c) <= 0x9F)
