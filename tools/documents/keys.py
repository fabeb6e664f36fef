"""keys [--check | --write | --list]: the tables of keys in docs/DESCRIPTION.md, from the rows of crates/description_keys/src/keys.rt.

Each row of a table begins with the number and the name of a key, and its text has the key's range and default, which the rows have. The
sentences beside them are the document's. --check asks whether each key has its row, in the order of the rows, with its range and its default, and
whether the comments that `tsjob describe` writes beside numbers (crates/job_text/src/measure.rt) have the units of the rows.
--write puts the numbers, the ranges and the defaults of the rows into the tables. --list prints the rows."""

import re
import sys

from documents.sources import ROOT

ROWS = ROOT / "crates/description_keys/src/keys.rt"
MEASURES = ROOT / "crates/job_text/src/measure.rt"
DOCUMENT = ROOT / "docs/DESCRIPTION.md"
ROW = re.compile(r'\bRow\(\s*(\w+),\s*(\d+),\s*"(\w+)",\s*(\w+)(?:\(([^)]*)\))?,\s*"([^"]*)",?\s*\)')
LINE = re.compile(r"\| (\d+) \| `(?:network\.)?(\w+)` \| (.*) \|")
HEAD = re.compile(r"`\[\[(?:network\.)?(\w+)\]\]` \((\d+): an array of (?:(\d+) to|up to) (\d+) tables(?:, with `transponder` to ([\d,]+))?")
NUMBER = r"(?:2\^\d+ - 1|\d+(?:,\d{3})*)"
RANGE = re.compile(rf"{NUMBER} to {NUMBER}")
# What the text of a key of a kind without numbers has, and its default.
WORDS = {
    "Pid": ("PID", None),
    "Moment": ("time", None),
    "Flag": ("true or false", "{0}"),
    "TextOrEmpty": ("text of up to {0} bytes", "empty"),
    "LanguageIfAny": ("three ASCII letters", "absent"),
    "Descriptors": ("hex of up to {0} bytes", "none"),
    "Sections": ("1 to 8 strings of hex", None),
    "Owner": ("the number of a declared program", None),
    "OneTable": ("a table", "absent"),
}


# The unit in the words of a row whose number has a comment of this measure.
UNITS = {"Ticks": "units of 90 kHz", "Clock": "units of 90 kHz", "BitRate": "bits a second", "Bytes": "bytes", "Milliseconds": "ms", "Seconds": "seconds"}


def number(n):
    return f"2^{n.bit_length()} - 1" if n > 2**32 and n & (n + 1) == 0 else f"{n:,}"


def rows():
    """(part, number, name, kind, numbers) of each key."""
    text = ROWS.read_text(encoding="utf-8")
    text = text[text.index("KEYS: ["):]
    for part, code, name, kind, values, words in ROW.findall(text):
        numbers = [int(it.replace("_", ""), 0) for it in values.split(",")] if re.match(r"[\d\s]", values) else [values]
        yield part, int(code), name, kind, numbers, words


def measure_faults(keys):
    """The names in measure.rt for which no key of that name has the unit in its words."""
    for names, measure in re.findall(r"&\[([^]]*)\]\) \{\s*Measure::(\w+)", MEASURES.read_text(encoding="utf-8")):
        for name in re.findall(r'"(\w+)"', names):
            if not any(key[2] == name and UNITS.get(measure, "") in key[5] for key in keys):
                yield f"{name}: no key of this name has `{UNITS[measure]}` in its words"


def expected(kind, numbers):
    """The range and the default in a key's text; None for what only its sentence says."""
    if kind in ("Number", "NumberIfAny"):
        return f"{number(numbers[0])} to {number(numbers[1])}", "absent" if kind == "NumberIfAny" else None
    if kind == "NumberOr":
        return f"{number(numbers[1])} to {number(numbers[2])}", number(numbers[0])
    said, default = WORDS.get(kind, (None, None))
    return said and said.format(*numbers), default and default.format(*numbers)


def mended(text, kind, numbers):
    """The text with the range and the default of its row."""
    said, default = expected(kind, numbers)
    if kind.startswith("Number"):
        text = RANGE.sub(said, text, count=1)
    if kind == "NumberOr":
        text = re.sub(rf"; {NUMBER}$", f"; {default}", text)
    return text


def main():
    word = (sys.argv[1:] or ["--check"])[0]
    keys = list(rows())
    if word == "--list":
        for part, code, name, kind, numbers, _words in keys:
            print(code, part, name, kind, *numbers)
        return 0
    text = DOCUMENT.read_text(encoding="utf-8")
    if word == "--write":
        by_code = {key[1]: key for key in keys}

        def line(found):
            key = by_code.get(int(found[1]))
            return found[0] if key is None else found[0].replace(found[3], mended(found[3], key[3], key[4]))

        DOCUMENT.write_text(LINE.sub(line, text), encoding="utf-8")
        return 0
    lines = {int(code): (name, said) for code, name, said in LINE.findall(text)}
    heads = {int(code): (name, int(low or 0), int(high), int((more or high).replace(",", ""))) for name, code, low, high, more in HEAD.findall(text)}
    faults = list(measure_faults(keys))
    for part, code, name, kind, numbers, _words in keys:
        if kind == "Tables":
            if heads.get(code) != (name, *numbers):
                faults.append(f"{code} [[{name}]]: {heads.get(code)} is not {(name, *numbers)}")
            continue
        if code not in lines or lines[code][0] != name:
            faults.append(f"{code} {name}: no row")
            continue
        said, default = expected(kind, numbers)
        if said and said not in lines[code][1]:
            faults.append(f"{code} {name}: `{said}` is not in its text")
        if default and not re.search(rf"; {re.escape(default)}$", lines[code][1]):
            faults.append(f"{code} {name}: its text does not end with `; {default}`")
    for code in set(lines) - {key[1] for key in keys}:
        faults.append(f"{code} {lines[code][0]}: no such key")
    listed = [int(code) for code in re.findall(r"^\| (\d+) \| `", text, re.M)]
    wanted = [key[1] for key in keys if key[3] != "Tables"]
    if not faults and listed != wanted:
        faults.append(f"the rows of the tables have another order: {listed}")
    for fault in faults:
        print(f"keys: {fault}")
    print(f"{max(0, len(keys) - len(faults))} passed, {len(faults)} failed")
    return 1 if faults else 0
