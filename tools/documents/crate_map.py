"""crate-map [--picture | --table | --write | --check | --above [CRATE..]]: the layers of crates, drawn from crates.txt.

A layer is a comment of crates.txt with the crates below it; the first words of the comment, up to a colon or a comma, name it. The picture
has the highest layer first, and a line down from a layer to each one that it uses; a line that others imply is left out. The table has, by
layer, each crate and the first sentence of its src/lib.rt (or main.rt).

--write puts the picture and the names of the crates, by layer, between the markers of docs/ARCHITECTURE.md, and --check asks whether they are there
as they would be written; it prints how many of the two passed.

--above says what a change of a crate costs: how many crates have it below them, and the minutes of processor time that its own proof and tests
and theirs take by docs/GATE.md; of each crate, the dearest first, or of those that are named."""

import re
import sys
import textwrap

from documents.sources import ROOT, Crates, seconds_of, title

DOCUMENT = ROOT / "docs" / "ARCHITECTURE.md"
WIDTH = 32
MOST_WORDS = 20


def costs(crates, names):
    """Of each crate how many stand above it, and the minutes that a change of it costs."""
    seconds = seconds_of(crates.uses)
    found = [(sum(seconds[one] for one in crates.above(name)) / 60, len(crates.above(name)) - 1, name) for name in names]
    return "\n".join(f"{name}: {count} crates above, {minutes:.0f} minutes" for minutes, count, name in sorted(found, reverse=True))


def rails(spans, rows):
    """A column for each line down, so that no two share a row of a column: spans are (from row, to row)."""
    columns = []
    for span in sorted(spans, key=lambda one: (one[1] - one[0], one[0])):
        for column in columns:
            if all(span[1] < other[0] or other[1] < span[0] for other in column):
                column.append(span)
                break
        else:
            columns.append([span])
    return columns


def picture(crates):
    """The layers, the highest first, with lines down from each to those that it uses."""
    edges, up = crates.edges()
    text, leaves, enters = [], {}, {}
    for layer in reversed(crates.layers):
        enters[layer] = len(text)
        text.append(title(layer).ljust(WIDTH))
        leaves[layer] = len(text)
        text.append("─" * WIDTH)
    spans = [(leaves[layer], enters[one]) for layer in crates.layers for one in edges[layer]]
    columns = rails(spans, len(text))
    grid = [[" "] * (2 * len(columns) + 1) for _ in text]
    for number, column in enumerate(columns):
        at = 2 * number + 1
        for start, end in column:
            for row in range(start, end + 1):
                grid[row][at] = "┼" if grid[row][at] == "─" else "│"
            for row, corner in ((start, "┐"), (end, "┘")):
                for left in range(at):
                    grid[row][left] = {"│": "┼", "┘": "┴", "┐": "┬"}.get(grid[row][left], "─")
                grid[row][at] = corner
            grid[end][0] = "◄"
    lines = [(line + "".join(grid[row])).rstrip() for row, line in enumerate(text)]
    if up:
        lines += ["", "Against this order: " + ", ".join(f"{name} uses {one}" for name, one in up) + "."]
    return "\n".join(lines)


def first_sentence(name):
    """The first sentence of the comment of a crate's lib.rt or main.rt, at most so many words, as an entry of the table."""
    source = ROOT / "crates" / name / "src"
    text = (source / ("lib.rt" if (source / "lib.rt").is_file() else "main.rt")).read_text()
    comment = " ".join(re.match(r"(?:^//!.*\n)*", text, re.M)[0].replace("//!\n", "//! \n").split("//! \n")[0].replace("//!", "").split())
    sentence = re.match(r".*?[.](?= [A-Z`\[]|$)|.*", comment)[0].rstrip(".")
    sentence = re.sub(r"\s*\([^()]*(?:ISO/IEC|ETSI|EN 300|TR 101)[^()]*\)", "", sentence)
    words = re.sub(r"\[(`[^`]*`)\]", r"\1", sentence).replace("|", "/").split()
    if len(words) <= MOST_WORDS:
        return " ".join(words)
    short = " ".join(words[:MOST_WORDS])
    for mark in (": ", "; ", ", "):
        if short.find(mark) > len(short) // 4:
            return short[: short.find(mark) if mark == ": " else short.rfind(mark)]
    return short + " .."


def table(crates):
    """By layer: each crate, and what it is."""
    parts = []
    for layer in crates.layers:
        parts.append(f"**{title(layer)[0].upper()}{title(layer)[1:]}**\n")
        parts[-1] += "".join(f"\n- `{name}`: {first_sentence(name)}" for name in crates.crates[layer])
    return "\n\n".join(parts)


def names(crates):
    """By layer the names of the crates."""
    parts = []
    for layer in crates.layers:
        line = f"- {title(layer)}: " + ", ".join(f"`{name}`" for name in crates.crates[layer])
        parts.append(textwrap.fill(line, 145, subsequent_indent="  ", break_on_hyphens=False))
    return "\n".join(parts)


def places(crates):
    return {"picture": "```\n" + picture(crates) + "\n```", "names": names(crates)}


def marked(name):
    return re.compile(rf"(<!-- {name}: tools/docs crate-map --write -->\n).*?(<!-- end of {name} -->)", re.S)


def main():
    crates = Crates()
    words = sys.argv[1:] or ["--picture"]
    if words == ["--picture"]:
        print(picture(crates))
    elif words == ["--table"]:
        print(table(crates))
    elif words[0] == "--above" and set(words[1:]) <= set(crates.uses):
        print(costs(crates, words[1:] or crates.uses))
    elif words == ["--write"]:
        text = DOCUMENT.read_text()
        for name, content in places(crates).items():
            text = marked(name).sub(lambda place: place[1] + content + "\n" + place[2], text)
        DOCUMENT.write_text(text)
    elif words == ["--check"]:
        text = DOCUMENT.read_text()
        passed = failed = 0
        for name, content in places(crates).items():
            found = marked(name).search(text)
            if found and found[0] == found[1] + content + "\n" + found[2]:
                passed += 1
            else:
                failed += 1
                print(f"docs/ARCHITECTURE.md: the {name} of crates is not what tools/docs crate-map --write puts there")
        print(f"{passed} passed, {failed} failed")
        return 1 if failed else 0
    else:
        print(__doc__, file=sys.stderr)
        return 2
    return 0
