"""plain-words [--list | --files] [TREE]: how plain the English of the repository is.

Counts two kinds of forms per 1,000 words: words that point back in place of a noun ("that of", "those", "of which"), and verbs and
phrases that a technical writer would not use ("stands", "told", "so many"). Four texts are counted: README.md; the documents; the
comments of public items and of modules; the messages, which are the string literals that hold a space. The docstrings of Python's
standard library have 1.0 and 0.3.

Each text has the same limits, and is a test of this tool. So are the verbs, with which the doc comments of public functions have to begin
("Returns", "Writes"; 4 in 1,000 may begin otherwise), and the lengths, in words as `wc -w` counts them: README at most 90 lines; a page for users at
most 1,500 words, except messages, keys and bytes (LONG has them, and the pages for developers); README and docs/ together at most 49,000 words. What makes a test of the sources fail is printed with
file and line, and at last how many tests passed. With --list each place in the documents is printed, and with --files the counts of each."""

import re
import sys
from pathlib import Path

from documents.sources import ROOT

BACK = (
    r"\b(that of|those|one of|ones? that|of which|by which|in which|with which|from which|to which|what is|the others?"
    r"|the same of|of several|where there (?:is|are) (?:none|one))\b"
)
ODD = (
    r"\b(stands?|stood|told|tells?|so many|goes on|comes? (?:of|to|in|out|with)|holds? of|counts? for|is said|anew|wanting|want of"
    r"|cut down|under way|is none of|counts as|else (?:the|a)|hears?|heard)\b"
)
LINES, PAGE, WHOLE, VERBLESS = 90, 1500, 49_000, 4.0
LONG = {"MESSAGES.md", "DESCRIPTION.md", "REFUSALS.md", "FORMATS.md", "VIEW_LINES.md", "PROVED.md", "DECISIONS.md", "TIMING.md", "ARCHITECTURE.md", "CONTRIBUTING.md"}
FORMS = {"pointing back": (BACK, 3.0), "odd verbs": (ODD, 2.0)}
# Words that end in "s" and begin a comment as nouns.
NOUNS = (
    "Its This Bytes Departures Events Fields Findings Inputs Lines Numbers Others Packets Parts Payloads Programs Rows Sections Slots Streams"
    " Ticks Units Values Words"
).split()
VERB = re.compile(rf"(?!(?:{'|'.join(NOUNS)})\b)[A-Z][a-z]+s\b(?! (?:of|are)\b)")
PUBLIC = re.compile(r"\s*pub\b(?!\()")
# A module's comment, or the comment of an item, with the line that follows it and its attributes.
COMMENT = re.compile(r"((?:^[ \t]*//[/!].*\n)+)((?:^[ \t]*#\[.*\n)*^.*$)", re.M)


def blanked(text, form):
    """The text with each place of the form blank, and its lines as they were."""
    return re.sub(form, lambda place: re.sub(r"[^\n]", " ", place[0]), text, flags=re.M | re.S)


def prose(text):
    """The text without generated parts, fenced and indented code, words in backquotes and addresses."""
    text = blanked(text, r"<!-- (\w+): tools/docs crate-map --write -->.*?<!-- end of \1 -->")
    text = blanked(text, r"^```.*?^```")
    text = blanked(text, r"<!--.*?-->")
    text = re.sub(r"^ {4}.*$", "", text, flags=re.M)
    return blanked(blanked(text, r"`[^`\n]*`"), r"https?://\S+")


def line_of(text, position):
    return text.count("\n", 0, position) + 1


def document(text):
    """The whole, as one piece: a line and the prose from there on."""
    return [(1, prose(text))]


def comments(text):
    """Each comment of the module or of an item: its line, its text, and the first line of the item, which is empty for a module."""
    for place in COMMENT.finditer(text):
        item = "" if "//!" in place[1] else place[2].split("\n")[-1]
        yield line_of(text, place.start()), re.sub(r"^[ \t]*//[/!] ?", "", place[1], flags=re.M), item


def public_comments(text):
    """The comments of the module and of public items."""
    return [(line, prose(comment)) for line, comment, item in comments(text) if not item or PUBLIC.match(item)]


def messages(text):
    """The string literals that hold a space."""
    code = blanked(text, r"^\s*//.*?$")
    return [(line_of(code, one.start()), one[1]) for one in re.finditer(r'"((?:[^"\\]|\\.)*)"', code) if " " in one[1].strip()]


def function_comments(text):
    """The doc comments of public functions: the line, the first words, and whether they begin with a verb."""
    for line, comment, item in comments(text):
        if PUBLIC.match(item) and re.search(r"\bfn\b", item):
            yield line, " ".join(comment.split()[:6]), bool(VERB.match(comment))


def word_count(text):
    return len(re.findall(r"[A-Za-z][A-Za-z'-]*", text))


def per_thousand(text):
    words = word_count(text) or 1
    return [1000 * len(re.findall(form, text, flags=re.I)) / words for form, _ in FORMS.values()]


def document_files(root):
    """The documents, without the README of the repository."""
    found = [root / "CONTRIBUTING.md", root / "CHANGES.md", root / "cases" / "README.md", root / "tools" / "README.md"]
    return [one for one in found if one.is_file()] + sorted(root.glob("docs/**/*.md")) + sorted(root.glob("examples/**/*.md"))


def places(name, pieces):
    """Each place of a form in the pieces of a file, as FILE:LINE: the words."""
    for first, text in pieces:
        for kind, (form, _) in FORMS.items():
            for place in re.finditer(form, text, flags=re.I):
                yield f"{name}:{first + line_of(text, place.start()) - 1}: {kind}: {' '.join(place[0].split())}"


def length_faults(root, readme, documents):
    """What is too long."""
    if (lines := len(readme.read_text().splitlines())) > LINES:
        yield f"README.md: {lines} lines, more than {LINES}"
    words = {path: len(path.read_text().split()) for path in [readme, *documents]}
    for path, count in words.items():
        if count > PAGE and path.name not in LONG:
            yield f"{path.relative_to(root)}: {count} words, more than {PAGE}"
    whole = sum(count for path, count in words.items() if path == readme or root / "docs" in path.parents)
    if whole > WHOLE:
        yield f"README and docs: {whole} words, more than {WHOLE}"


def row(name, text):
    """A line of the table, and whether the text is within its limits."""
    figures, limits = per_thousand(text), [limit for _, limit in FORMS.values()]
    good = all(figure <= limit for figure, limit in zip(figures, limits))
    verdict = "within its limit" if good else "over its limit"
    return f"{name:24} {word_count(text):7} {figures[0]:14.1f} {figures[1]:10.1f}  {verdict}", good


def main():
    words = sys.argv[1:]
    options = {word for word in words if word.startswith("--")}
    trees = [word for word in words if not word.startswith("--")]
    root = Path(trees[0]) if trees else ROOT
    readme, documents = root / "README.md", document_files(root)
    if "--list" in options:
        for path in [readme, *documents]:
            name = path.relative_to(root)
            print("\n".join(places(name, document(path.read_text()))) or f"{name}: no place")
        return 0
    limits = [limit for _, limit in FORMS.values()]
    print(f"{'per 1,000 words':24} {'words':>7} {'pointing back':>14} {'odd verbs':>10}  (limits {limits[0]:.0f} and {limits[1]:.0f})")
    if "--files" in options:
        for path in [readme, *documents]:
            print(row(str(path.relative_to(root)), prose(path.read_text()))[0])
        return 0
    sources = sorted(root.glob("crates/*/src/**/*.rt"))
    texts = {"README": ([readme], document), "documents": (documents, document)}
    texts |= {"comments, public": (sources, public_comments), "messages": (sources, messages)}
    passed, faults = [], []
    for name, (paths, pieces_of) in texts.items():
        pieces = {path: list(pieces_of(path.read_text())) for path in paths}
        line, good = row(name, "\n".join(text for found in pieces.values() for _, text in found))
        print(line)
        passed.append(good)
        if not good and paths is sources:
            faults += [place for path, found in pieces.items() for place in places(path.relative_to(root), found)]
    functions = [(path, *found) for path in sources for found in function_comments(path.read_text())]
    verbs = [f"{path.relative_to(root)}:{line}: no verb: {first}" for path, line, first, begins_well in functions if not begins_well]
    if 1000 * len(verbs) <= VERBLESS * len(functions):
        verbs = []
    lengths = list(length_faults(root, readme, documents))
    passed += [not verbs, not lengths]
    print("\n".join(faults + verbs + lengths + [f"{sum(passed)} passed, {len(passed) - sum(passed)} failed"]))
    return 0 if all(passed) else 1
