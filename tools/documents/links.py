"""links: whether what the documents point to is there.

In each document of the repository (*.md): the file and the heading of each link that leads into the repository; and in code blocks and
words in backquotes each target of `make`, each file below tools/, examples/, crates/, cases/, docs/ and bench/, and each option and word of
`tsmux`, `tsjob`, `tsremux`, `tsair` and `tsview`, as the usage text of the program has them. Prints what is not there, and how many passed."""

import re

from documents.sources import ROOT, documents

PROGRAMS = ("tsmux", "tsjob", "tsremux", "tsair", "tsview")
# What a command line may have after the name of a program beside options: its words, and names of files after them.
WORDS = {
    "tsmux": {"plan", "check", "mux", "demux", "monitor", "carry"},
    "tsjob": {"describe", "units", "why", "explain", "next"},
    "tsremux": set(),
    "tsair": set(),
    "tsview": set(),
}
FILE = re.compile(r"(?<![\w./-])((?:\.\./)*(?:tools|examples|crates|cases|docs|bench|edits)/[\w./-]*[\w-])")


def anchors(path):
    """The anchors of a document's headings, as hosts make them."""
    found = set()
    text = re.sub(r"^```.*?^```", "", path.read_text(), flags=re.M | re.S)
    for heading in re.findall(r"^#+ (.*)$", text, re.M):
        plain = re.sub(r"[`*]|\[([^\]]*)\]\([^)]*\)", r"\1", heading).strip().lower()
        found.add(re.sub(r"[^\w\- ]", "", plain).replace(" ", "-"))
    return found


def link_faults(path, text):
    for place in re.finditer(r"\]\(([^)\s]+)\)", text):
        target = place[1]
        if re.match(r"[a-z]+:", target):
            continue
        name, _, anchor = target.partition("#")
        file = (path.parent / name).resolve() if name else path
        if not file.exists():
            yield place.start(), f"no file {target}"
        elif anchor and anchor not in anchors(file):
            yield place.start(), f"no heading {target}"


def usage_of(program):
    """The options of a program, as its usage text has them; --help and -h every program knows."""
    source = (ROOT / "crates" / f"{program}_cli" / "src").rglob("*.rt")
    text = "\n".join(one.read_text() for one in source)
    short = {f"-{name}" for name in re.findall(r"\bor -([a-z]):", text)}
    return set(re.findall(r"--[a-z][a-z-]*", text)) | short | {"--help", "-h", "--version"}


def code_places(text):
    """Each piece of code of a document: lines of blocks, joined where they end with a backslash, and words in backquotes."""
    for block in re.finditer(r"^```[^\n]*\n(.*?)^```|((?:^ {4,}\S[^\n]*\n)+)", text, re.M | re.S):
        code = block[1] or block[2] or ""
        for line in re.finditer(r"(?:[^\n]*\\\n)*[^\n]*", code):
            if line[0].strip():
                yield block.start() + line.start(), line[0].replace("\\\n", " "), True
    for word in re.finditer(r"(?<!`)`([^`\n]+)`(?!`)", text):
        yield word.start(), word[1].replace("\\|", "|"), False


def commands(code):
    """The words of each command of a line of code that runs one of the programs."""
    code = re.sub(r"(?:^|\s)#.*", "", code)
    code = re.sub(r"'[^']*'", " QUOTED ", code)
    for part in re.split(r"[;&()]|(?<!\w)\|(?!\w)|\$\(", code):
        words = part.replace("[", " ").replace("]", " ").split()
        while words and (words[0] in ("$", "time", "exec") or "=" in words[0]):
            words = words[1:]
        if words and words[0].split("/")[-1] in PROGRAMS:
            yield words[0].split("/")[-1], words[1:]


def command_faults(text, options):
    for at, code, block in code_places(text):
        for program, words in commands(code):
            for word in words:
                if word in ("<", ">", "--", "..", "2>", "..."):
                    break
                option = re.match(r"-{1,2}[a-z][a-z-]*", word)
                if option and option[0] not in options[program]:
                    yield at, f"{program} has no option {option[0]}: {code.strip()}"
            first = words[0] if words else ""
            if re.fullmatch(r"[a-z]+", first) and first not in WORDS[program] and block:
                yield at, f"{program} has no word {first}: {code.strip()}"


def make_faults(text, targets):
    for at, code, _ in code_places(text):
        for place in re.finditer(r"(?:^|[;&] *)make((?: [a-z-]+(?![\w=]))+)", code):
            for target in place[1].split():
                if target not in targets:
                    yield at, f"no target of make: {target}"


def file_faults(path, text):
    for at, code, _ in code_places(text):
        for place in FILE.finditer(code):
            name = place[1].rstrip(".")
            if "CRATE" in name or "NAME" in name or "/out/" in name or name.endswith("/out") or "*" in code:
                continue
            found = [base / name for base in (ROOT, path.parent, ROOT / "crates")]
            if not any(one.exists() for one in found) and not any(ROOT.glob(f"{name.lstrip('./')}*")):
                yield at, f"no file {name}"


def main():
    targets = set(re.findall(r"^([\w-]+):", (ROOT / "Makefile").read_text(), re.M))
    options = {program: usage_of(program) for program in PROGRAMS}
    passed = failed = 0
    for path in documents():
        text = path.read_text()
        faults = [
            *link_faults(path, text),
            *command_faults(text, options),
            *make_faults(text, targets),
            *file_faults(path, text),
        ]
        for at, fault in faults:
            print(f"{path.relative_to(ROOT)}:{text.count(chr(10), 0, at) + 1}: {fault}")
        passed, failed = passed + (not faults), failed + bool(faults)
    print(f"{passed} passed, {failed} failed")
    return 1 if failed or not passed else 0
