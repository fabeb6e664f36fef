"""claims [--list]: whether each claim of README and docs/PROVED.md still has its clause in the sources.

A claim is a row of a table of docs/PROVED.md whose second column is headed "Crate, call" or "Law", or a line `<!-- claim: .. -->` of
README.md, which holds such a second column and a third one with a bar between them. The columns are read so:

    `crate` `call`, `call`: `clause`, `clause`; `call`     each name in backquotes; a crate counts until the next one is named
    `Spec.definition`, `crate`'s `Spec`, `definition`      files of specs/ and definitions in them
    `wrong_body`                                           an edit of edits/ or of a crate's must-fail/, where there is a fourth column

A call is a function, type, module or constant of the crate's src; `Type::call` is one of an impl of that type. A clause is an `ensures` or
`requires` of that name on each call before the colon; if the call is a type, a function of that type. Names with ".." are abbreviations, and
are not looked for.

docs/PROVED.md also has to have a section for each layer of crates.txt except the tests, in their order, and each row in the section of its
first crate.

Prints each name that the sources no longer have, each row in another section, and how many claims passed. --list prints each claim with its place in the sources."""

import re
import sys

from documents.sources import ROOT, Crates, title

NAME = re.compile(r"`([^`]*)`('s)?")
CLAUSE = r"\b(?:ensures|requires)\*?\s+{}\s*\{{"
OWNER = re.compile(r"^(?:impl\b.*?\b(\w+)(?:<[^{]*>)?\s*(?:where\b.*)?\{|(?:pub )?trait (\w+))", re.M)
ITEM = r"\b(?:fn|struct|enum|trait|type|const|mod|union)\s+{}\b"


class Source:
    """The sources of a crate, read once: its code, its definitions, and the contracts of its functions."""

    def __init__(self, name):
        folder = ROOT / "crates" / name
        self.code = {one: one.read_text() for one in sorted((folder / "src").rglob("*.rt"))}
        self.specs = {one: one.read_text() for one in sorted((folder / "specs").rglob("*.antt"))}

    def item(self, name):
        """The file that has a function, type or module of this name, or that is named as the module."""
        owner, _, last = name.rpartition("::")
        if owner[:1].isupper() and not any(self.contracts(name)):
            return None
        for path, text in self.code.items():
            if path.stem == last or re.search(ITEM.format(re.escape(last)), text):
                return path
        return None

    def contracts(self, name):
        """The type, or "", and the text up to its body, of each function of this name; with `Type::`, of that type alone."""
        owner, _, last = name.rpartition("::")
        for text in [one for one in self.code.values() if f"fn {last}" in one]:
            for place in re.finditer(rf"^([ \t]*).*\bfn {re.escape(last)}\b", text, re.M):
                ends = re.compile(rf"^{place[1]}[{{}}]|;$", re.M).search(text, place.end())
                owners = list(OWNER.finditer(text, 0, place.start())) if place[1] else []
                of = owners[-1][1] or owners[-1][2] if owners else ""
                if of == owner or not owner[:1].isupper():
                    yield of, text[place.start() : ends.start() if ends else len(text)]

    def lacking(self, item, names):
        """The first of these clauses that a call lacks, or the first function that a type lacks; None if it has all."""
        contracts = [text for _, text in self.contracts(item)]
        if not contracts:
            return next((name for name in names if item not in [of for of, _ in self.contracts(name)]), None)
        least = [[name for name in names if not re.search(CLAUSE.format(re.escape(name)), text)] for text in contracts]
        return min(least, key=len)[0] if min(least, key=len) else None

    def invariant(self, name):
        return any(re.search(rf"\bghost\s+(?:invariant\s+)?{re.escape(name)}\b|\binvariant\s+{re.escape(name)}\b", text) for text in self.code.values())

    def definition(self, name):
        """The file of specs/ or proofs that this names: Spec, Spec.definition, or a definition."""
        spec, _, term = name.partition(".")
        for path, text in self.specs.items():
            if path.stem == spec and (not term or re.search(rf"(?<![\w]){re.escape(term)}(?![\w])", text)):
                return path
        if not term:
            for path, text in {**self.specs, **self.code}.items():
                if re.search(rf"(?<![\w]){re.escape(name)}(?![\w])", text):
                    return path
        return None


class Sources:
    def __init__(self):
        self.names = {one.name for one in (ROOT / "crates").iterdir() if one.is_dir()}
        self.read = {}
        self.edits = {one.stem for one in ROOT.glob("edits/*/*.edit")} | {one.stem for one in ROOT.glob("crates/*/must-fail/*")}

    def of(self, name):
        if name not in self.read:
            self.read[name] = Source(name)
        return self.read[name]


def rows(text):
    """The cells of each row of the tables of claims, with the line."""
    claims = False
    for number, line in enumerate(text.splitlines(), 1):
        if not line.startswith("|"):
            claims = False
            continue
        cells = [cell.strip() for cell in re.split(r"(?<!\\)\|", line)[1:-1]]
        if len(cells) > 2 and cells[1] in ("Crate, call", "Law"):
            claims = True
        elif claims and not set("".join(cells)) <= set("-: "):
            yield number, cells


def section_faults(sources):
    """The sections of docs/PROVED.md that are no layers or in another order, and the rows of other sections."""
    known, found = {title(layer): names for layer, names in Crates().crates.items()}, []
    for section in re.split(r"^## ", (ROOT / "docs" / "PROVED.md").read_text(), flags=re.M)[1:]:
        head = section.split("\n", 1)[0]
        named = known.get(head.lower())
        if named is None:
            continue
        found.append(head.lower())
        for _, cells in rows(section):
            first = next((name[1] for name in NAME.finditer(cells[1]) if name[1] in sources.names), None)
            if first not in named:
                yield f"docs/PROVED.md: {head}: a row of `{first}`: {cells[0]}"
    if found != [layer for layer in known if layer in found] or len(found) < len(known) - 1:
        yield f"docs/PROVED.md: its sections have to be the layers {', '.join(known)}, without tests"


def claims_of(root):
    for number, cells in rows((root / "docs" / "PROVED.md").read_text()):
        yield f"docs/PROVED.md:{number}", cells[0], cells[1], cells[2], cells[3] if len(cells) > 3 else ""
    text = (root / "README.md").read_text()
    for place in re.finditer(r"<!-- claim: (.*?) -->", text, re.S):
        calls, _, definitions = place[1].partition("|")
        yield f"README.md:{text.count(chr(10), 0, place.start()) + 1}", "README", calls, definitions, ""


def missing(sources, calls, definitions, wrong_bodies):
    """The names of a claim that the sources do not have, and the crates and files of those that they have."""
    faults, crates, found = [], [], []
    crate, owner, items, names, after_colon = None, "", [], [], False
    position = 0

    def close():
        """Notes each call before a colon that lacks a clause after it."""
        for item in items if names else []:
            name = sources.of(crate).lacking(item, names)
            if name:
                faults.append(f"`{crate}` `{item}`: no clause `{name}`")

    for name in NAME.finditer(calls):
        between = calls[position : name.start()]
        position = name.end()
        word = name[1]
        if ";" in between:
            close()
            items, names, after_colon = [], [], False
        if ":" in between:
            after_colon = True
        if ".." in word or word.startswith("tools/"):
            continue
        if word in sources.names and (crate is None or not after_colon) and not (crate == word):
            close()
            crate, owner, items, names, after_colon = word, "", [], [], False
            crates.append(word)
        elif crate is None:
            faults.append(f"`{word}`: no crate before it")
        elif after_colon:
            names.append(word.removeprefix("requires ").removeprefix("ensures "))
        else:
            place = sources.of(crate).item(word)
            if place is None and not sources.of(crate).invariant(word):
                faults.append(f"`{crate}`: no call `{word}`")
            owner = word.rpartition("::")[0] or owner
            full = f"{owner}::{word}"
            items.append(full if owner[:1].isupper() and "::" not in word and any(sources.of(crate).contracts(full)) else word)
            found.append(f"{crate} {word}")
    close()
    known, other = list(dict.fromkeys(crates)), None
    for name in NAME.finditer(definitions):
        word = name[1]
        if ".." in word or word in ("ensures", "requires"):
            continue
        if word in sources.names:
            other = word
            known.append(word)
            continue
        if not any(sources.of(one).definition(word) for one in known):
            if not any(word in text for one in known for text in sources.of(one).code.values()):
                faults.append(f"{', '.join(known)}: no definition `{word}`")
        elif other:
            found.append(f"{other} {word}")
    for name in NAME.finditer(wrong_bodies):
        if name[1] not in sources.edits and name[1] not in sources.names:
            faults.append(f"no wrong body `{name[1]}` in edits/ or must-fail/")
    return faults, found


def main():
    sources, passed, failed = Sources(), 0, 0
    for place, claim, calls, definitions, wrong_bodies in claims_of(ROOT):
        faults, found = missing(sources, calls, definitions, wrong_bodies)
        if "--list" in sys.argv[1:]:
            print(f"{place}: {claim}\n    {'; '.join(found)}\n    {definitions}")
        for fault in faults:
            print(f"{place}: {fault}")
        passed, failed = passed + (not faults), failed + bool(faults)
    for fault in section_faults(sources):
        print(fault)
        failed += 1
    print(f"{passed} passed, {failed} failed")
    return 1 if failed or not passed else 0
