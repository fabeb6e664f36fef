"""contracts [CRATE .. | --check]: the public contracts of crates, read from their sources.

For each crate: the first sentence of its lib.rt; each public function by file, with the first sentence of its comment and the names of the
clauses that its contract ensures; and the wrong bodies of edits/ and must-fail/, which these clauses refuse. Without a crate: a line for each
crate, with the numbers of its public functions, named clauses and wrong bodies, and the sum.

--check asks of each crate but those of tests whether every public function has a comment, and prints how many crates passed."""

import re
import sys

from documents.sources import ROOT, Crates

FUNCTION = re.compile(r"^[ \t]*pub (?:const )?(?:unsafe )?(?:ghost )?fn (\w+)", re.M)
OWNER = re.compile(r"^impl\b.*?\b(\w+)(?:<[^{]*>)?\s*(?:where\b.*)?\{", re.M)


def sentence(comment):
    """The first sentence of a comment, on one line."""
    text = " ".join(re.sub(r"^[ \t]*//[/!] ?", "", comment, flags=re.M).split())
    return re.split(r"(?<=[.:]) (?=[A-Z`])", text)[0]


class Function:
    """A public function: its name with its type, the first sentence of its comment, the names of its clauses."""

    def __init__(self, text, place):
        before = text[: place.start()].splitlines()
        while before and (before[-1].strip().startswith("#[") or not before[-1].strip()):
            before.pop()
        comment = []
        while before and before[-1].strip().startswith("///"):
            comment.insert(0, before.pop())
        owners = list(OWNER.finditer(text, 0, place.start()))
        inside = owners and not re.search(r"^\}", text[owners[-1].end() : place.start()], re.M)
        self.name = f"{owners[-1][1]}::{place[1]}" if inside else place[1]
        self.says = sentence("\n".join(comment))
        indent = re.match(r"[ \t]*", place[0])[0]
        end = re.compile(rf"^{indent}[{{}}]|;$", re.M).search(text, place.end())
        contract = text[place.start() : end.start() if end else len(text)]
        self.clauses = re.findall(r"\bensures\*?\s+(\w+)\s*\{", contract)


def exported_of(text):
    """The names that a lib.rt exports: public modules, and what it uses publicly."""
    found = set(re.findall(r"^pub mod (\w+)", text, re.M))
    for use in re.findall(r"^pub use ([^;]+);", text, re.M):
        names = re.search(r"\{(.*)\}", use, re.S)
        found |= set(re.findall(r"\w+", names[1])) if names else {re.split(r"::|\s+as\s+", use)[-1].strip()}
    return found


class Contracts:
    """The public contracts of a crate, by file."""

    def __init__(self, name):
        folder = ROOT / "crates" / name
        self.name, self.files = name, {}
        top = next((folder / "src" / one for one in ("lib.rt", "main.rt") if (folder / "src" / one).is_file()), None)
        exported = exported_of(top.read_text())
        for path in sorted((folder / "src").rglob("*.rt")):
            text = re.split(r"^#\[cfg\(test\)\]", path.read_text(), flags=re.M)[0]
            found = [Function(text, place) for place in FUNCTION.finditer(text)]
            found = [one for one in found if path == top or path.stem in exported or one.name.split("::")[0] in exported]
            if found:
                self.files[path.relative_to(folder / "src")] = found
        lines = [line for line in top.read_text().splitlines() if line.startswith("//!")]
        self.says = sentence("\n".join(lines))
        self.edits = sorted(one.stem for part in (ROOT / "edits" / name, folder / "must-fail") for one in part.glob("*"))

    def functions(self):
        return [one for found in self.files.values() for one in found]

    def counts(self):
        return len(self.functions()), sum(len(one.clauses) for one in self.functions()), len(self.edits)

    def show(self):
        print(f"{self.name}: {self.says}")
        for path, found in self.files.items():
            print(f"  {path}")
            for one in found:
                print(f"    {one.name}: {one.says}")
                if one.clauses:
                    print(f"      ensures {', '.join(one.clauses)}")
        if self.edits:
            print(f"  wrong bodies: {', '.join(self.edits)}")


def main():
    words = sys.argv[1:]
    known = [Contracts(name) for name in Crates().uses]
    if words == ["--check"]:
        known = [one for one in known if not one.name.startswith("tests_")]
        silent = [(one.name, it.name) for one in known for it in one.functions() if not it.says]
        for crate, name in silent:
            print(f"{crate}: {name} has no comment")
        failed = len({crate for crate, _ in silent})
        print(f"{len(known) - failed} passed, {failed} failed")
        return 1 if failed else 0
    if words:
        for name in words:
            Contracts(name).show()
        return 0
    print(f"{'crate':20} {'functions':>9} {'clauses':>8} {'wrong bodies':>12}")
    for one in known:
        print(f"{one.name:20} {one.counts()[0]:9} {one.counts()[1]:8} {one.counts()[2]:12}")
    sums = [sum(row) for row in zip(*(one.counts() for one in known))]
    print(f"{'all':20} {sums[0]:9} {sums[1]:8} {sums[2]:12}")
    return 0
