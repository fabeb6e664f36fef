"""does-not-compile: shows that the programs of docs/does-not-compile are refused: each NAME.txt is made the main.rt of a scratch crate over
this repository's crates, compiled, and its error looked for (the first word in brackets of NAME.error.txt).

The scratch copy has the sources of the crates that the program uses and of those below them; nothing is proved. It prints a line for each
program, then how many were refused so and how many not, and ends with status 1 where one was not."""

import re
import shutil
import subprocess
import tempfile
from pathlib import Path

from documents.sources import ROOT, Crates


def is_refused(program, wanted, crates):
    """A crate of this text is refused for this error."""
    text = program.read_text()
    names = set(re.findall(r"^use (\w+)::", text, re.M)) - {"std"}
    with tempfile.TemporaryDirectory(prefix="does-not-compile-") as scratch:
        copy = Path(scratch)
        used = crates.below(names)
        for name in used:
            shutil.copytree(ROOT / "crates" / name, copy / "crates" / name, ignore=shutil.ignore_patterns("out"))
        shutil.copy(ROOT / "HANDLES", copy)
        source = copy / "crates" / "outlives" / "src"
        source.mkdir(parents=True)
        (source / "main.rt").write_text(text + "\nfn main() {}\n")
        lines = [*((name, crates.libraries[name]) for name in sorted(used)), ("outlives", sorted(names))]
        (copy / "crates.txt").write_text("".join(f"{name}: {' '.join(others)}\n" for name, others in lines))
        done = subprocess.run(["rt", "try"], cwd=source.parent, capture_output=True, text=True)
    return done.returncode != 0 and f"[{wanted}]" in done.stdout + done.stderr


def main():
    crates = Crates()
    failed = 0
    programs = sorted(path for path in (ROOT / "docs" / "does-not-compile").glob("*.txt") if not path.name.endswith(".error.txt"))
    for program in programs:
        wanted = re.search(r"\[([\w-]+)\]", program.with_suffix(".error.txt").read_text()).group(1)
        refused = is_refused(program, wanted, crates)
        print(f"{program.stem}: " + (f"refused, {wanted}" if refused else f"NOT refused with {wanted}"), flush=True)
        failed += not refused
    print(f"{len(programs) - failed} passed, {failed} failed")
    return 1 if failed else 0
