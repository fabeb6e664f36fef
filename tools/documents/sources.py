"""The repository as the checks of documents read it: its documents, and the layers, crates and seconds of crates.txt and docs/GATE.md."""

import re
from pathlib import Path

ROOT = Path(__file__).resolve().parent.parent.parent
ROW = re.compile(r"^\| `(\w+)` \| (\d*) \| (\d*) \|", re.M)
OTHERS = re.compile(r"^\| (\d+) others \| (\d+) \|", re.M)


def documents():
    """Returns the documents of the repository."""
    return sorted(
        one for one in ROOT.rglob("*.md") if not {"out", ".git", "node_modules"} & set(one.relative_to(ROOT).parts)
    )


def title(layer):
    return re.split(r"[:,]", layer)[0].strip()


class Crates:
    """The rows of crates.txt: the layers in order, and of each crate its layer, all libraries that it names, and the crates of the repository
    that it uses."""

    def __init__(self):
        self.layers, self.crates, self.layer_of, self.libraries = [], {}, {}, {}
        for line in (ROOT / "crates.txt").read_text().splitlines():
            if line.startswith("#"):
                self.layers.append(line.lstrip("# "))
                self.crates[self.layers[-1]] = []
            elif ":" in line:
                name, needs = line.split(":", 1)
                if not self.layers:
                    self.layers.append("crates")
                    self.crates["crates"] = []
                self.crates[self.layers[-1]].append(name.strip())
                self.layer_of[name.strip()] = self.layers[-1]
                self.libraries[name.strip()] = needs.split()
        self.uses = {name: [one for one in needs if one in self.libraries] for name, needs in self.libraries.items()}

    def edges(self):
        """Which layers each layer uses, by their places; those above it apart."""
        place = {layer: index for index, layer in enumerate(self.layers)}
        down = {layer: set() for layer in self.layers}
        up = []
        for name, needs in self.uses.items():
            for one in needs:
                here, there = place[self.layer_of[name]], place[self.layer_of[one]]
                if there < here:
                    down[self.layer_of[name]].add(self.layer_of[one])
                elif there > here:
                    up.append((name, one))
        return {layer: self.unimplied(down, layer) for layer in self.layers}, up

    def unimplied(self, down, layer):
        def reach(one, found):
            for other in down[one]:
                if other not in found:
                    found.add(other)
                    reach(other, found)
            return found

        implied = set().union(*[reach(one, set()) for one in down[layer]]) if down[layer] else set()
        return [one for one in self.layers if one in down[layer] and one not in implied]

    def above(self, name):
        """The crates that have this one below them, and itself."""
        found, left = set(), [name]
        while left:
            found.add(left.pop())
            left += [one for one, needs in self.uses.items() if one not in found and found & set(needs)]
        return found

    def below(self, names):
        """These crates and those that they use, directly or not."""
        found, left = set(), list(names)
        while left:
            name = left.pop()
            left += [one for one in self.uses[name] if one not in found]
            found.add(name)
        return found


def seconds_of(names):
    """Returns the processor seconds of the proof and tests of each crate, by the table of GATE; a crate without a row takes the mean of the others."""
    text = (ROOT / "docs" / "GATE.md").read_text()
    others = OTHERS.search(text)
    mean = int(others[2]) / int(others[1]) if others else 60
    rows = {row[1]: int(row[2] or 0) + int(row[3] or 0) for row in ROW.finditer(text)}
    return {name: rows.get(name, mean) for name in names}
