"""Wrong bodies as texts: what an edit changes, the functions that it is in, and which edits share a copy of their crate.

An edit has the form of the kit's must-fail edits: a line `file: PATH`, then pairs of lines `old: TEXT` and `new: TEXT`; each old text is in
its file exactly once. The names of functions are those that the prover prints, below the crate: `module::function`, `module::Type::method`,
and `module::TypeTrait::method` for the method of an impl of a trait, each with its arguments, as `module::VecU8FromWord::from`."""

import re

FUNCTION = re.compile(r"^([ \t]*)(?:pub(?:\([^)]*\))?\s+)?(?:const\s+)?(?:unsafe\s+)?fn\s+(\w+)", re.M)
IMPL = re.compile(r"^impl(<[^{]*?>)?\s+(?:([\w:]+)(<[^{]*?>)?\s+for\s+)?([\w:]+)(<[^{\n]*>)?", re.M)
TYPE = re.compile(r"^(?:pub(?:\([^)]*\))?\s+)?(?:struct|enum)\s+(\w+)", re.M)
CONSTANT = re.compile(r"\s*(?:pub(?:\([^)]*\))?\s+)?(?:const|static)\s+(\w+)\s*:")
DEFINITION = re.compile(r"^(?:(?:pub|unfoldable|abbrev|transparent|record|data)\s+)*([^\s:(){},]+)", re.M)


def module_of(file):
    """Returns the module of a file of src/, which ends with `::` unless it is the root."""
    path = file.removeprefix("src/").removesuffix(".rt")
    return "" if path in ("lib", "main") else path.replace("/", "::") + "::"


def types_of(sources):
    """Returns the file of the sources that declares each type."""
    return {name: file for file, text in sources.items() for name in TYPE.findall(text)}


def local_at(text, at):
    """Returns the name below its module of the function that the line of this place is in, and the type if that is a method of its own; or None."""
    end = text.find("\n", at)
    before = text[: end if end > 0 else len(text)]
    found = list(FUNCTION.finditer(before))
    if not found:
        return None
    last = found[-1]
    impls = [one for one in IMPL.finditer(before) if one.start() < last.start()] if last[1] else []
    if not impls:
        return last[2], None
    params, trait, of_trait, type, of_type = impls[-1].groups("")
    type = type.split("::")[-1]
    if not trait:
        return f"{type}::{last[2]}", type
    own = set(re.findall(r"\w+", re.sub(r":[^,>]*", "", params))) | {"_"}
    args = lambda text: "".join(one[0].upper() + one[1:] for one in re.findall(r"(?<!')\b\w+", text) if one not in own)
    return f"{type}{args(of_type)}{trait.split('::')[-1]}{args(of_trait)}::{last[2]}", None


def function_at(file, text, at, types):
    """Returns the name of the function that the line of this place is in, or None. A type's own method has the module of the type."""
    found = local_at(text, at)
    return found and module_of(types.get(found[1], file)) + found[0]


def pairs_of(edit):
    """Returns the (file, old text, new text) of each pair of an edit."""
    file, old, found = None, None, []
    for line in edit.split("\n"):
        if line.startswith("file: "):
            file = line.removeprefix("file: ").strip()
        elif line.startswith("old: "):
            old = line.removeprefix("old: ")
        elif line.startswith("new:") and file and old:
            found.append((file, old, line.removeprefix("new:").removeprefix(" ")))
            old = None
    return found


def applied(pairs, texts, read):
    """Returns the texts with these pairs applied to them, or None if an old text is not there exactly once."""
    made = dict(texts)
    for file, old, new in pairs:
        text = made[file] if file in made else read(file)
        if text is None or text.count(old) != 1:
            return None
        made[file] = text.replace(old, new)
    return made


def first_change(old, new):
    """Returns where two texts first differ."""
    return next((at for at, (one, other) in enumerate(zip(old, new)) if one != other), min(len(old), len(new)))


def citing(word, sources):
    """Returns the functions of the sources that name a word."""
    found, types = {}, types_of(sources)
    for file, text in sources.items():
        for one in re.finditer(rf"(?<![\w.]){re.escape(word)}(?!\w)", text):
            found[function_at(file, text, one.start(), types)] = True
    return [name for name in found if name]


class Place:
    """Where an edit changes its crate: the functions whose check has to fail, and whether these are the functions whose bodies it changes."""

    def __init__(self, pairs, read, sources):
        self.functions, self.is_body = [], True
        texts = {}
        for file, old, new in pairs:
            text = texts[file] if file in texts else read(file)
            if text is None or text.count(old) != 1:
                self.functions = []
                return
            at = text.index(old) + first_change(old, new)
            self.note(file, text, at, sources)
            texts[file] = text.replace(old, new)

    def note(self, file, text, at, sources):
        line = text[text.rfind("\n", 0, at) + 1 : (text.find("\n", at) + 1) or len(text)]
        constant = CONSTANT.match(line)
        if file.startswith("src/") and not constant:
            found = [function_at(file, text, at, types_of(sources))]
        else:
            self.is_body = False
            heads = [one[1] for one in DEFINITION.finditer(text[:at]) if one[1] not in ("use", "where", "with", "if", "then", "else", "let", "in", "--")]
            words = [constant[1]] if constant else heads[-1:] if file.startswith("specs/") else []
            found = [name for word in words for name in citing(word, sources)[:4]]
        self.functions += [name for name in found if name and name not in self.functions]


def calls(sources):
    """Returns, by the last part of its name, what each function may call, itself among it: what is called by these names in its text, and what that may call."""
    named, texts = {}, {}
    for text in (re.sub(r"//.*", "", one) for one in sources.values()):
        starts = [one.start() for one in FUNCTION.finditer(text)] + [len(text)]
        for one, begin, end in zip(FUNCTION.finditer(text), starts, starts[1:]):
            texts[one[2]] = texts.get(one[2], "") + text[begin:end]
    for name, text in texts.items():
        named[name] = set(re.findall(r"(?<!fn )\b(\w+)(?:::<[^()]*>)?\(", text)) & set(texts)
    found = {name: {name} | named[name] for name in named}
    while True:
        more = {name: set().union(reached, *(found[one] for one in reached)) for name, reached in found.items()}
        if more == found:
            return found
        found = more


def are_apart(names, others, reach):
    """Returns whether none of these functions may call one of the others, nor the other way round: one that calls a function that is not proved says
    nothing of its own body."""
    last = lambda name: name.split("::")[-1]
    return not any(last(one) in reach.get(last(other), {last(other)}) or last(other) in reach.get(last(one), {last(one)}) for one in names for other in others)


def in_groups(edits, read, sources):
    """Returns lists of edits, with their texts, that share a copy: edits of the bodies of functions that do not call one another, each of which can still be
    applied after the others. Any other edit has a copy of its own."""
    groups, reach = [], calls(sources)
    for edit in edits:
        for group in groups if edit.place.is_body else []:
            made = applied(edit.pairs, group.texts, read) if group.is_open else None
            if made and are_apart(edit.place.functions, group.functions(), reach):
                group.texts = made
                group.edits.append(edit)
                break
        else:
            groups.append(Group([edit], applied(edit.pairs, {}, read), edit.place.is_body))
    return groups


class Group:
    def __init__(self, edits, texts, is_open):
        self.edits, self.texts, self.is_open = edits, texts, is_open

    def functions(self):
        return [name for one in self.edits for name in one.place.functions]


def line_of(said, crate, name):
    """Returns the line that the output of a check has for a function of the crate, or an empty text."""
    return next((one for one in said if one.startswith(f"fn {crate}::{name}: ")), "")


def is_refused(line):
    """Returns whether a function's line says that it is not proved for a reason of its own: one that calls such a function is not proved either."""
    return bool(re.match(r"fn \S+: (no proof|not proved)", line)) and not re.search(r"which (is|are) not proved", line)


def local_below(text, line):
    """Returns the name below its module of the function that a line of the text is in, or whose attributes begin there, or None."""
    starts = [0] + [found.end() for found in re.finditer("\n", text)]
    if line > len(starts):
        return None
    at = starts[line - 1]
    below = FUNCTION.search(text, at) if text[at:].lstrip().startswith("#[") else None
    found = local_at(text, below.start(2) if below else at)
    return found and found[0]


def is_its_own(said, name, texts):
    """Returns whether the output of a check places a goal that is not proved at this function's body, or at a file of its own proof."""
    folder = "proofs/" + name.replace("::", "/") + "/"
    for one in said:
        at = re.match(r"(?:note: )?(?:\./)?((?:src|proofs)/\S+?):(\d+):\d+: (.*)", one)
        if not at or "was not admitted" in at[3]:
            continue
        local = local_below(texts[at[1]], int(at[2])) if at[1] in texts and at[1].startswith("src/") else None
        if at[1].startswith(folder) or local and f"::{name}".endswith(f"::{local}"):
            return True
    return False
