"""options [--check | --write FOLDER | --list]: manual pages and completions of the programs, from their tables of options.

The tables are the rows `OptionRow` of crates/*_cli/src/options.rt, and of crates/tsjob_cli/src/rows.rt for rows that several tables have: names,
ranges, defaults and help texts are there and nowhere else.

--write puts man/man1/PROGRAM.1 and the completions of bash, zsh and fish into FOLDER, where `make install` and `make dist` expect them.
--check asks: has each option a row in the tables of the documents (MANUAL, TSJOB, ON_AIR), with its range and its default, and each row of
these tables its option; does each word of the usage text exist; do the pages and completions pass groff, bash, zsh and fish, if these are
installed; does bash complete words and options. It prints what is not so, and how many questions passed. --list prints the options."""

import re
import shutil
import subprocess
import sys
import tempfile
from pathlib import Path

from documents.sources import ROOT

PROGRAMS = ("tsmux", "tsjob", "tsremux", "tsair", "tsview")
ROW = re.compile(
    r'OptionRow \{\s*name: "([^"]*)",\s*value: ValueKind::(\w+)(?: \{([^}]*)\})?,\s*form: "([^"]*)",\s*unit: "([^"]*)",\s*apart: "([^"]*)",\s*'
    r'help: "((?:[^"\\]|\\.)*)",?\s*\}',
    re.S,
)
# What may follow a number.
SCALES = {"Bits": "k or M", "Ticks": "ms or s", "Millis": "ms or s"}
# A help text that begins with the option's short name.
SHORT = re.compile(r"or -(\w)[,:] ")
TITLES = {
    "tsmux": "multiplex MPEG-2 transport streams at a constant rate; list and monitor them",
    "tsjob": "plan a constant-rate multiplex of any transport stream",
    "tsremux": "multiplex transport streams at a constant rate",
    "tsair": "multiplex the units of a running encoder",
    "tsview": "report what the buffers of a receiver hold",
}
TEXTS = {
    "tsmux": "A job is a service description, a plan and unit records. tsmux checks the plan before it writes a packet, and refuses a unit that is not as it is declared.",
    "tsjob": "tsjob reads a transport stream and writes a job for tsmux mux: a description, a plan, and the records of its units.",
    "tsremux": "tsremux reads transport streams, of files or of standard input, makes one multiplex of them at a constant rate, and writes its packets: what tsjob --whole and tsmux mux write one after the other.",
    "tsair": "tsair reads a description and a plan, then unit records as they come, for days, in constant memory.",
    "tsview": "tsview reads a transport stream, of a file or of standard input, and writes a report: bit rates, transport and main buffers of each stream, late units, errors of clock references and tables.",
}
WORDS = {
    "tsmux": {
        "carry": "packets of one PID, of unit records of stream 0",
        "plan": "a plan for a service description",
        "demux": "a line for each PES packet, section and fault",
        "check": "whether a plan keeps every condition",
        "mux": "transport packets, of a job",
        "monitor": "a report by fifteen rules of TR 101 290",
    },
    "tsjob": {
        "describe": "the description alone",
        "units": "the records alone",
        "why": "the numbers that prevent every plan",
        "explain": "in words, what is wrong with a job",
    },
    "tsremux": {},
    "tsair": {},
    "tsview": {},
}
EXAMPLES = {
    "tsmux": ["tsjob --whole < film.ts | tsmux mux > out.ts", "cat DESCRIPTION PLAN | tsmux check", "tsmux monitor --rate 1504000 < out.ts"],
    "tsjob": ["tsjob --whole < film.ts | tsmux mux > out.ts", "tsjob --whole one.ts two.ts -o both.job", "tsjob explain DESCRIPTION PLAN"],
    "tsremux": ["tsremux film.ts -o out.ts", "tsremux one.ts two.ts -o both.ts", "tsremux --rate 5M film.ts | tsview"],
    "tsair": ["( cat DESCRIPTION PLAN; feeder ) | tsair --wait 180000 > PACKETS"],
    "tsview": ["tsview film.ts", "tsview --page film.ts > film.html", "cat DESCRIPTION PLAN | tsview --plan > plan.html"],
}
STATUS = [("0", "success"), ("1", "the input was refused, or a fault was found"), ("2", "a usage error"), ("3", "a device failed, memory ran out, or a limit was reached")]
# By document, the program of each of its tables of options, in their order.
TABLES = {"docs/MANUAL.md": ["tsmux", "tsview"], "docs/TSJOB.md": ["tsjob", "tsremux"], "docs/ON_AIR.md": ["tsair"]}


class Option:
    def __init__(self, found):
        self.name, self.kind, numbers, self.form, self.unit, self.apart, self.help = found
        found = SHORT.match(self.help)
        self.short, self.help = (found[1], self.help[found.end() :]) if found else (None, self.help)
        values = dict(re.findall(r"(\w+): ([^,\n]+)", numbers or ""))
        self.least, self.greatest, self.default = (number(values.get(one, "None")) for one in ("least", "greatest", "default"))
        self.scale = SCALES.get(values.get("scale", "").removeprefix("Scale::").strip())
        if self.kind == "Base":
            self.form = "0..8589934591|input"
        elif not self.form and self.kind in ("Number", "Scaled"):
            self.form = f"{self.least}..{self.greatest}"

    def is_option(self):
        return self.kind != "Word"

    def takes_value(self):
        return self.kind not in ("Flag", "Alone")

    def values(self):
        return {"Declare": ["groups", "time"], "Base": ["input"]}.get(self.kind, [])


def number(text):
    found = re.search(r"Some\((.*)\)", text)
    text = (found[1] if found else text).strip().replace("_", "").replace("u64::MAX", "2**64-1")
    return None if text == "None" else eval(text, {"__builtins__": {}})


def source(program):
    return (ROOT / "crates" / f"{program}_cli" / "src" / "options.rt").read_text()


def named_rows(program):
    """By name the rows that several tables have."""
    text = (ROOT / "crates" / "tsjob_cli" / "src" / "rows.rt").read_text() + source(program)
    return {name: Option(ROW.search(row).groups()) for name, row in re.findall(r"const (\w+): OptionRow = (OptionRow \{.*?\n\});", text, re.S)}


def rows_of(table, shared):
    """The rows of a table: its own, and names of shared ones."""
    for found in re.finditer(ROW.pattern + rf"|(?<![\w:\[])(?P<shared>{'|'.join(shared)}),", table, re.S | re.M):
        yield shared[found["shared"]] if found["shared"] else Option(found.groups()[:7])


def options(program):
    """By subcommand (None: none) the options of a program."""
    found, shared = {}, named_rows(program)
    for name, rows in re.findall(r"const (\w+): \[OptionRow; \d+\] = \[\n(.*?)\];", source(program), re.S):
        if name in ("EXPLAIN_OPTIONS", "HAND_OPTIONS"):
            continue
        found[None if name == "OPTIONS" else name.lower()] = [one for one in rows_of(rows, shared) if one.is_option()]
    if program == "tsmux":
        found[None] = []
    if not any(one.name == "version" for one in found.get(None, [])):
        found[None].append(Option(("version", "Alone", "", "", "", "", "alone: the version, and the logic of its proof")))
    if program == "tsmux":
        found[None].append(Option(("help", "Alone", "", "", "", "", "or -h, alone: this text, on standard error, with status 2")))
    return found


def usage(program):
    text = re.search(r'const USAGE: &str =\s*"((?:[^"\\]|\\.)*)"', source(program), re.S)[1]
    return [re.sub(r"^usage: +", "", line).strip() for line in text.splitlines() if re.match(r"usage: | {7}\w", line)]


def version():
    return re.search(r'" ([\d.]+), logic \w+', (ROOT / "crates/word_faults/src/version.rt").read_text())[1]


# Manual pages.


def roff(text):
    text = text.replace("\\", "\\e").replace("-", "\\-")
    return re.sub(r"^([.'])", r"\\&\1", text, flags=re.M)


def sentence(text):
    return text[:1].upper() + text[1:] + "."


def manual(program):
    lines = [f'.TH {program.upper()} 1 "" "{program} {version()}"', ".SH NAME", f"{program} \\- {roff(TITLES[program])}", ".SH SYNOPSIS", ".nf"]
    lines += [roff(one) for one in usage(program)] + [".fi", ".SH DESCRIPTION", roff(TEXTS[program])]
    if WORDS[program]:
        lines.append(".SH COMMANDS")
        for word, text in WORDS[program].items():
            lines += [".TP", f"\\fB{word}\\fR", roff(sentence(text))]
    lines.append(".SH OPTIONS")
    for word, rows in sorted(options(program).items(), key=lambda one: one[0] or "~"):
        if word and rows:
            lines.append(f".SS {word}")
        elif not word and len(options(program)) > 1:
            lines.append(".SS alone")
        for one in rows:
            value = f" \\fI{roff(one.form)}\\fR" if one.takes_value() else ""
            default = f" The default is {one.default}." if one.default is not None and str(one.default) not in one.help else ""
            short = f", \\fB\\-{one.short}\\fR" if one.short else ""
            apart = f" Not beside {one.apart}." if one.apart else ""
            scale = f" A number may end with {one.scale}." if one.scale else ""
            text = sentence(one.help.replace("; else ", "; otherwise ").replace("this text", "the usage text")) + scale + default + apart
            lines += [".TP", f"\\fB\\-\\-{roff(one.name)}\\fR{short}{value}", roff(text)]
    lines.append(".SH EXIT STATUS")
    for status, text in STATUS:
        lines += [".TP", status, roff(sentence(text))]
    lines += [".SH DIAGNOSTICS", roff("One line on standard error says why a run stops early. The document MESSAGES has every line from A to Z, with its meaning and its remedy.")]
    lines += [".SH EXAMPLES", ".nf"] + [roff(one) for one in EXAMPLES[program]] + [".fi", ".SH SEE ALSO"]
    lines.append(", ".join(f"\\fB{one}\\fR(1)" for one in PROGRAMS if one != program))
    return "\n".join(lines) + "\n"


# Completions.


def bash(program):
    by_word, words = options(program), " ".join(WORDS[program])
    cases = "\n".join(f"        {word}) options='{' '.join('--' + one.name for one in rows)}' ;;" for word, rows in by_word.items() if word)
    alone = " ".join("--" + one.name for one in by_word[None])
    values = "\n".join(f"        --{one.name}) COMPREPLY=($(compgen -W '{' '.join(one.values())}' -- \"$word\")); return ;;" for one in by_word[None] if one.values())
    files = "".join(f"        --{one.name}) _{program}_files \"$word\"; return ;;\n" for one in by_word[None] if one.kind == "File")
    takes = "|".join(sorted({"--" + one.name for rows in by_word.values() for one in rows if one.takes_value() and not one.values() and one.kind != "File" and one.kind != "Alone"}))
    nothing = f"        {takes}) return ;;\n" if takes else ""
    return f"""# bash completion of {program}, made by tools/docs options
# names of files, one a line, as readline quotes them
_{program}_files() {{
    mapfile -t COMPREPLY < <(compgen -f -- "$1")
    compopt -o filenames 2> /dev/null
}}
_{program}() {{
    local word=${{COMP_WORDS[COMP_CWORD]}} before=${{COMP_WORDS[COMP_CWORD-1]}} options='{alone}' words='{words}'
    case $before in
{values}{chr(10) if values else ''}{files}{nothing}        '<'|'>') _{program}_files "$word"; return ;;
    esac
    case ${{COMP_WORDS[1]}} in
{cases}{chr(10) if cases else ''}        *) ;;
    esac
    if [[ $word == -* ]]; then
        COMPREPLY=($(compgen -W "$options" -- "$word"))
    else
        COMPREPLY=()
        ((COMP_CWORD > 1)) || COMPREPLY=($(compgen -W "$words" -- "$word"))
        ((${{#COMPREPLY[@]}})) || _{program}_files "$word"
    fi
}}
complete -F _{program} {program}
"""


def zsh_spec(one):
    text = re.sub(r"[\[\]:']", " ", one.help)
    value = ""
    if one.takes_value():
        what = " ".join(one.values())
        value = f":value:({what})" if what else ":file:_files" if one.kind == "File" else f":{re.sub('[^A-Za-z0-9., |]', ' ', one.form)}:"
    excluded = f"({one.apart})" if one.apart else ""
    return f"'{excluded}--{one.name}[{text}]{value}'"


def zsh(program):
    by_word = options(program)
    if len(by_word) == 1:
        specs = " \\\n    ".join(map(zsh_spec, by_word[None]))
        first = " \\\n    '1:command:(" + " ".join(WORDS[program]) + ")'" if WORDS[program] else ""
        return f"#compdef {program}\n# made by tools/docs options\n_arguments \\\n    {specs}{first} \\\n    '*:file:_files'\n"
    cases = "\n".join(f"    {word}) _arguments {' '.join(map(zsh_spec, rows))} '*:file:_files' ;;" for word, rows in by_word.items() if word)
    return (
        f"#compdef {program}\n# made by tools/docs options\nif ((CURRENT == 2)); then\n    compadd -- {' '.join(WORDS[program])} --version\n    return\nfi\n"
        f"shift words\n((CURRENT--))\ncase $words[1] in\n{cases}\n    *) _files ;;\nesac\n"
    )


def fish(program):
    lines = [f"# fish completion of {program}, made by tools/docs options"]
    for word, text in WORDS[program].items():
        lines.append(f"complete -c {program} -n __fish_use_subcommand -a {word} -d {quoted(text)}")
    for word, rows in options(program).items():
        for one in rows:
            when = f" -n {quoted('__fish_seen_subcommand_from ' + word)}" if word else ""
            value = f" -x -a {quoted(' '.join(one.values()))}" if one.values() else " -r" if one.kind == "File" else " -x" if one.takes_value() else ""
            short = f" -s {one.short}" if one.short else ""
            lines.append(f"complete -c {program}{when}{short} -l {one.name}{value} -d {quoted(one.help)}")
    return "\n".join(lines) + "\n"


def quoted(text):
    return "'" + text.replace("\\", "\\\\").replace("'", "\\'") + "'"


def files():
    for program in PROGRAMS:
        yield f"man/man1/{program}.1", manual(program)
        yield f"bash-completion/completions/{program}", bash(program)
        yield f"zsh/site-functions/_{program}", zsh(program)
        yield f"fish/vendor_completions.d/{program}.fish", fish(program)


def write(folder):
    for name, text in files():
        path = Path(folder) / name
        path.parent.mkdir(parents=True, exist_ok=True)
        path.write_text(text)


# The tables of the documents.


def tables(text):
    """The rows of each table of options: the words of its first cell that are options, and the row."""
    for found in re.finditer(r"^\| Option \| Value \| Default \|\n\|[-|]+\|\n((?:\|.*\n)+)", text, re.M):
        yield [(re.findall(r"--([a-z][a-z-]*)", re.split(r"(?<!\\)\|", row)[1]), row) for row in found[1].splitlines()]


def said(value, row):
    """Returns whether a row says a number: with commas or without, or as a power of 2."""
    forms = [f"{value:,}", str(value)]
    for power in range(30, 65):
        forms += [f"2^{power}"] if value in (1 << power, (1 << power) - 1) else []
    return any(re.search(rf"(?<![\d,.]){re.escape(one)}(?!\d|,\d)", row) for one in forms)


def table_faults(document, rows, program, shared=()):
    """What is wrong with a table; `shared` has the rows of another page that count for this one too."""
    listed = {name for names, _ in rows for name in names}
    known = {one.name: one for of_word in options(program).values() for one in of_word}
    for name in sorted(listed - set(known)):
        yield f"{document}: {program} has no option --{name}"
    for one in known.values():
        row = next((row for names, row in [*rows, *shared] if one.name in names), None)
        if row is None:
            if one.kind != "Alone" or one.name not in ("version", "help"):
                yield f"{document}: no row for {program} --{one.name}"
            continue
        if one.kind not in ("Number", "Scaled") or "as for `mux`" in row:
            continue
        for what in ("least", "greatest", "default"):
            value = getattr(one, what)
            if value not in (None, 0) and not said(value, row):
                yield f"{document}: the row of {program} --{one.name} does not say its {what}, {value}"


# Checks.


def said_by(*words, text=None):
    done = subprocess.run(words, input=text, stdout=subprocess.PIPE, stderr=subprocess.STDOUT, text=True)
    return done.returncode, done.stdout


def file_faults(name, path):
    if name.endswith(".1") and shutil.which("groff"):
        status, told = said_by("groff", "-man", "-ww", "-z", str(path))
        if status or told:
            yield f"{name}: groff: {told.strip()[:200]}"
    for shell, part in (("bash", "bash-completion"), ("zsh", "zsh/"), ("fish", ".fish")):
        if part in name and shutil.which(shell):
            status, told = said_by(shell, "-n", str(path))
            if status or told:
                yield f"{name}: {shell}: {told.strip()[:200]}"


def completed(folder, program, *words):
    script = f'. {folder}/bash-completion/completions/{program}; COMP_WORDS=({" ".join(map(quoted, [program, *words]))}); COMP_CWORD={len(words)}; _{program}; echo "${{COMPREPLY[*]}}"'
    return said_by("bash", "-c", script)[1].strip()


def completed_by_fish(folder, program, line):
    script = f"source {folder}/fish/vendor_completions.d/{program}.fish; complete -C {quoted(line)}"
    return said_by("fish", "-c", script)[1].split()


def file_completions(folder):
    Path(folder, "my film.ts").touch()
    for program in PROGRAMS:
        before = "" if not WORDS[program] else "mux " if program == "tsmux" else "why "
        got = completed(folder, program, *before.split(), f"{folder}/my f")
        yield [] if got == f"{folder}/my film.ts" else [f"bash completes a file of {program} as {got!r}"]
    got = completed(folder, "tsremux", f"{folder}/my")
    yield [] if got == f"{folder}/my film.ts" else [f"bash completes the first file of tsremux as {got!r}"]
    if shutil.which("fish"):
        got = completed_by_fish(folder, "tsremux", "tsremux --de")
        yield [] if {"--declare", "--description"} <= set(got) else [f"fish completes tsremux --de as {got!r}"]


def check():
    results = []
    for document, programs in TABLES.items():
        found = list(tables((ROOT / document).read_text()))
        if len(found) != len(programs):
            results.append([f"{document}: {len(found)} tables of options, not {len(programs)}"])
        for program, rows in zip(programs, found):
            shared = next(tables((ROOT / "docs" / "TSJOB.md").read_text())) if program == "tsremux" else ()
            results.append(list(table_faults(document, rows, program, shared)))
    for program in PROGRAMS:
        named = set(re.findall(r"(?<![\w-])--([a-z][a-z-]*)", "\n".join(usage(program)) if program == "tsmux" else ""))
        known = {one.name for rows in options(program).values() for one in rows}
        results.append([f"{program}: the usage has --{one}, and no row has" for one in sorted(named - known)])
        results.append([] if known and usage(program) else [f"{program}: no options or no usage found"])
    with tempfile.TemporaryDirectory() as folder:
        write(folder)
        for name, _ in files():
            results.append(list(file_faults(name, Path(folder) / name)))
        results.extend(file_completions(folder))
        for wanted, program, *words in (("monitor mux", "tsmux", "m"), ("--slots --switch", "tsmux", "mux", "--s"), ("units", "tsjob", "u"), ("groups time", "tsjob", "--declare", ""), ("--page --plan --program --progress", "tsview", "--p")):
            got = " ".join(sorted(completed(folder, program, *words).split()))
            results.append([] if got == wanted else [f"bash completes {program} {' '.join(words)} as {got!r}, not {wanted!r}"])
    for faults in results:
        for fault in faults:
            print(fault)
    failed = sum(map(bool, results))
    print(f"{len(results) - failed} passed, {failed} failed")
    return 1 if failed else 0


def main():
    words = sys.argv[1:]
    if words in ([], ["--check"]):
        return check()
    if len(words) == 2 and words[0] == "--write":
        write(words[1])
        return 0
    if words == ["--list"]:
        for program in PROGRAMS:
            for word, rows in options(program).items():
                for one in rows:
                    print(program, word or "", "--" + one.name, one.form, "" if one.default is None else f"default {one.default}", "-", one.help)
        return 0
    print(__doc__, file=sys.stderr)
    return 2
