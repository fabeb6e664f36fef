"""messages [--list]: whether docs/MESSAGES.md has every line that the programs write on standard error.

The lines are the string literals of the sources below (SOURCES), as Rust has them: `{name}` stands for a number, a name or a word. Two
questions are asked. Is each literal on the page, in a line between backquotes, where words of capital letters, digits and `..` stand for
what is between braces? And does each line of the page consist of words that these sources have? Words of reports on standard output are
looked for on their own pages (REPORTS). The rows of each table have to be in the order of the alphabet, without signs.

Prints what is missing or not in order, and how many literals and lines passed. --list prints each literal with its place on the page."""

import re
import sys

from documents.sources import ROOT

# A comment, a character or a string; the group is what stands between the quotation marks of a string.
TOKEN = re.compile(r"""//[^\n]*|b?'(?:[^'\\\n]|\\.|\\u\{[^}]*\})'|"((?:[^"\\]|\\.)*)\"""", re.S)
PAGE = ROOT / "docs" / "MESSAGES.md"
# By crate, the files that hold the texts of messages; None: all files of the crate.
SOURCES = {
    "checked_jobs": ["fault_lines", "job_fault", "multiplexing"],
    "devices": ["halt", "host", "meter", "saving"],
    "diagnosis": ["equal_keys", "explaining", "fault_lines", "key_places", "key_tables", "unknown_words"],
    "es_feed": ["fed_records", "stream_lines"],
    "explained_jobs": ["explaining", "fault_lines", "fault_words", "line_up_words", "next_fronts", "text_answers", "text_words", "unit_words"],
    "job_run": ["field_lines", "gap_lines", "information_lines", "input_lines", "lacking_line", "left_out_count", "reason_output", "recoding_lines", "refusal_line", "slip_lines", "stream_files",
        "table_lines", "warning_lines"],
    "plan_diagnosis": None,
    "tsair": None,
    "tsair_cli": ["ending", "frame_feed", "front", "hearing", "program"],
    "tsjob": None,
    "tsjob_cli": ["reading", "streaming"],
    "tsmux_cli": ["checking", "planning"],
    "tsremux": None,
    "tsremux_cli": ["lines", "outputs"],
    "tsview": None,
    "tsview_cli": ["program", "plan_drawing"],
    "word_faults": ["hints", "option_row", "usage"],
}
# Literals that are no part of a message: names of programs, options and keys, and the last line of a plan.
APART = {"/dev/stdin", "--state", "--unframe", "tsmux", "tsjob", "tsremux", "standard output", "tsair", "tsview", "end", "--version", "--plan", "pmt_pid", "pcr_pid", "clock_pid"}
# Files that list the keys of a description.
KEYS = {"unknown_words"}
# By crate, the files with the words of reports, and the pages that have these words between backquotes or in blocks of code.
REPORTS = {
    "event_lines": (["event_lines", "fault_lines", "figure_lines", "input_lines", "mark_lines", "packet_lines", "rule_lines", "summary_lines", "video_lines", "window_line"], ["docs/VIEW.md", "docs/VIEW_LINES.md"]),
    "tsmux_cli": (["finding_lines"], ["docs/MONITOR.md"]),
    "monitor": (["report_lines"], ["docs/MONITOR.md"]),
    "diagnosis": (["key_words"], ["docs/DESCRIPTION.md"]),
}
# Words that a line of the page may have beside those of the sources: the values of a key that `tsjob explain` names, examples of numbers.
BESIDE = {"base", "tsmux", "rattle-kit-", "logic", "make-dts"}


def literals(crate, names):
    """Each string literal of the files, with its file, without the comments and the definitions of the prover."""
    for path in sorted((ROOT / "crates" / crate / "src").rglob("*.rt")):
        if names is not None and path.stem not in names:
            continue
        for found in TOKEN.finditer(path.read_text()):
            if found[1] is None:
                continue
            text_of = re.sub(r"\\\n\s*", "", found[1]).replace('\\"', '"').replace("\\n", "\n")
            text_of = re.sub(r"\\r|\\x1b\[K", "", text_of).strip("\n")
            if re.search(r"[A-Za-z]{2}", re.sub(r"\{[^}]*\}", "", text_of)):
                yield path.relative_to(ROOT), text_of


def table_lines(text):
    """The lines between backquotes in the first column of each table whose second column is headed "From, status", table by table."""
    tables, current = [], None
    for number, line in enumerate(text.splitlines(), 1):
        if line.startswith("| Line | From, status |"):
            current = []
            tables.append(current)
        elif not line.startswith("|"):
            current = None
        elif current is not None and not line.startswith("|-"):
            first = re.split(r"(?<!\\)\|", line)[1].strip()
            current.append((number, first.strip("`").replace("\\|", "|"), line))
    return tables


def pattern(literal):
    """The literal as it may be on the page."""
    parts = [re.escape(part.strip(" ")) if part.strip(" ") else "" for part in re.split(r"\{[^}]*\}", literal)]
    return re.compile(r"\s*\S+(?: = \S+)?\s*".join(parts).strip())


def order_key(line):
    return re.sub(r"[^a-z0-9 ]", "", line.lower()).strip()


def main():
    text = PAGE.read_text()
    code = [word.replace("\\|", "|") for word in re.findall(r"`([^`\n]+)`", text)]
    passed = failed = 0
    known = set(BESIDE)
    for crate, names in SOURCES.items():
        for path, literal in literals(crate, names):
            known |= set(re.findall(r"[a-z_A-Z0-9-]+", literal))
            if literal.strip() in APART or path.stem in KEYS and re.fullmatch(r"[a-z0-9_]+", literal):
                continue
            for line in filter(str.strip, literal.split("\n")):
                place = next((one for one in code if pattern(line).search(one)), None)
                if "--list" in sys.argv[1:]:
                    print(f"{path}: {line.strip()!r} in {place!r}")
                if place is None:
                    print(f"{path}: not in docs/MESSAGES.md: {line.strip()!r}")
                passed, failed = passed + (place is not None), failed + (place is None)
    for crate, (names, pages) in REPORTS.items():
        words = " ".join(" ".join(found) for page in pages for found in re.findall(r"`([^`\n]+)`|^ {4}(.*)$", (ROOT / page).read_text(), re.M))
        for path, literal in literals(crate, names):
            wanted = [] if " " in literal.strip() else re.findall(r"[a-z_0-9-]{2,}", re.sub(r"\{[^}]*\}", "", literal))
            missing = [word for word in wanted if not re.search(rf"(?<![\w-]){re.escape(word)}(?![\w-])", words)]
            if missing:
                print(f"{path}: not in {', '.join(pages)}: {literal.strip()!r}")
            passed, failed = passed + (not missing), failed + bool(missing)
    for table in table_lines(text):
        before = ""
        for number, line, _ in table:
            faults = []
            if order_key(line) < before:
                faults.append("not in the order of the alphabet")
            before = order_key(line)
            unknown = [word for word in re.findall(r"(?<![\w=-])[a-z_][a-z_-]+", line) if word not in known]
            if unknown:
                faults.append(f"no source has the word {unknown[0]!r}")
            for fault in faults:
                print(f"docs/MESSAGES.md:{number}: {fault}: {line}")
            passed, failed = passed + (not faults), failed + bool(faults)
    print(f"{passed} passed, {failed} failed")
    return 1 if failed or not passed else 0
