#!/usr/bin/env python3
"""Prints docs/DEFINITIONS.md, and says which words of this repository's specs have two meanings.

Usage: tools/definitions.py           prints the words that are defined in more than one file, how much the main guarantee unfolds
                                      to, and whether docs/DEFINITIONS.md is what --print prints; status 1 if it is not, or if
                                      more than MOST_DOUBLE words stand in two files
       tools/definitions.py --print   prints docs/DEFINITIONS.md: each definition of each `specs/`, with the sentence above it
       tools/definitions.py --main    prints each word that the main guarantee unfolds to, file by file
       tools/definitions.py --untied  prints each field of a record that is a life, a state or a list, and that the other fields have in
                                      premises alone: whoever proves the record may choose it so that they say nothing; status 1 if
                                      there is one

A definition's sentence is the comment right above it, without a blank line between. It is marked by what can be computed: whether
the clauses of MAIN unfold to it, whether those of any other public function do, or neither. The same thing over two types may share
a word, and nothing else: `SHARED` names the words that do, and of every other word in two files it is printed where it stands.
"""
import re
import sys
from collections import defaultdict
from pathlib import Path

from repository import ROOT, dependencies

CRATES = {it.name for it in (ROOT / "crates").iterdir() if it.is_dir()}
DEFINITIONS = ROOT / "docs/DEFINITIONS.md"
HOW = ": tools/definitions.py --print > docs/DEFINITIONS.md"
FUNCTION = re.compile(r"^(\s*)(pub )?(?:const )?fn (\w+)")
USE = re.compile(r"^\s*(?:ghost )?use Rattle\.(\w+)\.specs\.([\w.]+?)(?:\.\{([^}]*)\}| as (\w+));?$", re.M)
HEAD = re.compile(r"(?:abbrev |unfoldable )?(?:pub )?(?:record |data )?([A-Za-z_]\w*)\b.* : ")
NAME = re.compile(r"(?<![\w.])(?:(\w+)\.)?([A-Za-z_]\w*)")
FIELD = re.compile(r"\s+(?:pub )?((?:[A-Za-z_]\w* )+): (.*)")
STATE = re.compile(r"(?:Life|DiskImage|Files|\w*State|List\b.*)$")
MARK, OTHER_MARK = "• ", "◦ "
# As many words as stood in two files for two things when this was last counted. It falls, and never rises.
MOST_DOUBLE = 50
HEAD_OF_PAGE = """\
# Definitions

For those who check proofs: what a reader has to believe, since every other statement of this repository is proved from it.
This page is printed by `tools/definitions.py --print` from `crates/*/specs`, so change a sentence there. It has {all} definitions.

| Mark | Definitions | How many |
|---|---|---|
| • | to be believed: the [main guarantee](GUARANTEES.md#the-main-guarantee) unfolds to them | {main} |
| ◦ | to be believed with a clause of another public function: that unfolds to them | {other} |
| none | representation: no public function's clause unfolds to them; private functions, ghost members or proofs use them | {rest} |

Crates are in the order of [`crates.txt`](../crates.txt), each with its marked definitions first. The exact text of a definition is
in the file that its row names. Definitions without a sentence of their own are listed by name.
"""

# Words of the same thing over two types, as the id of a recording with its frames and of its registration.
SHARED = frozenset(
    """
    AreWell Compacts Ends Fits IsChain IsLookedOn IsWell active_count
    after append_tests base_of changed counts encoded epoch_of events_of extend_tests geometry_of has_publication has_room header_of id_of
    image_with inner is_active is_among life_at life_of may_join name_of publication_of purge_segments_tests purge_tests
    refusal_of restarted segments_before start_tests stop_tests takes_memory truncate_tests
    """.split()
)

# The calls and laws whose clauses are the main guarantee: how each call ends, runs of them, and openings behind a crash.
MAIN = {
    "engine_core/src/engine.rt": {"create", "open"},
    "engine_core/src/step.rt": {"step", "drive"},
    "engine_core/src/laws.rt": {"a_run_keeps_the_archive", "a_call_leaves_one_state", "a_crash_leaves_an_archive_to_open"},
    "control_core/src/laws.rt": {"a_run_is_a_history"},
}

Word = tuple[str, str, str]  # a crate, a file of its specs, a name


def scope_of(source: str) -> tuple[dict[str, Word], dict[str, tuple[str, str]]]:
    """The words of this repository's specs that a file imports, by the names that it has for them; and the files."""
    words, files = {}, {}
    for crate, path, names, alias in USE.findall(source):
        if crate not in CRATES or path.startswith("declared"):
            continue
        if alias:
            files[alias] = crate, path
        for name in filter(None, (it.strip() for it in names.split(","))):
            own, _, other = name.partition(" as ")
            words[(other or own).strip()] = crate, path, own.strip()
    return words, files


def public_functions(source: str) -> dict[str, str]:
    """The clauses of a file's public functions and of its public traits' methods, by name."""
    found: dict[str, list[str]] = defaultdict(list)
    lines, index, in_trait = source.splitlines(), 0, False
    while index < len(lines):
        line = lines[index]
        in_trait = line.startswith("pub trait ") or (in_trait and line != "}")
        head = FUNCTION.match(line)
        index += 1
        if not head or not (head[2] or in_trait):
            continue
        while index < len(lines) and lines[index] not in (head[1] + "{", "") and not FUNCTION.match(lines[index]):
            found[head[3]].append(lines[index])
            index += 1
    return {name: "\n".join(clauses) for name, clauses in found.items()}


class Specs:
    """Each definition of each crate's specs: its text, and the words that it cites."""

    def __init__(self) -> None:
        self.text: dict[Word, list[str]] = {}
        self.sentence: dict[Word, str] = {}
        self.scopes: dict[tuple[str, str], tuple[dict[str, Word], dict[str, tuple[str, str]]]] = {}
        for path in sorted((ROOT / "crates").glob("*/specs/*.antt")):
            if path.stem != "Lib":
                self.read(path.parts[-3], path.stem, path.read_text())

    def read(self, crate: str, file: str, source: str) -> None:
        self.scopes[crate, file] = scope_of(source)
        word, margin, comment = None, 0, ""
        for line in source.splitlines():
            code = line.split("--")[0].rstrip()
            above, comment = comment, ""
            if not code or code.startswith("use "):
                comment = f"{above} {line.strip()[2:].strip()}".strip() if line.strip().startswith("--") else ""
                continue
            indent = len(code) - len(code.lstrip())
            if indent == 0:
                margin = 2 if code.startswith("module ") else 0
            head = HEAD.match(code.lstrip()) if indent == margin and not code.startswith("module ") else None
            if head and (crate, file, head[1]) not in self.text:
                word = crate, file, head[1]
                self.text[word] = []
                self.sentence[word] = above
            if word:
                self.text[word].append(code)

    def cited(self, text: str, scope: tuple[dict[str, Word], dict[str, tuple[str, str]]], here: tuple[str, str]) -> set[Word]:
        """The words that a text cites, in a file with those imports."""
        words, files = scope
        found = set()
        for alias, name in NAME.findall(text):
            word = (*files[alias], name) if alias in files else words.get(alias or name) or (*here, alias or name)
            if word in self.text:
                found.add(word)
        return found

    def unfolded(self, roots: set[Word]) -> set[Word]:
        """The words that some words rest on, with these."""
        found, left = set(), list(roots)
        while left:
            word = left.pop()
            if word not in found:
                found.add(word)
                left += self.cited("\n".join(self.text[word]), self.scopes[word[:2]], word[:2])
        return found


def main_guarantee(specs: Specs) -> set[Word]:
    """What the main guarantee unfolds to."""
    roots = set()
    for name, functions in MAIN.items():
        clauses = public_functions(source := (ROOT / "crates" / name).read_text())
        for function in functions:
            roots |= specs.cited(clauses[function], scope_of(source), ("", ""))
    return specs.unfolded(roots)


def other_clauses(specs: Specs) -> set[Word]:
    """What the clauses of all public functions unfold to."""
    roots = set()
    for path in sorted(ROOT.glob("crates/*/src/**/*.rt")):
        source = path.read_text()
        roots |= specs.cited("\n".join(public_functions(source).values()), scope_of(source), ("", ""))
    return specs.unfolded(roots)


def section(crate: str, words: list[Word], marks: dict[Word, str], specs: Specs) -> list[str]:
    """A crate's definitions: a row for each that has a sentence, and the names of the others."""
    ranks = [MARK, OTHER_MARK, ""]
    words = sorted(words, key=lambda word: (ranks.index(marks[word]), word[1]))
    rows = [
        f"| {marks[word]}`{word[2]}` | {specs.sentence[word].replace('|', chr(92) + '|')} | `{word[1]}` |"
        for word in words
        if specs.sentence[word]
    ]
    bare = [f"{marks[word]}`{word[2]}` ({word[1]})" for word in words if not specs.sentence[word]]
    lines = ["", f"## {crate}", ""]
    lines += ["| Name | In a sentence | File of `specs/` |", "|---|---|---|", *rows] if rows else []
    lines += ["", *([f"Also: {', '.join(bare)}."] if bare else [])] if rows else [f"By name alone: {', '.join(bare)}."]
    return lines if lines[-1] else lines[:-1]


def page(specs: Specs, main: set[Word]) -> str:
    """docs/DEFINITIONS.md."""
    other = other_clauses(specs) - main
    marks = {word: MARK if word in main else OTHER_MARK if word in other else "" for word in specs.text}
    rest = sum(not it for it in marks.values())
    lines = [HEAD_OF_PAGE.format(all=len(marks), main=len(main), other=len(other), rest=rest).rstrip()]
    for crate in dependencies():
        if words := [it for it in specs.text if it[0] == crate]:
            lines += section(crate, words, marks, specs)
    return "\n".join(lines) + "\n"


def by_file(words: set[Word]) -> dict[tuple[str, str], list[str]]:
    files = defaultdict(list)
    for crate, file, name in sorted(words):
        files[crate, file].append(name)
    return files


def double_words(specs: Specs) -> dict[str, list[str]]:
    """The words that stand in more than one file, each with these."""
    stands = defaultdict(list)
    for crate, file, name in specs.text:
        stands[name].append(f"{crate} {file}")
    return {name: files for name, files in stands.items() if len(files) > 1}


def fields_of(lines: list[str]) -> dict[str, str]:
    """The fields of a record, each with its type; none of another definition."""
    found, names = {}, []
    if not re.match(r"\s*(?:pub )?record ", lines[0]):
        return {}
    head = next((at for at, line in enumerate(lines) if line.endswith("where")), len(lines))
    for line in lines[head + 1 :]:
        if field := FIELD.match(line):
            names = field[1].split()
        for name in names:
            found[name] = f"{found.get(name, '')} {field[2] if field else line.strip()}".strip()
    return found


def concluded(text: str) -> str:
    """A type without its premises, and without those within its brackets."""
    while inner := re.search(r"\(([^()]*)\)", text):
        text = f"{text[: inner.start()]}[{inner[1].rsplit('→', 1)[-1]}]{text[inner.end() :]}"
    return text.rsplit("→", 1)[-1]


def untied(specs: Specs) -> list[str]:
    """The fields of lives, states and lists that the other fields of their record have in premises alone."""
    found = []
    for (crate, file, word), lines in specs.text.items():
        fields = fields_of(lines)
        for name in (it for it, type in fields.items() if STATE.match(type)):
            own = re.compile(rf"(?<![\w.]){name}(?!\w)")
            stands = [type for other, type in fields.items() if other != name and own.search(type)]
            if stands and not any(own.search(concluded(type)) for type in stands):
                found.append(f"{crate} {file}: {word}.{name}")
    return found


def report(specs: Specs, main: set[Word]) -> int:
    """Prints which words stand for two things, how much has to be believed, and whether the page is what is printed."""
    twice = double_words(specs)
    shared = len(SHARED & set(twice))
    for name, files in sorted(twice.items(), key=lambda it: (-len(it[1]), it[0])):
        if name not in SHARED:
            print(f"{name}: {', '.join(files)}")
    double = len(twice) - shared
    names = len({name for _, _, name in specs.text})
    print(f"{len(twice)} of {names} words of specs stand in more than one file, {shared} of them for the same thing over two types")
    print(f"{double} words have two meanings, and {MOST_DOUBLE} may\n")
    files, lines = by_file(main), sum(len(specs.text[word]) for word in main)
    print(f"The main guarantee unfolds to {len(main)} of {len(specs.text)} definitions: {lines} lines in {len(files)} files")
    is_printed = DEFINITIONS.exists() and DEFINITIONS.read_text() == page(specs, main)
    print(f"docs/DEFINITIONS.md is {'' if is_printed else 'not '}what this tool prints{'' if is_printed else HOW}")
    return 0 if is_printed and double <= MOST_DOUBLE else 1


def main() -> int:
    specs = Specs()
    words = main_guarantee(specs)
    if sys.argv[1:] == ["--print"]:
        sys.stdout.write(page(specs, words))
        return 0
    if sys.argv[1:] == ["--main"]:
        for (crate, file), names in by_file(words).items():
            print(f"{crate} {file}: {', '.join(names)}")
        return 0
    if sys.argv[1:] == ["--untied"]:
        found = untied(specs)
        print("\n".join(found) or "No record has a state that stands in premises alone")
        return 1 if found else 0
    if sys.argv[1:]:
        sys.exit(__doc__)
    return report(specs, words)


if __name__ == "__main__":
    sys.exit(main())
