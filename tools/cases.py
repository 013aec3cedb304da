#!/usr/bin/env python3
"""Asks that no case is lost: what files of cases have, and what the program that plays them has to print.

Usage: tools/cases.py                 asks of each crate with files of cases that its `args` names each of them, in their order by name, and
                                      that its `stdout` has the line of each case. Each case has to have a sentence, and a name that no other
                                      one of its file has. It prints what is not so, with status 1
       tools/cases.py --print CRATE   prints the `stdout` of a crate: for each case its file, its name and how often it is played
Files of cases are `crates/CRATE/data/*.cases`; crates/case_files/README.md has their format.
"""
import sys
from pathlib import Path
from typing import NamedTuple

from repository import ROOT, dependencies


class Case(NamedTuple):
    name: str
    sentence: str
    runs: int


class CaseFile(NamedTuple):
    """A file of cases: its name, the sentence at its head, its cases, and the lines of paragraphs that are nothing known."""

    name: str
    head: str
    cases: list[Case]
    unknown: list[int]


def paragraphs(text: str) -> list[tuple[int, list[str]]]:
    """The paragraphs of a file, each with the number of its first line."""
    found, number = [], 1
    for paragraph in text.split("\n\n"):
        found.append((number, paragraph.splitlines()))
        number += paragraph.count("\n") + 2
    return found


def kind_of(lines: list[str]) -> tuple[str, str]:
    """What a paragraph is, by the first word of its first line that is no comment, and the rest of that line; "" of comments alone."""
    first = next((line for line in lines if line and not line.startswith("#")), "")
    word, _, rest = first.partition(" ")
    return word, rest


def after(lines: list[str], mark: str) -> list[str]:
    """What follows a mark in the lines that begin with it."""
    return [line.removeprefix(mark) for line in lines if line.startswith(mark)]


def head_of(lines: list[str]) -> str:
    """The sentence at the head of a file: its first lines, if they are comments."""
    count = next((index for index, line in enumerate(lines) if not line.startswith("#")), len(lines))
    return " ".join(line.removeprefix("#").strip() for line in lines[:count])


def case_of(name: str, lines: list[str]) -> Case:
    """The case of a paragraph. It is played once for each of its rows, or once if it has none."""
    runs = len(after(lines, "and ")) if after(lines, "each ") else 1
    return Case(name, " ".join(after(lines, "- ")), runs)


def read(path: Path) -> CaseFile:
    """What a file of cases has."""
    cases, unknown, text = [], [], path.read_text()
    for number, lines in paragraphs(text):
        word, rest = kind_of(lines)
        if word == "case" and rest:
            cases.append(case_of(rest, lines))
        elif not (word in ("", "text") and bool(word) == bool(rest) or (word, rest) == ("let", "")):
            unknown.append(number)
    return CaseFile(path.name, head_of(text.splitlines()), cases, unknown)


def files_of(crate: str) -> list[CaseFile]:
    """A crate's files of cases, by name."""
    return [read(path) for path in sorted((ROOT / "crates" / crate / "data").glob("*.cases"))]


def crates() -> list[str]:
    """The crates that have files of cases."""
    return [crate for crate in dependencies() if files_of(crate)]


def stdout_of(files: list[CaseFile]) -> str:
    """What the program prints that plays these files."""
    return "".join(f"{file.name} {case.name}: {case.runs}\n" for file in files for case in file.cases)


def faults_of_file(file: CaseFile) -> list[str]:
    """What is wrong with a file."""
    names = [it.name for it in file.cases]
    found = [f"{file.name}:{number}: this paragraph is no case, no text and no words" for number in file.unknown]
    found += [f"{file.name}: no sentence is at its head"] if not file.head else []
    found += [f"{file.name}: {it.name} has no sentence" for it in file.cases if not it.sentence]
    found += [f"{file.name}: {it.name} has no row" for it in file.cases if not it.runs]
    return found + [f"{file.name}: {len(names) - len(set(names))} names are there twice"] * (len(names) > len(set(names)))


def text_of(path: Path) -> str:
    """A file's text, "" if it is not there."""
    return path.read_text() if path.exists() else ""


def faults_of(crate: str) -> list[str]:
    """What is wrong with a crate's files of cases, its `args` and its `stdout`."""
    folder, files = ROOT / "crates" / crate, files_of(crate)
    found = [f"crates/{crate}/data/{fault}" for file in files for fault in faults_of_file(file)]
    if text_of(folder / "args") != "".join(f"{file.name}\n" for file in files):
        found.append(f"crates/{crate}/args has not the names of its files of cases, a line each and by name")
    if text_of(folder / "stdout") != stdout_of(files):
        found.append(f"crates/{crate}/stdout has not a line for each case: tools/cases.py --print {crate} > crates/{crate}/stdout")
    return found


def main() -> int:
    words, known = sys.argv[1:], crates()
    if len(words) == 2 and words[0] == "--print" and words[1] in known:
        sys.stdout.write(stdout_of(files_of(words[1])))
        return 0
    if words:
        sys.exit(__doc__)
    found = [fault for crate in known for fault in faults_of(crate)]
    for crate in known:
        cases = [case for file in files_of(crate) for case in file.cases]
        print(f"{crate}: {len(cases)} cases, played {sum(it.runs for it in cases)} times")
    print("\n".join(found) or "each case has its line")
    return 1 if found else 0


if __name__ == "__main__":
    sys.exit(main())
