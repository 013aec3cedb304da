#!/usr/bin/env python3
"""Prints docs/SCENARIOS.md: the tests and the cases of the crates of tests, each with its name and its sentence.

Usage: tools/scenarios.py           says whether docs/SCENARIOS.md is what --print prints, and how many tests have no sentence;
                                    status 1 if it is not
       tools/scenarios.py --print   prints docs/SCENARIOS.md
A crate of tests is one of `crates/tests_*`. A module's sentence is its `//!` comment, and a test's its `///` comment. A file of cases
begins with its own sentence (`# ..`), and a case has one in its lines `- ..`.
"""
import re
import sys
from typing import NamedTuple

import cases
from repository import ROOT, dependencies

SCENARIOS = ROOT / "docs/SCENARIOS.md"
HOW = ": tools/scenarios.py --print > docs/SCENARIOS.md"
FUNCTION = re.compile(r"(?:pub )?fn (\w+)")
HEAD_OF_PAGE = """\
# Scenarios

For those who check tests: what is tried. Expected values were typed from the rules, not taken from the program. Only the texts of
help and usage are clap's. This page is printed by `tools/scenarios.py --print` from `crates/tests_*/src` and `crates/tests_*/data`, so
change a sentence there.

{tests} tests and {cases} cases in {crates} crates; {bare} of them are named without a sentence. The lines, calls and answers of a
scenario are in its test or case. A case with rows is played once for each. Frames that tests name are in docs/PROTOCOL.md, "Vectors".
What is tried outside `rt ci`: [trials](../trials/README.md).
"""


class Test(NamedTuple):
    name: str
    sentence: str


class Section(NamedTuple):
    """A module of tests or a file of cases: its name, its sentence and what it asks."""

    name: str
    head: str
    tests: list[Test]


def comment(lines: list[str], mark: str) -> str:
    """The text of comment lines with this mark, as one line."""
    texts = [it.strip().removeprefix(mark).strip() for it in lines if it.strip().startswith(mark)]
    return " ".join(filter(None, texts))


def tests_of(text: str) -> list[Test]:
    """The tests of a file, in its order. A doc comment is above the attribute or under it."""
    found, around, is_test = [], [], False
    for line in (it.strip() for it in text.splitlines()):
        if line.startswith(("#[", "///")):
            around.append(line)
            is_test |= line == "#[test]"
        else:
            if is_test and (head := FUNCTION.match(line)):
                found.append(Test(head[1], comment(around, "///")))
            around, is_test = [], False
    return found


def head_of(text: str) -> str:
    """The sentence of a file: the first paragraph of its `//!` comment."""
    lines = []
    for line in text.splitlines():
        if not line.startswith("//!") or line.strip() == "//!":
            break
        lines.append(line)
    return comment(lines, "//!")


def modules_of(crate: str) -> list[Section]:
    """The modules of a crate that have tests."""
    folder = ROOT / "crates" / crate / "src"
    texts = [(path.relative_to(folder).with_suffix("").as_posix(), path.read_text()) for path in sorted(folder.glob("**/*.rt"))]
    return [Section(name.replace("/", "::"), head_of(text), tests) for name, text in texts if (tests := tests_of(text))]


def case_files_of(crate: str) -> list[Section]:
    """The files of cases of a crate."""
    return [Section(it.name, it.head, [Test(case.name, case.sentence) for case in it.cases]) for it in cases.files_of(crate)]


def lines_of(crate: str, section: Section) -> list[str]:
    """The lines of a section."""
    head = [section.head, ""] if section.head else []
    tests = [f"- `{it.name}`{': ' if it.sentence else ''}{it.sentence}" for it in section.tests]
    return ["", f"### {section.name} ({crate})", "", *head, *tests]


def tests_in(sections: list[Section]) -> list[Test]:
    """All tests or cases of sections."""
    return [test for section in sections for test in section.tests]


def page() -> tuple[str, int, int]:
    """docs/SCENARIOS.md, how many tests and cases there are, and how many have no sentence."""
    crates = [it for it in dependencies() if it.startswith("tests_")]
    modules, files = {it: modules_of(it) for it in crates}, {it: case_files_of(it) for it in crates}
    tests = [test for it in crates for test in tests_in(modules[it])]
    played = [test for it in crates for test in tests_in(files[it])]
    bare = sum(not it.sentence for it in tests + played)
    lines = [HEAD_OF_PAGE.format(tests=len(tests), cases=len(played), crates=len(crates), bare=bare).rstrip()]
    for crate in crates:
        lines += ["", f"## {crate}"]
        for section in modules[crate] + files[crate]:
            lines += lines_of(crate, section)
    return "\n".join(lines) + "\n", len(tests + played), bare


def main() -> int:
    text, tests, bare = page()
    if sys.argv[1:] == ["--print"]:
        sys.stdout.write(text)
        return 0
    if sys.argv[1:]:
        sys.exit(__doc__)
    is_printed = SCENARIOS.exists() and SCENARIOS.read_text() == text
    print(f"{tests} tests and cases, {bare} of them without a sentence")
    print(f"docs/SCENARIOS.md is {'' if is_printed else 'not '}what this tool prints{'' if is_printed else HOW}")
    return 0 if is_printed else 1


if __name__ == "__main__":
    sys.exit(main())
