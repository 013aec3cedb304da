#!/usr/bin/env python3
"""Asks that each name that pages cite is there.

Usage: tools/names.py   reads docs/ARCHITECTURE.md, docs/GUARANTEES.md and the crates' READMEs, and prints each name in backquotes
that no crate has; status 1 if there is one
A name is a piece of code that is an identifier, or several with `::` or `.` between. Each of its words has to be a crate, a file of
`src/`, `specs/`, `proofs/` or of cases, or a word of code there; comments do not count. What is a command, a line or a path is not asked.
`OTHERS` has the words that are of the system or of files beside the crates.
"""
import re
import sys
from collections.abc import Iterator
from pathlib import Path

from repository import ROOT, dependencies

PAGES = [ROOT / "docs/ARCHITECTURE.md", ROOT / "docs/GUARANTEES.md", *sorted((ROOT / "crates").glob("*/README.md"))]
OTHERS = frozenset("HANDLES KIND crates txt fdatasync fsync statx stdin".split())
MARKS = {".rt": "//", ".antt": "--", ".cases": "#"}
FENCED = re.compile(r"^```.*?^```", re.M | re.S)
CODE = re.compile(r"(?<!`)`([^`\n]+)`(?!`)")
PATH = re.compile(r"(?:crates|docs|tools|trials|bench|examples)/[\w./-]+")
IN_PLACE = re.compile(r"\b[A-Z]+\b(?!\.md)")
NAME = re.compile(r"[A-Za-z_]\w*(?:(?:::|\.)[A-Za-z_]\w*)*(?:\(\))?")


def words_of(path: Path) -> set[str]:
    """The words of a file's code, and the file's own name."""
    mark = MARKS[path.suffix]
    code = re.sub(rf"{mark}.*", "", path.read_text())
    return {path.stem, path.parent.name, *re.findall(r"\w+", code)}


def known() -> set[str]:
    """Each word of the crates' code, and what `OTHERS` has."""
    found = {*OTHERS, *dependencies()}
    for part in ("src/**/*.rt", "specs/**/*.antt", "proofs/**/*.antt", "data/*.cases"):
        for path in ROOT.glob(f"crates/*/{part}"):
            found |= words_of(path)
    return found


def cited(text: str) -> Iterator[tuple[int, str]]:
    """The names and paths of a page in backquotes, each with its line."""
    bare = FENCED.sub(lambda it: "\n" * it[0].count("\n"), text)
    for it in CODE.finditer(bare):
        text = it[1].strip()
        if NAME.fullmatch(text) or (PATH.fullmatch(text) and not IN_PLACE.search(text)):
            yield bare.count("\n", 0, it.start()) + 1, text


def is_there(name: str, words: set[str]) -> bool:
    """Whether a name or a path is there."""
    return (ROOT / name).exists() if PATH.fullmatch(name) else all(it in words for it in re.findall(r"\w+", name))


def main() -> int:
    if sys.argv[1:]:
        sys.exit(__doc__)
    words, count, missing = known(), 0, []
    for page in PAGES:
        for line, name in cited(page.read_text()):
            count += 1
            if not is_there(name, words):
                missing.append(f"{page.relative_to(ROOT)}:{line}: there is no {name}")
    print("".join(f"{it}\n" for it in missing), end="")
    print(f"{count} names in {len(PAGES)} pages, {len(missing)} are not there")
    return 1 if missing else 0


if __name__ == "__main__":
    sys.exit(main())
