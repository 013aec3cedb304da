#!/usr/bin/env python3
"""Takes a branch over the names that changed: those of tools/renames.txt, which says how a row is written.

Usage: tools/rename.py [--only NAME ..]     in a clean checkout of the branch; --only takes the rows with one of these names alone.
                                            It changes files and moves them by `git mv`, and commits nothing
A name is changed where it stands as a whole word. A branch that was taken over has nothing left to change, so a second run does
nothing.
"""
import re
import shlex
import subprocess
import sys
from pathlib import Path
from typing import NamedTuple

from repository import ROOT

TABLE = ROOT / "tools/renames.txt"
OWN = {"tools/renames.txt", "tools/rename.py"}
CODE = (".rt", ".antt", ".edit")


class Row(NamedTuple):
    """A name that changed: of what kind, and in or outside which crates."""

    kind: str
    old: str
    new: str
    inside: frozenset[str] = frozenset()
    outside: frozenset[str] = frozenset()

    @property
    def items(self) -> frozenset[str]:
        """The items that are another crate's now."""
        return self.inside if self.kind == "items" else frozenset()

    def pattern(self) -> re.Pattern[str]:
        """Where the old name stands: as a whole word, of a crate also in the name of its built tests."""
        end = r"(?=(?:_tests)?\b)" if self.kind == "crate" else r"(?!\w)"
        return re.compile(rf"(?<!\w){re.escape(self.old)}{end}")

    def is_for(self, path: str) -> bool:
        """Whether a file's text is to be changed."""
        parts = path.split("/")
        crate = parts[1] if parts[0] == "crates" and len(parts) > 2 else ""
        if self.items:
            return crate not in ("", self.old, self.new) and path.endswith(".rt")
        if self.inside:
            return crate in self.inside and path.endswith(CODE)
        return crate not in self.outside

    def moved(self, path: str) -> str:
        """Where a file is to stand."""
        if self.kind == "move":
            return re.sub(rf"^{re.escape(self.old)}(?=/|$)", self.new, path)
        return self.pattern().sub(self.new, path) if self.is_for(path) and not self.items else path


def rows() -> list[Row]:
    """The rows of the table."""
    found = []
    for line in TABLE.read_text().splitlines():
        if words := shlex.split(line, comments=True):
            kind, old, new, *rest = words
            named = frozenset(rest if kind == "items" else rest[1:])
            is_outside = rest[:1] == ["but"]
            found.append(Row(kind, old, new, frozenset() if is_outside else named, named if is_outside else frozenset()))
    return found


def files() -> list[str]:
    """The files of the checkout that git knows, but the table and this script."""
    listed = subprocess.run(["git", "ls-files", "-z"], cwd=ROOT, check=True, capture_output=True, text=True).stdout
    return [it for it in listed.split("\0") if it and it not in OWN and (ROOT / it).is_file() and not (ROOT / it).is_symlink()]


def with_items(row: Row, text: str) -> tuple[str, int]:
    """A file's text with its items from the other crate, and how many `use` items and paths that changed."""

    def of_list(match: re.Match[str]) -> str:
        names = [it.strip() for it in match[2].split(",") if it.strip()]
        moved = [it for it in names if it.split(" ")[0] in row.items]
        kept = [it for it in names if it not in moved]
        if not moved:
            return match[0]
        uses = [f"{match[1]}use {crate}::{{{', '.join(them)}}};" for crate, them in ((row.new, moved), (row.old, kept)) if them]
        return "\n".join(re.sub(r"\{(\w+)\}", r"\1", it) for it in uses)

    listed = re.sub(rf"^( *(?:pub )?)use {row.old}::\{{([^}}]*)\}};", of_list, text, flags=re.MULTILINE)
    changed, count = re.subn(rf"(?<!\w){row.old}::({'|'.join(sorted(row.items))})\b", rf"{row.new}::\1", listed)
    return changed, count + (listed != text)


def change(row: Row, path: str) -> int:
    """Changes the name in a file's text, and gives how often it stood there."""
    if row.kind == "move" or not row.is_for(path):
        return 0
    try:
        text = (ROOT / path).read_bytes().decode()
    except UnicodeDecodeError:
        return 0
    text, count = with_items(row, text) if row.items else row.pattern().subn(row.new, text)
    if count:
        (ROOT / path).write_bytes(text.encode())
    return count


def move(path: str, to: str) -> None:
    """Moves a file by git."""
    (ROOT / to).parent.mkdir(parents=True, exist_ok=True)
    subprocess.run(["git", "mv", path, to], cwd=ROOT, check=True)
    for folder in (ROOT / path).parents:
        if any(folder.iterdir()):
            break
        folder.rmdir()


def main() -> int:
    words = sys.argv[2:] if sys.argv[1:2] == ["--only"] else []
    for row in rows():
        if words and row.old not in words and row.new not in words:
            continue
        listed = files()
        count = sum(change(row, path) for path in listed)
        moves = [(path, to) for path in listed if (to := row.moved(path)) != path]
        for path, to in moves:
            move(path, to)
        if count or moves:
            print(f"{row.old} -> {row.new}: {count} in text, {len(moves)} files moved")
    return 0


if __name__ == "__main__":
    sys.exit(main())
