#!/usr/bin/env python3
"""Counts long sentences and words to avoid in documents.

Usage: tools/prose.py [--long] [FILE ..]   without a name every page that is kept by hand: all but those of PRINTED
Prints a line for each file: sentences, those of more than 25 and of more than 40 words, the counted words, and the file's words
as `wc -w` has them. With --long it also prints each sentence that is too long or has a counted word, with its line.
A sentence ends at `.`, `!` or `?`, and at the end of a paragraph, of a list's point and of a table's cell; never at `;` or `:`.
A link's target is no word, and a piece of code within a line is one. Code blocks are left out. Headings, and cells of code or
numbers alone, are no sentences. Status 1 if a file has a counted word or a sentence of more than 40 words, or if more than 2 % of
all sentences have more than 25. Without a name it also prints the sums, of all and without the READMEs of the crates.
"""
import re
import sys
from collections.abc import Iterator
from pathlib import Path
from typing import NamedTuple

from repository import ROOT

PRINTED = {"docs/DEFINITIONS.md", "docs/SCENARIOS.md"}
PLACES = ("*.md", "docs/*.md", "*/README.md", "crates/*/README.md")
LONG, LONGEST, SHARE = 25, 40, 0.02
POINT = re.compile(r"\s*([-*+]|\d+\.)\s+")
CODE = re.compile(r"(`+)(?!`).+?(?<!`)\1(?!`)", re.S)
TARGET = re.compile(r"\]\([^)\s]*\)")
CELL = re.compile(r"(?<!\\)\|")
END = re.compile(r"(?<!\.)(?<!\be\.g)(?<!\bi\.e)[.!?][\"'”)\]*_]*(?=\s|$)")
# "behind" of a place is what stands behind a lock, a gate or a socket; elsewhere it counts as time or order.
COUNTED = re.compile(
    r"\b(told|who(?:m|so)?ever|let(?:s|ting)?\s+go|bec[oa]mes?\s+of|(?:is|are|was|were)\s+none|where\s+none|befall\w*|befell"
    r"|behind(?!\s+(?:an?\s+|the\s+|one\s+|its\s+)?(?:locks?|gates?|sockets?|firewalls?)\b))\b",
    re.I,
)


class Piece(NamedTuple):
    """A paragraph, a heading, a list's point or a table's cell: its first line's number, and its text without code."""

    line: int
    text: str
    is_heading: bool


class Sentence(NamedTuple):
    line: int
    text: str
    words: int


def without_code(text: str) -> str:
    """A text with one word for each piece of code, and without targets of links. Line ends stay."""
    text = CODE.sub(lambda it: "`CODE`" + "\n" * it[0].count("\n"), text)
    return TARGET.sub("]", text)


def pieces(text: str) -> Iterator[Piece]:
    """The pieces of a document, without its code blocks."""
    begin, held, fence = 0, [], ""
    for number, line in enumerate([*text.splitlines(), ""], 1):
        bare = line.strip()
        is_fence = bare.startswith(fence or ("```", "~~~"))
        ends = fence or is_fence or not bare or bare.startswith(("|", "#")) or POINT.match(line)
        if ends and held:
            yield Piece(begin, without_code("\n".join(held)), False)
            held = []
        if is_fence:
            fence = "" if fence else bare[:3]
        elif fence or not bare:
            continue
        elif bare.startswith("|"):
            yield from (Piece(number, it, False) for it in CELL.split(without_code(bare)))
        elif bare.startswith("#"):
            yield Piece(number, without_code(bare), True)
        else:
            begin = begin if held else number
            point = POINT.match(line)
            held.append(line[point.end() :] if point else line)


def sentences(piece: Piece) -> Iterator[Sentence]:
    """The sentences of a piece."""
    begin = 0
    for end in [*(it.end() for it in END.finditer(piece.text)), len(piece.text)]:
        text = piece.text[begin:end]
        words = [it for it in text.split() if re.search(r"\w", it)]
        if any(re.search(r"[^\W\d]", it) and "`CODE`" not in it for it in words):
            skipped = len(text) - len(text.lstrip())
            yield Sentence(piece.line + piece.text.count("\n", 0, begin + skipped), " ".join(text.split()), len(words))
        begin = end


class Counts(NamedTuple):
    """What is counted in a page, or in several."""

    sentences: int
    long: int
    longest: int
    counted: int
    words: int

    def share(self) -> float:
        return self.long / max(1, self.sentences)

    def line(self, name: str) -> str:
        return (
            f"{name:34} sentences {self.sentences:5}, over {LONG} words {self.long:3} ({self.share():.1%}), over {LONGEST} {self.longest:3}, "
            f"counted words {self.counted:3}, words {self.words:6}"
        )


def pages() -> list[str]:
    """Every page that is kept by hand, by its path."""
    found = {path.relative_to(ROOT).as_posix() for place in PLACES for path in ROOT.glob(place)}
    return sorted(found - PRINTED, key=lambda it: (it.count("/"), it))


def report(path: Path, name: str, is_long: bool) -> Counts:
    """Prints a file's counts, and with `is_long` what is counted."""
    text = path.read_text()
    found = list(pieces(text))
    all_of = [it for piece in found if not piece.is_heading for it in sentences(piece)]
    long = [it for it in all_of if it.words > LONG]
    counted = [(piece, it) for piece in found for it in COUNTED.finditer(piece.text)]
    counts = Counts(len(all_of), len(long), sum(it.words > LONGEST for it in long), len(counted), len(text.split()))
    print(counts.line(name))
    if is_long:
        rows = [(it.line, f"{it.words} words: {it.text}") for it in long]
        for piece, it in counted:
            around = piece.text[max(0, it.start() - 40) : it.end() + 40]
            rows.append((piece.line + piece.text.count("\n", 0, it.start()), f"'{it[0]}': {' '.join(around.split())}"))
        for line, said in sorted(rows):
            print(f"  {name}:{line}: {said}")
    return counts


def total(counts: list[Counts]) -> Counts:
    return Counts(*(sum(it) for it in zip(*counts))) if counts else Counts(0, 0, 0, 0, 0)


def main() -> int:
    words = [it for it in sys.argv[1:] if it != "--long"]
    if any(it.startswith("-") for it in words):
        sys.exit(__doc__)
    named = [(Path(it), it) for it in words] or [(ROOT / it, it) for it in pages()]
    counts = [report(path, name, "--long" in sys.argv) for path, name in named]
    everything = total(counts)
    if not words:
        print(total([one for one, (_, name) in zip(counts, named) if not name.startswith("crates/")]).line("without the crates' READMEs"))
        print(everything.line("all"))
    return 1 if everything.longest or everything.counted or everything.share() > SHARE else 0


if __name__ == "__main__":
    sys.exit(main())
