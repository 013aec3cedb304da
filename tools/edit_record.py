"""Where must-fail edits are, and the record of those that are in the gate by record: must-fail.sums.

The folder of an edit in its crate says who tries it:
  must-fail/   `rt ci`, in every run
  recorded/    tools/edits.py, which writes a line of the record for each edit that the prover refused. The gate asks that each edit has
               a current line, and tries a sample
  aside/       a contributor, before a landing that changes the crate's clauses. The gate does not ask for these
tools/edits.py is the command for all of this.
"""
import hashlib
import subprocess
from collections.abc import Iterable, Iterator
from pathlib import Path

from libraries import below
from repository import ROOT, dependencies

GATE, RECORDED, ASIDE = "must-fail", "recorded", "aside"
FOLDERS = (GATE, RECORDED, ASIDE)
PARTS = ("src", "specs", "proofs")

RECORD = ROOT / "must-fail.sums"
HEAD = """\
# The record of must-fail edits: the prover refused each of these edits of crates/CRATE/recorded/.
# `tools/edits.py --record` writes this file, and nothing else does; `tools/edits.py --current` asks whether its lines are current.
# A line has CRATE/MISTAKE and the first 16 digits of a SHA-256. That is over the toolchain (the first line of `rt version`), the edit,
# the crate, and all crates below it: of each crate its line of crates.txt, without a comment, and its files in src/, specs/ and proofs/.
"""
DIGITS = 16

# Edits by crate, in the order of crates.txt.
Edits = dict[str, list[str]]


def folder_of(crate: str, place: str, top: Path = ROOT) -> Path:
    """One of the folders of a crate's edits, in this checkout or in a copy."""
    return top / "crates" / crate / place


def edits_in(crate: str, place: str) -> list[str]:
    """The names of a crate's edits in one of its folders."""
    return sorted(it.stem for it in folder_of(crate, place).glob("*.edit"))


def all_in(place: str) -> Edits:
    """The edits of all crates in one of their folders."""
    found = {crate: edits_in(crate, place) for crate in dependencies()}
    return {crate: edits for crate, edits in found.items() if edits}


def names_of(edits: Edits) -> list[str]:
    """The whole names of edits, CRATE/MISTAKE."""
    return [f"{crate}/{it}" for crate in edits for it in edits[crate]]


def by_crate(names: Iterable[str]) -> Edits:
    """The edits of these whole names."""
    found: Edits = {}
    for crate, mistake in (it.split("/") for it in names):
        found.setdefault(crate, []).append(mistake)
    return found


class Sums:
    """The checksums of edits by the files below one folder. Each crate is read once."""

    def __init__(self, top: Path) -> None:
        version = subprocess.run(["rt", "version"], stdout=subprocess.PIPE, text=True, check=True).stdout
        lines = (it.split("#")[0].strip() for it in (top / "crates.txt").read_text(encoding="utf-8").splitlines())
        self.top, self.toolchain, self.uses = top, version.splitlines()[0], dependencies()
        self.lines = {it.split(":")[0].split()[0]: it for it in lines if it}
        self.crates: dict[str, bytes] = {}

    def of_crate(self, crate: str) -> bytes:
        """The checksum of a crate: its line, and its files in the order of their paths."""
        if crate not in self.crates:
            folder = self.top / "crates" / crate
            files = (it for part in PARTS for it in (folder / part).rglob("*") if it.is_file())
            total = hashlib.sha256(f"{self.lines[crate]}\n".encode())
            for path in sorted(it.relative_to(folder).as_posix() for it in files):
                content = (folder / path).read_bytes()
                total.update(f"{path} {len(content)}\n".encode() + content)
            self.crates[crate] = total.digest()
        return self.crates[crate]

    def of_edit(self, crate: str, edit: Path) -> str:
        """The checksum in the line of an edit: over the toolchain, the edit, its crate, and those below in the order of their names."""
        total = hashlib.sha256(f"{self.toolchain}\n".encode())
        total.update(hashlib.sha256(edit.read_bytes()).digest())
        for it in [crate, *sorted(below(crate, self.uses))]:
            total.update(self.of_crate(it))
        return total.hexdigest()[:DIGITS]

    def of_edits(self, edits: Edits, place: str) -> dict[str, str]:
        """The checksums of edits in one folder of their crates, by their whole names."""
        pairs = [(crate, it) for crate in edits for it in edits[crate]]
        return {f"{crate}/{it}": self.of_edit(crate, folder_of(crate, place, self.top) / f"{it}.edit") for crate, it in pairs}


def read_record() -> dict[str, str]:
    """The checksums of the record, by the whole names of edits. A line of another form is left out."""
    text = RECORD.read_text(encoding="utf-8") if RECORD.is_file() else ""
    lines = [it.split() for it in text.splitlines() if not it.startswith("#")]
    return {it[0]: it[1] for it in lines if len(it) == 2}


def text_of(sums: dict[str, str]) -> str:
    """The text of a record, which is the same on every machine."""
    return HEAD + "".join(f"{name} {sums[name]}\n" for name in sorted(sums))


def write_record(crates: list[str], sums: dict[str, str]) -> None:
    """Writes new lines, and removes each line of these crates that has no edit; of all crates if none is given."""
    edits, lines = {*names_of(all_in(RECORDED))}, read_record()
    left = {name: lines[name] for name in lines if name in edits or (crates and name.split("/")[0] not in crates)}
    RECORD.write_text(text_of(left | sums), encoding="utf-8")


def without_line(edits: Edits) -> Edits:
    """Those of some recorded edits that have no current line."""
    lines, sums = read_record(), Sums(ROOT).of_edits(edits, RECORDED)
    return by_crate(it for it in names_of(edits) if lines.get(it) != sums[it])


def faults(edits: Edits, old: Edits) -> Iterator[str]:
    """What is wrong with the record, by all recorded edits and by those that have no current line."""
    lines = read_record()
    for it in names_of(old):
        yield f"{it}: its line is not current" if it in lines else f"{it}: it has no line"
    for it in sorted({*lines} - {*names_of(edits)}):
        yield f"{it}: it has a line, and there is no such recorded edit"
    if RECORD.is_file() and RECORD.read_text(encoding="utf-8") != text_of(lines):
        yield "its text is not what tools/edits.py writes"


def ask_record() -> int:
    """Prints what is wrong with the record, and how to mend it; status 1 if anything is."""
    edits = all_in(RECORDED)
    old = without_line(edits)
    found = list(faults(edits, old))
    print("".join(f"{RECORD.name}: {it}\n" for it in found), end="")
    print(f"{len(names_of(edits))} recorded edits, {len(names_of(old))} without a current line")
    if found:
        print("tools/edits.py --record tries these edits, and writes the record")
    return 1 if found else 0
