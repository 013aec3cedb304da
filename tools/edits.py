#!/usr/bin/env python3
"""Tries must-fail edits that `rt ci` does not try, writes the record of the recorded ones, and reads the texts of all.

Usage: tools/edits.py [NAME ..]   tries the edits in crates/CRATE/aside: all of them, or those of each NAME, which is a CRATE, or one
                                  edit of aside or recorded, CRATE/MISTAKE; status 1 unless the prover refuses each
       tools/edits.py --record [--anew] [CRATE ..]   tries the edits in crates/CRATE/recorded that have no current line in
                                  must-fail.sums, with --anew all of them; of each CRATE, or of all crates. If the prover refuses
                                  each, it writes their lines. Else it writes nothing, and the status is 1
       tools/edits.py --current   proves nothing, and takes a second: status 1 unless each recorded edit has a current line, and each
                                  line its edit
       tools/edits.py --sample N  tries N recorded edits, whatever the record says; status 1 unless the prover refuses each. The
                                  commit's hash chooses them, so that no person does, and the same commit has the same sample
       rt ci | tools/edits.py --sample N --beside   the same beside an `rt ci`, whose lines it prints on
       tools/edits.py --texts     proves nothing: reads the edits in must-fail, recorded and aside, and prints each that no longer
                                  applies; status 1 if there is one

A NAME is tried by `rt must-fail`, in a copy of its crate and of those below it. That begins with what `rt check` kept. Libraries that
this checkout has proved are not proved again: `tools/libraries.py` proves them side by side.

--record and --sample try by `rt ci`, in a copy that has nothing but the crates of these edits, those below them, and the edits. For
`rt ci` takes each library that a run of it has proved on this machine, and keeps for the gate what it has to prove there. `rt must-fail`
takes none of these, and would prove each library once more. So an edit costs a proof of its crate, and nothing if this machine has
refused it over the same files.

With --beside the sample begins once `rt ci` has printed of each crate that the sample needs that it is proved or kept. Earlier, both
runs would prove the same crates. Later, after `rt ci`, the gate would take minutes longer. Beside `rt ci` the sample uses processors
that are idle, since it makes one check at a time, at the lowest priority. If tools/jobs.py prints nothing, or 1, memory is short, and
the sample begins after `rt ci`. If `rt ci` fails before the sample begins, no edit is tried. The lines of the sample come before the
last line of `rt ci`; if an edit is not refused, they come after it.
"""
import argparse
import hashlib
import os
import re
import shutil
import subprocess
import sys
import tempfile
from collections.abc import Iterator
from concurrent.futures import Future, ThreadPoolExecutor
from pathlib import Path
from typing import NamedTuple

from edit_record import (
    ASIDE,
    FOLDERS,
    GATE,
    RECORD,
    RECORDED,
    Edits,
    Sums,
    all_in,
    ask_record,
    by_crate,
    edits_in,
    folder_of,
    names_of,
    without_line,
    write_record,
)
from jobs import jobs
from libraries import COPIES, below, copied, link
from repository import ROOT, dependencies

FILE_NAME = re.compile(r"[A-Za-z0-9_-][A-Za-z0-9_.-]*\.edit")
VERDICT = re.compile(r"^rt: must-fail ([\w-]+/[\w.-]+)\.edit: (.*)")
REFUSED = "refused, as it must be"
# What `rt ci` prints of a crate once it is proved, as its last line, and as that of a run that passed.
PROVED = re.compile(r"^rt: (\w+) (?:proved$|is kept: )")
END, WELL = (re.compile(rf"^\d+ passed, {failed} failed") for failed in (r"\d+", "0"))


def misfit(edit: Path) -> str:
    """Why an edit does not apply, by what `rt` asks of it; empty if it does. A pair applies after those before it."""
    crate, path, old, pairs = edit.parent.parent, "", "", 0
    texts: dict[str, str] = {}
    for line in edit.read_text(encoding="utf-8", errors="replace").split("\n"):
        if line.startswith("file: "):
            path = line[len("file: ") :].strip()
            if os.path.normpath(path) != path or not path.startswith(("src/", "specs/", "proofs/")):
                return f"{path} is not a file below src/, specs/ or proofs/"
        elif line.startswith("old: "):
            old = line[len("old: ") :]
        elif line.startswith("new:"):
            if not path or not old:
                return "a 'new:' line comes before a 'file:' and an 'old:' line"
            if not (crate / path).is_file():
                return f"there is no file {path}"
            if path not in texts:
                texts[path] = (crate / path).read_text(encoding="utf-8")
            if (count := texts[path].count(old)) != 1:
                return f"{path} has its old text {count} times, and not once: {old.strip()}"
            texts[path] = texts[path].replace(old, line[len("new:") :].removeprefix(" "))
            old, pairs = "", pairs + 1
    if old:
        return "an 'old:' line has no 'new:' line after it"
    return "" if pairs else "it has no pair of an 'old:' and a 'new:' line"


def misfits() -> Iterator[str]:
    """The edits of all folders that do not apply, each with why."""
    for crate in dependencies():
        taken: set[str] = set()
        for place in FOLDERS:
            folder = folder_of(crate, place)
            for path in sorted(it for it in folder.rglob("*") if it.is_file()):
                if path.parent == folder and FILE_NAME.fullmatch(path.name):
                    why = "another folder has an edit of this name" if path.stem in taken else misfit(path)
                else:
                    why = "" if path.suffix == ".md" else "it is not an edit right in its folder"
                if why:
                    yield f"{path.relative_to(ROOT)}: {why}"
            taken |= {*edits_in(crate, place)}


def read_texts() -> int:
    """Prints the edits that do not apply, and how many there are in each folder."""
    bad = list(misfits())
    print("".join(f"{it}\n" for it in bad), end="")
    gate, recorded, aside = (len(names_of(all_in(it))) for it in FOLDERS)
    print(f"{gate} edits that rt ci tries, {recorded} by record, {aside} aside; {len(bad)} do not apply")
    return 1 if bad else 0


class Tried(NamedTuple):
    """What came of a try of edits: what is to be printed, and how many the prover did not refuse."""

    said: str
    failed: int


def verdicts(said: str) -> dict[str, str]:
    """What `rt` says of each edit, by its whole name. That may be several lines."""
    found: dict[str, str] = {}
    name = ""
    for line in said.splitlines():
        if head := VERDICT.match(line):
            name, found[head[1]] = head[1], head[2]
        elif line.startswith("rt: ") or END.match(line):
            name = ""
        elif name:
            found[name] += f"\n  {line}"
    return found


def judged(edits: Edits, said: str) -> Tried:
    """What came of edits, by what `rt` said; all of that if it says nothing of one."""
    found, names = verdicts(said), names_of(edits)
    lines = [f"{it}: {found.get(it, 'NOT TRIED')}\n" for it in names]
    if any(it not in found for it in names):
        lines.append(said)
    return Tried("".join(lines), sum(not found.get(it, "").startswith(REFUSED) for it in names))


def summary(edits: Edits, failed: int) -> str:
    """A line that says how many edits the prover refused."""
    return f"{len(names_of(edits)) - failed} refused, {failed} not\n"


def put(crate: str, edits: list[str], copy: Path) -> None:
    """Puts edits of aside and recorded where `rt` tries them in a copy."""
    to = folder_of(crate, GATE, copy)
    to.mkdir()
    for it in edits:
        place = RECORDED if it in edits_in(crate, RECORDED) else ASIDE
        shutil.copy(folder_of(crate, place) / f"{it}.edit", to)


def ran(words: list[str], copy: Path, room: dict[str, str] | None = None) -> str:
    """What a command prints in a copy."""
    how = {"stdin": subprocess.DEVNULL, "stdout": subprocess.PIPE, "stderr": subprocess.STDOUT, "text": True, "errors": "replace"}
    return subprocess.run(words, cwd=copy, env=room, **how).stdout


# ---- one crate's edits, by rt must-fail


def chosen(names: list[str]) -> Edits:
    """The edits that are asked for by names; all those aside without a name."""
    crates = list(dependencies())
    found: Edits = {}
    for name in names or crates:
        crate, _, mistake = name.partition("/")
        aside, recorded = (edits_in(crate, it) if crate in crates else [] for it in (ASIDE, RECORDED))
        if crate not in crates or (mistake and mistake not in aside + recorded):
            sys.exit(f"there is no {'edit aside or recorded' if mistake else 'crate'} {name}")
        if names and not mistake and not aside:
            print(f"{crate} has no edit aside")
        found[crate] = sorted({*found.get(crate, []), *([mistake] if mistake else aside)})
    return {crate: edits for crate, edits in found.items() if edits}


def tried_alone(crate: str, edits: list[str], room: Path) -> Tried:
    """Tries edits of a crate in a copy of it and of what it stands on."""
    lower = below(crate, dependencies())
    copy = copied(room / crate, [*lower, crate])
    for it in lower:
        link(it, ROOT, copy)
    if (kept := ROOT / "crates" / crate / "out/incremental").is_dir():
        shutil.copytree(kept, copy / "crates" / crate / "out/incremental")
    put(crate, edits, copy)
    said = ran(["rt", "must-fail", crate], copy)
    shutil.rmtree(copy)
    return judged({crate: edits}, said)


def try_all(edits: Edits) -> int:
    """Tries edits, several crates side by side."""
    failed = 0
    with tempfile.TemporaryDirectory(prefix="edits-") as room, ThreadPoolExecutor(COPIES) as pool:
        for tried in pool.map(lambda crate: tried_alone(crate, edits[crate], Path(room)), edits):
            print(tried.said, end="", flush=True)
            failed += tried.failed
    print(summary(edits, failed), end="")
    return 1 if failed else 0


# ---- recorded edits, by rt ci


class Trial:
    """Recorded edits in a copy of what `rt ci` reads to try them. What changes in the checkout meanwhile does not count."""

    def __init__(self, edits: Edits, copy: Path) -> None:
        uses = dependencies()
        self.edits, self.copy = edits, copy
        self.crates = {it for crate in edits for it in [*below(crate, uses), crate]}
        # (a folder .git, since `rt ci` runs at the top of a repository)
        (copy / ".git").mkdir(parents=True)
        copied(copy, [it for it in uses if it in self.crates])
        shutil.copy(ROOT / "HANDLES", copy)
        for crate in edits:
            put(crate, edits[crate], copy)

    def sums(self) -> dict[str, str]:
        """The checksums of the edits by the copy, which are those of the record once the prover refused them."""
        return Sums(self.copy).of_edits(self.edits, GATE)

    def run(self, is_beside: bool = False) -> Tried:
        """Tries the edits: beside another run one at a time, at the lowest priority, else as many as tools/jobs.py says."""
        if not self.edits:
            return Tried("", 0)
        at_a_time = 1 if is_beside else jobs()
        room = os.environ | ({"RT_JOBS": str(at_a_time)} if at_a_time else {})
        words = ["nice", "-n", "19"] if is_beside else []
        return judged(self.edits, ran([*words, "rt", "ci"], self.copy, room))


def record(crates: list[str], is_anew: bool) -> int:
    """Tries the recorded edits of these crates, of all if none is given, and writes their lines if the prover refused each."""
    if unknown := [it for it in crates if it not in dependencies()]:
        sys.exit(f"there is no crate {', '.join(unknown)}")
    every = {crate: edits for crate, edits in all_in(RECORDED).items() if crate in crates or not crates}
    edits = every if is_anew else without_line(every)
    if bad := [it for it in misfits() if it.split("/")[1] in every and f"/{RECORDED}/" in it]:
        sys.exit("\n".join([*bad, "no edit was tried"]))
    print(f"{len(names_of(every))} recorded edits, of which {len(names_of(edits))} are tried", flush=True)
    with tempfile.TemporaryDirectory(prefix="edits-") as room:
        trial = Trial(edits, Path(room) / "copy")
        sums, tried = trial.sums(), trial.run()
    print(tried.said + summary(edits, tried.failed), end="")
    if tried.failed:
        print(f"{RECORD.name} stays as it was")
        return 1
    write_record(crates, sums)
    return 0


def sampled(count: int) -> Edits:
    """Some recorded edits, chosen by the commit's hash."""
    # (git reads a clone of another user only if it is named)
    words = ["git", "-c", f"safe.directory={ROOT}", "rev-parse", "HEAD"]
    commit = subprocess.run(words, cwd=ROOT, stdout=subprocess.PIPE, text=True, check=True).stdout.strip()
    mixed = sorted(names_of(all_in(RECORDED)), key=lambda it: hashlib.sha256(f"{commit} {it}".encode()).digest())
    return by_crate(sorted(mixed[:count]))


def lines_of(edits: Edits, tried: Tried) -> str:
    """What is printed of a sample."""
    return f"{tried.said}A sample of the recorded edits: {summary(edits, tried.failed)}"


def sample(count: int) -> int:
    """Tries a sample."""
    edits = sampled(count)
    with tempfile.TemporaryDirectory(prefix="edits-") as room:
        tried = Trial(edits, Path(room) / "copy").run()
    print(lines_of(edits, tried), end="")
    return 1 if tried.failed else 0


def sample_beside(count: int) -> int:
    """Tries a sample beside an `rt ci` whose lines are the standard input, and prints these on."""
    for it in (sys.stdin, sys.stdout):
        it.reconfigure(encoding="utf-8", errors="surrogateescape")
    with tempfile.TemporaryDirectory(prefix="edits-") as room, ThreadPoolExecutor(1) as pool:
        edits, has_memory = sampled(count), (jobs() or 1) > 1
        trial = Trial(edits, Path(room) / "copy")
        running: Future | None = None
        lacking, last = {*trial.crates}, ""
        for line in sys.stdin:
            if proved := PROVED.match(line):
                lacking.discard(proved[1])
            if not running and (WELL.match(line) or (has_memory and not lacking)):
                running = pool.submit(trial.run, True)
            print(last, end="")
            last = line if END.match(line) else ""
            if not last:
                print(line, end="", flush=True)
        tried = running.result() if running else None
    said = lines_of(edits, tried) if tried else "rt ci failed before a recorded edit was tried\n"
    failed = tried.failed if tried else 0
    print(last + said if failed else said + last, end="")
    return 1 if failed else 0


def asked() -> argparse.Namespace:
    """The words of the command line."""
    words = argparse.ArgumentParser(description=__doc__, formatter_class=argparse.RawDescriptionHelpFormatter, add_help=True)
    one = words.add_mutually_exclusive_group()
    for it in ("--record", "--current", "--texts"):
        one.add_argument(it, action="store_true")
    one.add_argument("--sample", type=int, metavar="N")
    words.add_argument("--anew", action="store_true")
    words.add_argument("--beside", action="store_true")
    words.add_argument("names", nargs="*", metavar="NAME")
    found = words.parse_args()
    if found.names and (found.current or found.texts or found.sample is not None):
        words.error("only --record takes names")
    if (found.anew and not found.record) or (found.beside and found.sample is None):
        words.error("--anew goes with --record, and --beside with --sample")
    return found


def main() -> int:
    words = asked()
    if words.texts:
        return read_texts()
    if words.current:
        return ask_record()
    if words.record:
        return record(words.names, words.anew)
    if words.sample is not None:
        return sample_beside(words.sample) if words.beside else sample(words.sample)
    return try_all(chosen(words.names))


if __name__ == "__main__":
    sys.exit(main())
