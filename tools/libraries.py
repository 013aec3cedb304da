#!/usr/bin/env python3
"""Proves the libraries that the program stands on side by side, each as soon as those that it stands on are proved.

Usage: tools/libraries.py            status 0 where each library is proved
`rt` lets one call at a time work in a library and in all below it, so `rt run` proves one after another and leaves half of four
processors idle. So calls work in copies of the repository, side by side, as many as tools/jobs.py says; what is proved in one is
linked into those that need it, and at the end into this checkout, before the copies go. A library that few others can be proved
next to gets the processors that they leave.
"""
import os
import shutil
import subprocess
import sys
import time
from concurrent.futures import FIRST_COMPLETED, Future, ThreadPoolExecutor, wait
from pathlib import Path

from jobs import jobs
from repository import ROOT, dependencies

PROGRAM = "archive_tool"
COPIES = jobs() or 1


def below(crate: str, uses: dict[str, list[str]]) -> list[str]:
    """The libraries that a crate stands on, each after those that it stands on itself."""
    found: list[str] = []
    for used in uses[crate]:
        found += [it for it in [*below(used, uses), used] if it not in found]
    return found


def levels(crate: str, uses: dict[str, list[str]]) -> int:
    """How many proofs wait for one another above a library, up to the program's."""
    return max((1 + levels(it, uses) for it in uses if crate in uses[it]), default=0)


def copied(copy: Path, crates: list[str]) -> Path:
    """A copy of the repository with these crates."""
    for crate in crates:
        for part in ("src", "specs", "proofs"):
            if (folder := ROOT / "crates" / crate / part).is_dir():
                shutil.copytree(folder, copy / "crates" / crate / part)
    listed = (ROOT / "crates.txt").read_text().splitlines()
    (copy / "crates.txt").write_text("".join(f"{it}\n" for it in listed if it.split(":")[0] in crates))
    return copy


def link_file(own: str, other: str) -> None:
    """Links a file, or copies it to another file system."""
    try:
        os.link(own, other)
    except OSError:
        shutil.copy2(own, other)


def link(crate: str, top: Path, to: Path) -> None:
    """What is proved of a library below one folder stands below another, unless the same does there."""
    own, other = (it / "crates" / crate / "out/rlib" for it in (top, to))
    if not (own / "stamp").is_file() or ((other / "stamp").is_file() and (own / "stamp").read_bytes() == (other / "stamp").read_bytes()):
        return
    shutil.rmtree(other, ignore_errors=True)
    shutil.copytree(own, other, copy_function=link_file)


def prove(crate: str, copy: Path, proved: dict[str, Path], workers: int) -> tuple[str, int, str]:
    """Proves a library in a copy, over what was proved in others: its name, rt's status and what rt said."""
    link(crate, ROOT, copy)
    for it, top in proved.items():
        link(it, top, copy)
    began = time.monotonic()
    ran = subprocess.run(["rt", "lib", "--jobs", str(workers)], cwd=copy / "crates" / crate, capture_output=True, text=True)
    if ran.returncode == 0:
        print(f"{crate} proved, {time.monotonic() - began:.0f} s", flush=True)
    return crate, ran.returncode, ran.stdout + ran.stderr


def prove_all(left: list[str], uses: dict[str, list[str]], copies: list[Path]) -> str:
    """Proves libraries, as many at once as there are copies. Gives what rt said where one is not proved."""
    running: dict[Future, Path] = {}
    proved: dict[str, Path] = {}
    refused = ""
    with ThreadPoolExecutor(len(copies)) as pool:
        while running or (left and not refused):
            ready = sorted((it for it in left if set(uses[it]) <= set(proved)), key=lambda it: levels(it, uses))
            while ready and copies and not refused:
                workers = max(1, len(copies) // len(ready))
                crate, copy = ready.pop(), copies.pop()
                left.remove(crate)
                running[pool.submit(prove, crate, copy, dict(proved), workers)] = copy
            for done in wait(running, return_when=FIRST_COMPLETED).done:
                copies.append(copy := running.pop(done))
                crate, status, said = done.result()
                if status:
                    refused = refused or said
                else:
                    proved[crate] = copy
    for crate, copy in proved.items():
        link(crate, copy, ROOT)
    return refused


def main() -> int:
    listed = dependencies()
    left = below(PROGRAM, listed)
    uses = {it: listed[it] for it in [*left, PROGRAM]}
    room = ROOT / "out/copies"
    shutil.rmtree(room, ignore_errors=True)
    try:
        said = prove_all(list(left), uses, [copied(room / str(number), left) for number in range(COPIES)])
        print(said, end="")
        return 1 if said else max(subprocess.run(["rt", "lib"], cwd=ROOT / "crates" / it).returncode for it in uses[PROGRAM])
    finally:
        shutil.rmtree(room, ignore_errors=True)


if __name__ == "__main__":
    sys.exit(main())
