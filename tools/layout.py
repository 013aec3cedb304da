#!/usr/bin/env python3
"""Asks that `rt fmt` leaves every file of the crates as it is.

Usage: tools/layout.py [CRATE ..]   prints each file that `rt fmt` would change; status 1 if there is one
The crates are copied below a temporary folder, and `rt fmt` runs there, several at a time: this checkout stays as it is. Nothing is
proved, and it takes half a second of a processor for each crate.
"""
import os
import shutil
import subprocess
import sys
import tempfile
from concurrent.futures import ThreadPoolExecutor
from pathlib import Path

from repository import ROOT, dependencies

PARTS = ("src", "specs", "proofs")


def files_of(crate: Path) -> dict[str, bytes]:
    """The files of a crate that are laid out, with what they have."""
    paths = [it for part in PARTS for it in sorted((crate / part).glob("**/*")) if it.suffix in (".rt", ".antt")]
    return {it.relative_to(crate).as_posix(): it.read_bytes() for it in paths}


def changed(crate: str, room: Path) -> list[str]:
    """The files of a crate that `rt fmt` changes in a copy, or what it says if it fails."""
    own, copy = ROOT / "crates" / crate, room / "crates" / crate
    for part in PARTS:
        if (own / part).is_dir():
            shutil.copytree(own / part, copy / part)
    ran = subprocess.run(["rt", "fmt"], cwd=copy, stdin=subprocess.DEVNULL, stdout=subprocess.PIPE, stderr=subprocess.STDOUT, text=True)
    if ran.returncode:
        return [f"crates/{crate}: rt fmt ends with status {ran.returncode}: {ran.stdout.strip()}"]
    after = files_of(copy)
    return [f"crates/{crate}/{name}: rt fmt changes it" for name, text in files_of(own).items() if after.get(name) != text]


def main() -> int:
    crates = sys.argv[1:] or list(dependencies())
    if unknown := [it for it in crates if it not in dependencies()]:
        sys.exit(f"there is no crate {', '.join(unknown)}")
    with tempfile.TemporaryDirectory(prefix="layout-") as room, ThreadPoolExecutor(max(1, os.cpu_count() or 1)) as pool:
        shutil.copy(ROOT / "crates.txt", room)
        found = [line for lines in pool.map(lambda it: changed(it, Path(room)), crates) for line in lines]
    print("".join(f"{it}\n" for it in found), end="")
    print(f"{len(crates)} crates, {len(found)} findings")
    return 1 if found else 0


if __name__ == "__main__":
    sys.exit(main())
