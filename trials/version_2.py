#!/usr/bin/env python3
"""Opens copies of the archives in `version_2/`, and compares what the program prints with what an earlier program printed.

`checkpointed/` was made by a program that makes checkpoints, with two recordings active at the last one. `back/` is a copy of it in
which the program of commit 482ef0de, which knows no checkpoints, then recorded. Each folder has the files of the archive in `archive/`
and the lines that were run in `made.lines`. It keeps what the earlier program printed over a copy: `list --read-only` in
`looked.txt`, `list` in `list.txt`, `verify` in `verify.txt`, and a replay of each recording in `replay.txt`. The program has to print
the same, and `readers/` has to read the same. A look changes no byte, and an opening adds a Restart at most.

Usage: trials/version_2.py [program].
"""
from pathlib import Path

from readers.archive import files_of
from readers.catalogue import read_banks
from lib.tool import conclude, expect, program, room, trial_words
from version_1 import try_kept

DATA = Path(__file__).resolve().parent / "version_2"
NAMES = ("checkpointed", "back")


def main() -> int:
    asked = trial_words(__doc__).parse_args()
    tool = program(asked.program)
    with room() as work:
        for name in NAMES:
            known = read_banks(files_of(DATA / name / "archive").get)
            expect(f"the version of {name}", known.version, 2)
            try_kept(tool, work / name, DATA / name)
            print(f"{name}: {len(known.entries)} entries, {len(known.register.recordings)} recordings, as the earlier program reads them")
    return 0


if __name__ == "__main__":
    conclude(main)
