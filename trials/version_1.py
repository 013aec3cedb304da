#!/usr/bin/env python3
"""Opens copies of the archives in `version_1/`, whose catalogues have version 1, and compares what the program prints with what is kept.

A folder has the files of an archive in `archive/` and the lines that made it in `made.lines`. It keeps the output of `list --read-only`
in `looked.txt`, of `list` in `list.txt`, of `verify` in `verify.txt`, and of a replay of each recording in `replay.txt`. The program has
to print the same, and `readers/` has to read the same. A look changes no byte. An opening adds one Restart to the bank in use, and
changes no other byte. Then a recording with a source is refused, and the catalogue stays in version 1; behind `compact` it has
version 2, the same recordings and the same next id, and takes that recording.

Usage: trials/version_1.py [program].
"""
from pathlib import Path

from lib.comparison import Files, after_an_opening, ended, write
from readers.archive import Archive, files_of, looked_at, opened
from readers.catalogue import BANKS, read_banks
from lib.tool import Stream, conclude, expect, program, room, run, trial_words

DATA = Path(__file__).resolve().parent / "version_1"
IN_USE = {"bank_a": BANKS[0], "bank_b": BANKS[1]}
SOURCE = "127.0.0.1:40123"


def replays(archive: Archive) -> list[str]:
    """Lines that replay each recording."""
    lines = []
    for number, known in enumerate(archive.register.listed()):
        lines += [f"replay {known.number} -1 -1", f"poll {number} 4096"]
    return lines


def try_told(tool: Path, folder: Path, kept: Path, words: list[str], lines: list[str], read: list[str]) -> None:
    """Compares the output of a command, the text that is kept and the answer of the reader."""
    done = ended(tool, words[0], folder, *words[2:], given="".join(f"{line}\n" for line in lines).encode())
    right = (kept / words[1]).read_text()
    expect(f"{words[0]} of {kept.name}", (done.returncode, done.stdout.decode()), (0, right))
    expect(f"the reader's answer on {kept.name}, against {words[1]}", read, right.splitlines())


def version(folder: Path) -> int:
    """The version of the catalogue in a folder."""
    return read_banks(files_of(folder).get).version


def try_compacted(tool: Path, folder: Path, next_id: int) -> None:
    """Tries a recording with a source, before a compaction and behind it."""
    listed = run([tool, "list", folder])
    start = Stream(term_length=65_536, segment_length=131_072).start("with a source").replace("start ", f"start-from {SOURCE} ", 1)
    expect(f"a source in {folder.name}", run([tool, "run", folder], [start, "reopen"]), ["error 23 NeedCompact", "reopened 0"])
    expect(f"the version of {folder.name} behind openings", version(folder), 1)
    expect(f"compact {folder.name}", run([tool, "compact", folder]), ["compacted"])
    expect(f"the version of {folder.name} behind a compaction", version(folder), 2)
    expect(f"list {folder.name} behind a compaction", run([tool, "list", folder]), listed)
    told = run([tool, "run", folder], [start, f"source {next_id}", *(f"source {line.split()[1]}" for line in listed[:-1])])
    right = [f"started {next_id} 0", f"source {len(SOURCE)} {SOURCE}", *["source 0"] * (len(listed) - 1)]
    expect(f"sources in {folder.name}", told, right)
    expect(f"the reader's source in {folder.name}", read_banks(files_of(folder).get).register.recordings[next_id].source, SOURCE.encode())


def try_kept(tool: Path, folder: Path, kept: Path) -> None:
    """Looks at a copy of an archive that is kept, and opens it."""
    files: Files = files_of(kept / "archive")
    write(folder, files)
    archive, now = looked_at(files), opened(files)
    verified = [told for each in archive.register.listed() for told in archive.answer(f"verify {each.number}")]
    try_told(tool, folder, kept, ["list", "looked.txt", "--read-only"], [], archive.answer("list 0 1024"))
    try_told(tool, folder, kept, ["verify", "verify.txt", "--read-only"], [], verified)
    expect(f"{kept.name} after looks", files_of(folder), files)
    try_told(tool, folder, kept, ["list", "list.txt"], [], now.answer("list 0 1024"))
    try_told(tool, folder, kept, ["verify", "verify.txt"], [], verified)
    try_told(tool, folder, kept, ["run", "replay.txt"], replays(now), now.answers(replays(now)))
    expect(f"{kept.name} after openings", files_of(folder), after_an_opening(files))


def try_archive(tool: Path, folder: Path, kept: Path, bank: str) -> None:
    """Tries one of the archives."""
    known = read_banks(files_of(kept / "archive").get)
    expect(f"the bank in use of {kept.name}, and its version", (known.bank, known.version), (bank, 1))
    try_kept(tool, folder, kept)
    try_compacted(tool, folder, known.register.next_id)
    print(f"{kept.name}: {len(known.entries)} entries, {len(known.register.recordings)} recordings, as they are kept")


def main() -> int:
    asked = trial_words(__doc__).parse_args()
    tool = program(asked.program)
    with room() as work:
        for name, bank in IN_USE.items():
            try_archive(tool, work / name, DATA / name, bank)
    return 0


if __name__ == "__main__":
    conclude(main)
