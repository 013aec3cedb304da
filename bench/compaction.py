#!/usr/bin/env python3
"""What a compaction costs, of an archive with 1,024 recordings and a million entries, in one run of the built program.

Usage: bench/compaction.py [program], on the file system of TRIAL_ROOM, else that of TMPDIR.

Told are processor seconds and memory of `list` over the long history, of `compact`, and of `list` behind it, beside those of a
history of three entries and of a new archive with as many recordings; and those of looks, which open nothing. It fails where
`compact` takes more than 2.5 times `list`, `list` behind it more than 1.2 times that of a new archive, or `list`, a look or
`describe` of the long history 8 MB more than of the short one.
"""
import sys
from collections.abc import Iterator
from functools import cache
from pathlib import Path

from deployment import HISTORIES, SHORT, made
from measure import Cost, cost
from lib.tool import Fault, bank, file_system, program, room, run, settle_entry, stop_entry

RECORDINGS, ENTRIES = 1_024, 1_000_000
RUNS = 5
# What reads an archive: the first opens it, and the others look at it as it stands.
READERS = ("list", "list --read-only", "describe")


def history(entries: int, recordings: int) -> Iterator[bytes]:
    """So many entries: recordings, one after another, each settled many times and stopped."""
    settles = (entries - 2 * recordings) // recordings
    for recording in range(recordings):
        yield SHORT.start_entry(recording, b"aeron:udp?endpoint=localhost:40123")
        for number in range(1, settles + 1):
            yield settle_entry(recording, 64 * number)
        yield stop_entry(recording, 2_000)


@cache
def catalogue(entries: int, recordings: int) -> bytes:
    """The bank of an archive with this history."""
    return bank(HISTORIES[1], history(entries, recordings))


def archive(tool: Path, work: Path, entries: int, recordings: int) -> Path:
    """A folder with an archive of this history. Opening and compacting read no segment file, so there is none."""
    folder = made(tool, work)
    (folder / "catalogue-a.bank").write_bytes(catalogue(entries, recordings))
    return folder


def median(costs: list[Cost]) -> tuple[float, float]:
    """The median processor seconds, and the median megabytes."""
    times = sorted(it.processor for it in costs)
    sizes = sorted(it.kibibytes for it in costs)
    return times[len(times) // 2], sizes[len(sizes) // 2] / 1_024


def measured(tool: Path, work: Path, command: str, entries: int, recordings: int, compacted: bool = False) -> tuple[float, float]:
    """What a command takes over a history, or behind its compaction."""
    costs = []
    for _ in range(RUNS):
        folder = archive(tool, work, entries, recordings)
        if compacted:
            run([tool, "compact", folder])
        costs.append(cost([tool, *command.split(), folder]))
    return median(costs)


def main() -> int:
    tool = program(sys.argv[1] if len(sys.argv) > 1 else None)
    with room() as work:
        print(f"{RECORDINGS:,} recordings, {ENTRIES:,} entries, on {file_system(work)}; medians of {RUNS}", flush=True)
        listed = measured(tool, work, "list", ENTRIES, RECORDINGS)
        compacts = measured(tool, work, "compact", ENTRIES, RECORDINGS)
        behind = measured(tool, work, "list", ENTRIES, RECORDINGS, compacted=True)
        fresh = measured(tool, work, "list", 2 * RECORDINGS, RECORDINGS)
        few = {words: measured(tool, work, words, 3, 1) for words in READERS}
        many = {words: measured(tool, work, words, ENTRIES, 1) for words in READERS}
        for name, (spent, size) in {
            "list": listed,
            "compact": compacts,
            "list behind it": behind,
            "list of a new archive": fresh,
            **{f"{words} of 3 entries": few[words] for words in READERS},
            **{f"{words} of as many entries of one recording": many[words] for words in READERS},
        }.items():
            print(f"{name}: {spent:.4f} s of a processor, {size:.1f} MB", flush=True)
        print(f"compact beside list: {compacts[0] / listed[0]:.2f} (at most 2.5)")
        print(f"list behind it beside that of a new archive: {behind[0] / fresh[0]:.2f} (at most 1.2)")
        grown = {words: many[words][1] - few[words][1] for words in READERS}
        for words, more in grown.items():
            print(f"memory of {words}, {ENTRIES:,} entries beside 3: {more:+.1f} MB (at most 8)")
        if compacts[0] > 2.5 * listed[0] or behind[0] > 1.2 * fresh[0] + 0.005 or max(grown.values()) > 8:
            raise Fault("over its goal")
    return 0


if __name__ == "__main__":
    sys.exit(main())
