#!/usr/bin/env python3
"""What the layers below the program cost over a disk in memory, by the program of crates/trial_layers.

Usage: bench/layers.py. First: cd crates/trial_layers && rt run -- disk 1

A bank of 100,000 entries is opened, beside a plain Rust fold over the same bytes (catalogue.rs); blocks of 46 frames of 1,408
bytes are written to segment files and synced, and each of their 100,004 frames is read; ten megabytes are written in calls of
64 bytes, with a sync after each ten, to one file and to 64 in turn. The best of five runs counts, less the run that only makes
what is measured.
"""
import subprocess
import sys
from pathlib import Path

from measure import compiled, cost, seconds
from lib.tool import ROOT, Fault, needs, room

PROGRAM = ROOT / "crates/trial_layers/out/trial_layers"
RUNS, OPENINGS, ENTRIES = 5, 20, 100_000
BLOCKS, FRAMES, LENGTH = 2_174, 2_174 * 46, 1_408


def best(words: list[str | Path], right: str) -> float:
    """Seconds of the best of some runs, which have to print this."""
    told = subprocess.run(words, capture_output=True, text=True, check=True).stdout.split()[0]
    if told != right:
        raise Fault(f"{words}: {told}, and not {right}")
    return min(seconds(words) for _ in range(RUNS))


def opening(words: list[str | Path]) -> float:
    """Milliseconds of one opening."""
    many, none = best([*words, str(OPENINGS)], str(OPENINGS * ENTRIES)), best([*words, "0"], "0")
    return (many - none) / OPENINGS * 1_000


def measure_catalogue(work: Path) -> None:
    proved, plain = opening([PROGRAM, "catalogue"]), opening([compiled("catalogue.rs", work)])
    print(f"a bank of {ENTRIES:,} entries: opened in {proved:.1f} ms, by plain Rust in {plain:.1f} ms", flush=True)


def measure_segments() -> None:
    read_bytes = str(FRAMES * (LENGTH - 32))
    made, stored, read = (best([PROGRAM, "segments", n], right) for n, right in (("0", "0"), ("1", "0"), ("2", read_bytes)))
    most = cost([PROGRAM, "segments", "2"]).kibibytes // 1_024
    print(f"written and synced: {FRAMES / (stored - made):,.0f} frames/s, {FRAMES * LENGTH / (stored - made) / 1e6:,.0f} MB/s, "
          f"{BLOCKS / (stored - made):,.0f} blocks/s; read: {FRAMES / (read - stored):,.0f} frames/s, "
          f"{FRAMES * LENGTH / (read - stored) / 1e6:,.0f} MB/s; {most} MB at most", flush=True)


def measure_disk() -> None:
    for files in ("1", "64"):
        print(f"163,840 writes and 16,384 syncs of {files} files: {best([PROGRAM, 'disk', files], '180224'):.2f} s")


def main() -> int:
    needs(PROGRAM)
    with room() as work:
        measure_catalogue(work)
        measure_segments()
        measure_disk()
    return 0


if __name__ == "__main__":
    sys.exit(main())
