#!/usr/bin/env python3
"""Lines a second and megabytes of hex a second of `archive_tool run`, over a disk in memory, beside a plain program (plain.rs).

Usage: bench/lines.py [program]. Each answers 200,000 `block` lines of one frame each, of 64 and of 1,408 bytes; the best of
five runs counts, one after another.
"""
import sys
from pathlib import Path

from measure import compiled, cost
from lib.tool import Fault, Stream, program, room

STREAM = Stream(term_length=2**30, segment_length=2**30)
LINES = 200_000
RUNS = 5


def write_lines(path: Path, size: int) -> None:
    """A start and so many blocks of one frame."""
    payload = bytes(number % 251 for number in range(size - 32))
    with open(path, "w") as script:
        print(STREAM.start("c"), file=script)
        for position in range(0, LINES * size, size):
            print(f"block 0 {STREAM.message(position, payload).hex()}", file=script)


def measure(name: str, words: list[str | Path], work: Path, size: int) -> tuple[float, int]:
    """The lines a second of a program, and the most megabytes that it held."""
    told = work / "told"
    costs = [cost(words, work / str(size), told) for _ in range(RUNS)]
    if (last := told.read_text().splitlines()[-1]) != f"settled {LINES * size}":
        raise Fault(f"{name}: the last line was answered {last}")
    rate = LINES / min(it.clock for it in costs)
    print(f"{name:6} frames of {size:5,} bytes: {rate:9,.0f} lines/s {rate * size * 2 / 1e6:7.1f} MB/s of hex", flush=True)
    return rate, max(it.kibibytes for it in costs) // 1_024


def main() -> int:
    tool = program(sys.argv[1] if len(sys.argv) > 1 else None)
    with room() as work:
        plain = compiled("plain.rs", work)
        for size in (64, 1_408):
            write_lines(work / str(size), size)
            plain_rate, _ = measure("plain", [plain], work, size)
            rate, most = measure("proved", [tool, "run"], work, size)
            print(f"{rate / plain_rate:.2f} of plain, {most} MB at most")
    return 0


if __name__ == "__main__":
    sys.exit(main())
