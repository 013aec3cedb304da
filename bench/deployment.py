#!/usr/bin/env python3
"""The numbers of docs/STORAGE.md, "Plan a deployment", measured on the built program.

Usage: bench/deployment.py [program], on the file system of TRIAL_ROOM, else that of TMPDIR. `strace` counts the system calls.

Each table of that section is printed: what a settle costs, how long a history lasts, what an opening costs by entries and by
segment files, how many files are open, and what a terabyte a day takes.
"""
import re
import shutil
import sys
import time
from pathlib import Path

from measure import seconds
from settles import STREAM, write_lines
from lib.tool import MTU, Session, Stream, bank, expect, file_system, program, room, run, settle_entry, stop_entry

SHORT = Stream(term_length=65_536, segment_length=65_536)
BLOCKS = {"one frame of 64 bytes": (1, 64, 2_000), "46 frames of 1,408 bytes": (46, MTU, 500)}
HISTORIES = 1_048_576, 16_777_216
DAY = 86_400


def made(tool: Path, work: Path) -> Path:
    """A folder with a new archive."""
    folder = work / "archive"
    shutil.rmtree(folder, ignore_errors=True)
    run([tool, "create", "--history", str(HISTORIES[1]), folder])
    return folder


def calls(words: list[str | Path], given: Path, work: Path) -> dict[str, int]:
    """How often a command makes each system call."""
    summary = work / "summary"
    seconds(["strace", "-f", "-c", "-U", "name,calls", "-o", summary, *words], given)
    return {name: int(count) for name, count in re.findall(r"^\s*(\w+)\s+(\d+)\s*$", summary.read_text(), re.M)}


def measure_settles(tool: Path, work: Path) -> None:
    """Settles a second, and the bytes and calls of each."""
    script = work / "script"
    for name, (frames, length, settles) in BLOCKS.items():
        write_lines(script, settles, frames, length)
        taken, size = [], frames * length
        for _ in range(3):
            folder = made(tool, work)
            taken.append(seconds([tool, "run", folder], script))
        rate = settles / min(taken)
        entries = (folder / "catalogue-a.bank").stat().st_size - 88
        print(f"a settle of {name}: {rate:,.0f} a second, {rate * size / 1e6:,.1f} MB/s, {entries / settles:g} bytes of the catalogue")
    counts = []
    for settles in (100, 200):
        write_lines(script, settles, 1, 64)
        counts.append(calls([tool, "run", made(tool, work)], script, work))
    more = {name: (count - counts[0].get(name, 0)) / 100 for name, count in counts[1].items() if name != "total"}
    print("system calls of a settle: " + ", ".join(f"{name} {count:g}" for name, count in sorted(more.items()) if count >= 0.5))


def tell_histories() -> None:
    """How long a history lasts."""
    for limit in HISTORIES:
        lasts = ", ".join(f"{rate:,} a second {limit / rate / 3_600:,.1f} h" for rate in (1, 10, 100, 1_000))
        print(f"a history of {limit:,} entries, 20 bytes each, {limit * 20 / 2**20:,.0f} MiB: {lasts}")


def opened(tool: Path, folder: Path, end: int) -> tuple[float, float]:
    """Seconds and the most megabytes of memory of an opening that answers where the recording ends."""
    taken, most = [], 0
    for _ in range(3):
        begin = time.monotonic()
        session = Session(tool, folder)
        expect("an opening", session.ask("positions 0"), [f"positions 0 {end} {end}"])
        taken.append(time.monotonic() - begin)
        status = Path(f"/proc/{session.process.pid}/status").read_text()
        most = max(most, int(re.search(r"VmHWM:\s+(\d+) kB", status)[1]))
        session.end()
    return min(taken), most / 1_024


def measure_openings(tool: Path, work: Path) -> None:
    """What an opening costs, by entries and by segment files."""
    for count in (3, 1_000, 100_000, 1_000_000, 4_000_000):
        folder = made(tool, work)
        settles = [settle_entry(0, 64 * number) for number in range(1, count - 1)]
        entries = [STREAM.start_entry(0, b"c"), *settles, stop_entry(0, 2_000)]
        (folder / "catalogue-a.bank").write_bytes(bank(HISTORIES[1], entries))
        del settles, entries
        taken, most = opened(tool, folder, 64 * (count - 2))
        print(f"an opening with {count:,} entries: {taken:.3f} s, {most:.1f} MB at most", flush=True)
    for count in (1, 100, 1_000):
        folder = made(tool, work)
        pads = (SHORT.header(begin, 65_536, 0).hex() for begin in range(0, count * 65_536, 65_536))
        run([tool, "run", folder], [SHORT.start("c"), *(f"block 0 {pad}" for pad in pads), "stop 0 2000"])
        taken, most = opened(tool, folder, 65_536 * count)
        traced = calls([tool, "run", folder], Path("/dev/null"), work)
        syncs = f"{traced['fdatasync']} fdatasync, {traced.get('fsync', 0)} fsync"
        print(f"an opening with {count:,} segment files: {taken:.3f} s, {syncs}, {most:.1f} MB at most", flush=True)


def count_open_files(tool: Path, work: Path) -> None:
    """How many files a process has open that has written to more than it may keep."""
    folder = made(tool, work)
    session = Session(tool, folder)
    for number in range(200):
        session.ask(SHORT.start("c"))
        session.ask(f"block {number} {SHORT.header(0, 65_536, 0).hex()}")
        session.ask(f"stop {number} 2000")
    names = [str(it.readlink()) for it in Path(f"/proc/{session.process.pid}/fd").iterdir()]
    own = sum(name.startswith(str(folder)) for name in names)
    print(f"open files behind 200 recordings: {len(names)}, of which {own} are the folder and its files")
    session.end()


def tell_terabyte() -> None:
    """What a terabyte a day takes, in blocks of 46 frames of 1,408 bytes."""
    size = 46 * MTU
    rate = 1e12 / DAY / size
    lasts = HISTORIES[1] / rate / 3_600
    print(f"a terabyte a day: {1e12 / DAY / 1e6:.1f} MB/s, {rate:.0f} settles of {size:,} bytes a second, {rate * DAY:,.0f} entries "
          f"a day, so a history of {HISTORIES[1]:,} lasts {lasts:.0f} h; {1e12 / 2**30:.0f} segment files of 1 GiB a day")


def main() -> int:
    tool = program(sys.argv[1] if len(sys.argv) > 1 else None)
    with room() as work:
        print(f"on {file_system(work)}", flush=True)
        measure_settles(tool, work)
        tell_histories()
        measure_openings(tool, work)
        count_open_files(tool, work)
        tell_terabyte()
    return 0


if __name__ == "__main__":
    sys.exit(main())
