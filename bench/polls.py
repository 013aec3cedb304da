#!/usr/bin/env python3
"""Measures replays of a folder whose files are warm: polls of the engine, by the crate trial_lock, and `poll` lines of the
program, both beside a plain read of the same file and the lines beside coreutils' `basenc --base16` of the same bytes.

Usage: bench/polls.py [--runs N] [program], on the file system of TRIAL_ROOM, else that of TMPDIR. First
`cd crates/trial_lock && rt run -- memory 1 1`.

Every number is processor time, the median of --runs runs (5 by default). A replay costs what six of them in one process take
beside none, by six. The folder is written here, by docs/STORAGE.md. The calls that read it are counted by `strace`, if that is there.
"""
import argparse
import shutil
import statistics
import subprocess
import sys
from pathlib import Path

from measure import HERE, cost
from settles import MTU, POLLED, STREAM, message
from lib.tool import Fault, bank, file_system, program, room, settle_entry, stop_entry

SIZES = {64: 1_000_000, MTU: 142_046}  # bytes of a frame, and how many there are
REPLAYS = 6
CREW = HERE.parent / "crates/trial_lock/out/trial_lock"


def write_folder(folder: Path, length: int, count: int) -> None:
    """An archive with one recording of so many frames."""
    folder.mkdir()
    with open(folder / "0-0.rec", "wb") as segment:
        for place in range(0, length * count, length):
            segment.write(message(place, length))
    entries = [STREAM.start_entry(0, b"c"), settle_entry(0, length * count), stop_entry(0, 2_000)]
    (folder / "catalogue-a.bank").write_bytes(bank(1_048_576, entries))


def processor(words: list, runs: int, given: Path | None = None, into: Path | None = None) -> float:
    """The median of a command's processor seconds."""
    return statistics.median(cost(words, given, into).processor for _ in range(runs))


def engine_seconds(folder: Path, most: int, count: int, runs: int) -> float:
    """Processor seconds of one replay by polls of at most so many frames."""
    told = subprocess.run([CREW, "polls", folder, "1", str(most)], stdout=subprocess.PIPE, check=True).stdout.decode()
    if not told.startswith(f"{count} frames"):
        raise Fault(f"a replay of {count} frames gave {told}")
    many, none = (processor([CREW, "polls", folder, str(replays), str(most)], runs) for replays in (REPLAYS, 0))
    return (many - none) / REPLAYS


def calls_a_frame(folder: Path, count: int) -> str:
    """How many reads of files one replay makes for a frame."""
    if not shutil.which("strace"):
        return "not counted"
    traced = ["strace", "-f", "-c", "-e", "trace=pread64"]
    reads = []
    for replays in ("1", "0"):
        told = subprocess.run([*traced, CREW, "polls", folder, replays, "64"], stderr=subprocess.PIPE, stdout=subprocess.DEVNULL, check=True).stderr.decode()
        reads.append(sum(int(line.split()[3]) for line in told.splitlines() if line.endswith("pread64")))
    return f"{(reads[0] - reads[1]) / count:.3f}"


def lines_seconds(tool: Path, folder: Path, path: Path, count: int, runs: int) -> float:
    """Processor seconds of `poll` lines that give each frame."""
    script, none = path / "script", path / "none"
    script.write_text("\n".join(["replay 0 0 -1", *[f"poll 0 {POLLED}"] * -(-count // POLLED), "quit"]) + "\n")
    none.write_text("quit\n")
    return processor([tool, "run", folder], runs, script) - processor([tool, "run", folder], runs, none)


def main() -> int:
    words = argparse.ArgumentParser(description="Measures replays of a folder whose files are warm.")
    words.add_argument("program", nargs="?")
    words.add_argument("--runs", type=int, default=5, help="runs of each")
    asked = words.parse_args()
    tool = program(asked.program)
    with room() as path:
        print(f"medians of {asked.runs} runs on {file_system(path)}", flush=True)
        for length, count in SIZES.items():
            folder = path / f"archive-{length}"
            write_folder(folder, length, count)
            file, size = folder / "0-0.rec", length * count
            block = ["dd", f"if={file}", "of=/dev/null", "bs=65536", "status=none"]
            processor(block, 1)
            read = processor(block, asked.runs)
            print(f"frames of {length} bytes: a warm read {size / read / 1e9:.2f} GB/s", flush=True)
            for most in (64, 256, POLLED):
                taken = engine_seconds(folder, most, count, asked.runs)
                print(f"  polls of {most}: {taken / count * 1e9:.0f} ns a frame, {size / taken / 1e6:.0f} MB/s, {read / taken:.2f} of a warm read", flush=True)
            print(f"  reads of the file for a frame: {calls_a_frame(folder, count)}", flush=True)
            hexed = processor(["basenc", "--base16", "-w0", file], asked.runs)
            lines = lines_seconds(tool, folder, path, count, asked.runs)
            print(f"  lines of polls of {POLLED}: {lines / count * 1e9:.0f} ns a frame, {lines / hexed:.2f} of basenc", flush=True)
            shutil.rmtree(folder)
    return 0


if __name__ == "__main__":
    sys.exit(main())
