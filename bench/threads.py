#!/usr/bin/env python3
"""What calls of threads that share an archive cost, beside calls of the engine alone, by the program of crates/trial_lock.

Usage: bench/threads.py [--runs N]. First: cd crates/trial_lock && rt run -- memory 1 1

Blocks of nearly 64 KiB over a folder, on the file system of TRIAL_ROOM, else that of TMPDIR, and blocks of 64 bytes over
memory and over a folder; each is written and settled, and its bytes are made before. Ways come in turn, each first now and then, and
medians are compared: the engine alone, one thread under the lock where records are kept and where calls are counted, and four threads
that each settle a quarter into their own recording. Status 1 where a ratio is below its goal.
"""
import argparse
import os
import shutil
import statistics
import subprocess
import sys
from pathlib import Path

from measure import most_memory
from lib.tool import ROOT, file_system, needs, room

PROGRAM = ROOT / "crates/trial_lock/out/trial_lock"
# Size, disk, blocks, and for each ratio what it has to be at least, if anything.
LOADS = [
    ("large", "folder", 400, {"call": 0.9, "counted": None, "four": None}),
    ("small", "folder", 1_600, {"call": None, "counted": None, "four": None}),
    ("small", "memory", 40_000, {"call": 0.5, "counted": 0.5, "four": None}),
]
FOUR_OF_ONE = 0.9


def rate(how: str, disk: Path | str, size: str, blocks: int) -> float:
    """Blocks a second of one run."""
    each = blocks // 4 if how == "four" else blocks
    told = subprocess.run([PROGRAM, "speed", how, disk, size, str(each)], capture_output=True, text=True, check=True).stdout
    return blocks / (int(told) / 1e6)


def rates(work: Path, load: str, disk: str, blocks: int, runs: int) -> dict[str, float]:
    """The median of each way, of runs in turn."""
    told: dict[str, list[float]] = {how: [] for how in ("engine", "call", "counted", "four")}
    for index in range(runs):
        turn = [*told, *told][index % len(told) :][: len(told)]  # each way comes first now and then
        for how in turn:
            place: Path | str = disk
            if disk == "folder":
                place = work / how
                place.mkdir()
            told[how].append(rate(how, place, load, blocks))
            if disk == "folder":
                shutil.rmtree(place)
    return {how: statistics.median(of_way) for how, of_way in told.items()}


def main() -> int:
    words = argparse.ArgumentParser(description=__doc__, formatter_class=argparse.RawDescriptionHelpFormatter)
    words.add_argument("--runs", type=int, default=5)
    asked = words.parse_args()
    needs(PROGRAM)
    is_slow = False
    with room() as work:
        print(f"{file_system(work)}, {os.cpu_count()} processors, medians of {asked.runs}", flush=True)
        for load, disk, blocks, goals in LOADS:
            of = rates(work, load, disk, blocks, asked.runs)
            ratios = {how: of[how] / of["engine"] for how in goals}
            print(f"{load} blocks, {disk}: " + ", ".join(f"{how} {of[how]:,.0f}/s" for how in of)
                  + "; of the engine alone: " + ", ".join(f"{how} {ratio:.2f}" for how, ratio in ratios.items())
                  + f"; four of one: {of['four'] / of['call']:.2f}", flush=True)
            is_slow |= any(goal and ratios[how] < goal for how, goal in goals.items())
            is_slow |= disk == "folder" and of["four"] < FOUR_OF_ONE * of["call"]
    print(f"{most_memory()} MB at most")
    return 1 if is_slow else 0


if __name__ == "__main__":
    sys.exit(main())
