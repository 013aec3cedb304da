#!/usr/bin/env python3
"""What a look at a slot costs beside a load, and what a receiver and a recorder make beside one thread without a queue.

Usage: bench/agents.py [--runs N]. First: cd crates/trial_agents && rt run -- look 1

Two processors have to be free: on a machine with other work, `chrt -f 10 bench/agents.py` takes them.

Looks at a slot, beside as many plain loads of an atomic word in a loop of the same program. Blocks of 46 frames of 1,408 bytes,
each from one datagram, over memory: by a receiver with its recorder, each in a thread, and by one thread that takes the same
blocks from the same image, writes and settles them. Ways come in turn, and medians are compared. Status 1 where a ratio is
below its goal.
"""
import argparse
import os
import statistics
import subprocess
import sys

from measure import most_memory
from lib.tool import ROOT, needs

PROGRAM = ROOT / "crates/trial_agents/out/trial_agents"
LOOKS = 50_000_000
BLOCKS = 1_000
LEAST = {"look": 0.5, "queue": 0.8}  # of a load, and of one thread


def told(*words: object) -> list[int]:
    """The microseconds that the program tells."""
    ended = subprocess.run([PROGRAM, *map(str, words)], capture_output=True, text=True, check=True)
    return [int(word) for word in ended.stdout.split()]


def main() -> int:
    words = argparse.ArgumentParser(description=__doc__, formatter_class=argparse.RawDescriptionHelpFormatter)
    words.add_argument("--runs", type=int, default=5)
    asked = words.parse_args()
    needs(PROGRAM)
    print(f"{os.cpu_count()} processors, medians of {asked.runs}", flush=True)
    looks, loads = (statistics.median(each) for each in zip(*(told("look", LOOKS) for _ in range(asked.runs))))
    of_load = loads / looks
    print(f"looks: {looks / LOOKS * 1e3:.2f} ns each, loads {loads / LOOKS * 1e3:.2f}: {of_load:.2f} of a load's rate", flush=True)
    took: dict[str, list[int]] = {"alone": [], "queue": []}
    for index in range(asked.runs):
        for way in sorted(took, reverse=index % 2 == 1):  # each comes first now and then
            took[way] += told(way, BLOCKS)
    rates = {way: BLOCKS / (statistics.median(of_way) / 1e6) for way, of_way in took.items()}
    of_one = rates["queue"] / rates["alone"]
    print(f"blocks of 46 frames: {rates['queue']:,.0f}/s by a receiver and a recorder, {rates['alone']:,.0f}/s in one thread: "
          f"{of_one:.2f} of it")
    print(f"{most_memory()} MB at most")
    return 1 if of_load < LEAST["look"] or of_one < LEAST["queue"] else 0


if __name__ == "__main__":
    sys.exit(main())
