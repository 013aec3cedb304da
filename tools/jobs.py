#!/usr/bin/env python3
"""Prints how many crates the gate proves at a time: the value for RT_JOBS.

Usage: tools/jobs.py
The number is the lesser of the processors and the free gigabytes over 5, because four checks at a time held 20 GB at most. If that is
below 2 it prints nothing, and `rt ci` chooses for itself. If RT_JOBS is set already, it prints that number.
"""
import os
import re
from pathlib import Path

BYTES_OF_A_CHECK, FEWEST = 5 * 10**9, 2


def free_bytes() -> int:
    """The memory that is free, in bytes."""
    return 1024 * int(re.search(r"MemAvailable:\s+(\d+)", Path("/proc/meminfo").read_text())[1])


def jobs() -> int | None:
    """How many crates to prove at a time. None if `rt ci` has to choose."""
    given = os.environ.get("RT_JOBS", "")
    if given.isdigit():
        return int(given)
    found = min(len(os.sched_getaffinity(0)), free_bytes() // BYTES_OF_A_CHECK)
    return found if found >= FEWEST else None


if __name__ == "__main__":
    print(jobs() or "")
