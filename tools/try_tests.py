#!/usr/bin/env python3
"""Runs all tests and plays all cases without any proof, and says which failed.

Usage: tools/try_tests.py [CRATE ..]   of each crate of tests, or of these: `rt try --test`, and `rt try` of the program with its files
                                       of cases; status 1 if a test fails, a case is answered otherwise, or one of them does not run
The crates run side by side, as many as there are processors, each in a build with checks. It is the quick look beside the gate: it
does not show that anything is proved, that an edit is refused, that another program prints its `stdout`, or how tests and cases run
as they are built. To play one file alone, type in the crate's folder: rt try --data NAME=data/NAME -- NAME
"""
import os
import re
import subprocess
import sys
import time
from concurrent.futures import ThreadPoolExecutor
from typing import NamedTuple

import cases
from repository import ROOT, dependencies

LINE = re.compile(r"^test (\S+) \.\.\. (.*)$", re.M)
FAULT = re.compile(r"^(\S+\.cases:\d+): ", re.M)
PASSED = ("ok", "ignored")


class Tried(NamedTuple):
    """What came of a crate's tests or cases: how many ran, those that failed, what was printed if it ended badly, and the seconds."""

    crate: str
    what: str
    count: int
    failed: list[str]
    said: str
    seconds: float


def run(crate: str, words: list[str]) -> tuple[int, str, str]:
    """Runs a command in a crate's folder: its status, its output and its standard error."""
    ran = subprocess.run(words, cwd=ROOT / "crates" / crate, stdin=subprocess.DEVNULL, capture_output=True, text=True, errors="replace")
    return ran.returncode, ran.stdout, ran.stderr


def tried_tests(crate: str) -> Tried:
    """Tries the tests of a crate."""
    began = time.monotonic()
    status, output, errors = run(crate, ["rt", "try", "--test"])
    found = LINE.findall(output + errors)
    failed = [name for name, how in found if not how.startswith(PASSED)]
    bad = status or failed or not found
    return Tried(crate, "tests", len(found), failed, output + errors if bad else "", time.monotonic() - began)


def tried_cases(crate: str) -> Tried:
    """Plays the cases of a crate. A case that is answered otherwise is named by the file and line where its answers differ."""
    began = time.monotonic()
    files = cases.files_of(crate)
    given = [word for it in files for word in ("--data", f"{it.name}=data/{it.name}")]
    status, output, errors = run(crate, ["rt", "try", *given, "--", *(it.name for it in files)])
    failed = FAULT.findall(errors)
    bad = status or failed or output != cases.stdout_of(files)
    return Tried(crate, "cases", output.count("\n"), failed, output * (not failed) + errors if bad else "", time.monotonic() - began)


def has_tests(crate: str) -> bool:
    """Whether a crate has tests that are code."""
    return any("#[test]" in path.read_text() for path in (ROOT / "crates" / crate / "src").glob("**/*.rt"))


def tried(crate: str) -> list[Tried]:
    """Tries the tests of a crate, and plays its cases."""
    found = [tried_tests(crate)] if has_tests(crate) else []
    return found + ([tried_cases(crate)] if cases.files_of(crate) else [])


def main() -> int:
    crates = sys.argv[1:] or [it for it in dependencies() if it.startswith("tests_")]
    if unknown := [it for it in crates if it not in dependencies()]:
        sys.exit(f"there is no crate {', '.join(unknown)}" if not unknown[0].startswith("-") else __doc__)
    bad = []
    with ThreadPoolExecutor(max(1, os.cpu_count() or 1)) as pool:
        for it in (it for found in pool.map(tried, crates) for it in found):
            print(f"{it.crate}: {it.count} {it.what}, {len(it.failed)} failed, {it.seconds:.0f} s", flush=True)
            if it.said:
                bad.append(it)
    for it in bad:
        print(f"\n{it.crate}: {', '.join(it.failed) or 'it did not run to its end'}\n{it.said}", end="")
    return 1 if bad else 0


if __name__ == "__main__":
    sys.exit(main())
