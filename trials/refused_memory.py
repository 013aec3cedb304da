#!/usr/bin/env python3
"""Refuses each request for memory in turn, one a run, by a library before the C library's allocator (refused_memory.c).

Usage: trials/refused_memory.py [program]   of scripts that the program answers
       trials/refused_memory.py tests      of the tests `refused_memory_*` of each library's built tests

The first script reaches every line, over a disk in memory. The second one takes a recording through each change (`each_change.py`), over
folders with an empty catalogue of version 1, and of version 2.

Each run of the program has to answer `error 18 NoMemory` on one line and go on, or `error 17 DeviceFault` where the disk in
memory found none; to answer by an archive that is not open, where that was at the first opening; to write what it writes with
all memory, where the request was made again; or to end with NoMemory on standard error and status 1, what it wrote being a
beginning of the right output.

Over a folder, the lines after one that was answered by NoMemory are answered as without it, or of a block as after its write. The
next process finds what was answered, and nothing else. If the program ended early, it may also find what the next line does.

In each run of a test a call that finds no memory has to say so and change nothing, and a second try has to succeed; the test
says so and passes. Then the requests of the tests `counted_memory_*` are counted, which may be no more than MOST says. `rt ci`
builds these tests, or `rt test` in the crates' folders.
"""
import os
import subprocess
import sys
from collections import Counter
from collections.abc import Sequence
from pathlib import Path

from lib.each_change import HISTORY, REPLIES
from lib.each_change import LINES as CHANGES
from power_cuts import shown
from lib.tool import ROOT, Fault, create, expect, program, room, run

HELLO = "2500000000c00100%s00000007000000e90300002a000000000000000000000068656c6c6f"
LINES = ["start 1001 7 42 65536 1408 131072 0 1000 c", "block 0 " + HELLO % "00", "write 0 " + HELLO % "40", "settle 0",
         "list 0 10", "find 0 1001 7 c", "positions 0", "replay 0 0 -1", "poll 0 1", "poll 0 5", "close 0", "verify 0",
         "merge 42 65536 0", "merge-replay " + HELLO % "00", "merge-live " + HELLO % "40", "merge-take", "merge-state", "no line",
         "compact", "reopen", "truncate 0 64", "extend 0 1001 7 42 65536 1408 64", "block 0 " + HELLO % "40", "stop 0 2000",
         "purge-segments 0 131072", "purge 0", "sweep", "quit"]
SCRIPT = "\n".join(LINES).encode()
WANT = b"error 18 NoMemory\n"
NO_FOLDER = b"no memory for the folder\n"
FAULT = b"error 17 DeviceFault\n"
BROKEN = b"error 16 Broken\n"
# How many requests a test may make: 100 polls that each ask for a list and the bytes of one frame, and what comes before;
# those of a board, whose position is raised, looked at and met 1,000 times; and none, where 300 pads and 600 frames that their
# file has no room for are read.
MOST = {
    "archives::counted_memory_of_a_late_poll": 2 * 100 + 50,
    "boards::counted_memory_of_a_board": 5,
    "sparse::counted_memory_of_a_long_pad": 0,
    "sparse::counted_memory_of_a_short_file": 0,
}


class Memory:
    """Runs programs with one request for memory refused, and tells how many requests they make."""

    def __init__(self, work: Path) -> None:
        self.library = work / "refused_memory.so"
        source = Path(__file__).resolve().parent / "refused_memory.c"
        subprocess.run(["cc", "-O1", "-shared", "-fPIC", "-o", self.library, source, "-ldl"], check=True)

    def run(
        self, words: Sequence[str | Path], given: bytes | None = None, refused: int | None = None
    ) -> subprocess.CompletedProcess:
        """Runs a program, with the request of that number refused if one is named. Else `count` tells how many there were."""
        asked = {"SHOW": "1"} if refused is None else {"FAIL_AT": str(refused)}
        given_words = os.environ | {"LD_PRELOAD": str(self.library)} | asked
        return subprocess.run(words, input=given, capture_output=True, env=given_words)


def count(whole: subprocess.CompletedProcess) -> int:
    """How many requests a run made in which none was refused: the last word of its standard error."""
    return int(whole.stderr.split()[-1])


# The program


def told(ran: subprocess.CompletedProcess, right: bytes) -> str:
    """How a run told of the request that was refused."""
    if ran.returncode == 1 and ran.stderr == WANT and right.startswith(ran.stdout):
        return "at the end"
    if ran.returncode != 0 or ran.stderr != b"":
        return "wrongly"
    wants, faults = ran.stdout.count(WANT), ran.stdout.count(FAULT)
    if (wants, faults) == (0, 0):
        return "nowhere" if ran.stdout == right else "by no archive" if ran.stdout.startswith(BROKEN) else "wrongly"
    return "on one line" if (wants, faults) == (1, 0) else "as the disk's" if (wants, faults) == (0, 1) else "wrongly"


def try_program(memory: Memory, tool: Path) -> None:
    """Refuses each request of the script."""
    words = [tool, "run"]
    whole = memory.run(words, SCRIPT)
    ways = {number: told(memory.run(words, SCRIPT, number), whole.stdout) for number in range(1, count(whole) + 1)}
    counts = ", ".join(f"{way}: {number}" for way, number in sorted(Counter(ways.values()).items()))
    print(f"{count(whole)} requests refused in turn, told {counts}")
    if not ways:
        raise Fault("no request was seen: the program takes its memory elsewhere")
    if wrong := [number for number, way in ways.items() if way == "wrongly"]:
        raise Fault(f"told wrongly: requests {wrong}")


class Folder:
    """The script of each change, over a folder whose catalogue has a version."""

    def __init__(self, memory: Memory, tool: Path, folder: Path, version: int) -> None:
        self.memory, self.tool, self.folder, self.version = memory, tool, folder, version
        self.whole = self.run(None)
        expect("the answers to each change", self.whole.stdout.decode().splitlines(), REPLIES)

    def run(self, refused: int | None) -> subprocess.CompletedProcess:
        """Answers the script over a new archive, with a request refused."""
        create(self.tool, self.folder, HISTORY, self.version)
        return self.memory.run([self.tool, "run", self.folder], "".join(f"{line}\n" for line in CHANGES).encode(), refused)

    def state(self, lines: Sequence[str]) -> list[str]:
        """What is there after some lines."""
        return shown(self.tool, None, list(lines), 1)

    def others(self, at: int) -> list[list[str]]:
        """The lines that were done if one found no memory: all others, and of a block perhaps its write."""
        written = [CHANGES[at].replace("block", "write", 1)] if CHANGES[at].startswith("block") else []
        return [[*CHANGES[:at], *more, *CHANGES[at + 1 :]] for more in ([], written)]

    def way(self, ran: subprocess.CompletedProcess) -> tuple[str, list[list[str]]]:
        """How a run reports the request that was refused, and the lines that may have been done."""
        told, error = ran.stdout.decode().splitlines(), ran.stderr.decode()
        if ran.returncode == 1 and ran.stderr in (WANT, WANT + NO_FOLDER) and told == REPLIES[: len(told)]:
            return "at the end", [CHANGES[: len(told)], CHANGES[: len(told) + 1]]
        if ran.returncode == 0 and told == ["error 16 Broken"] * len(CHANGES) and error.startswith(WANT.decode()):
            return "by no archive", [[]]
        if ran.returncode != 0 or error != "":
            return "wrongly", []
        if told == REPLIES:
            return "nowhere", [CHANGES]
        at = next(number for number, one in enumerate(told) if one != REPLIES[number])
        if told[at] == "error 18 NoMemory":
            for done in self.others(at):
                answered = run([self.tool, "run"], done)
                if told[at + 1 :] == answered[len(answered) - len(told) + at + 1 :]:
                    return "on one line", [done]
        return "wrongly", []


def try_changes(memory: Memory, tool: Path, work: Path, version: int) -> None:
    """Refuses each request of the script of each change, over a folder, and looks at what is there."""
    folder = Folder(memory, tool, work / "archive", version)
    ways: Counter[str] = Counter()
    for number in range(1, count(folder.whole) + 1):
        ran = folder.run(number)
        way, done = folder.way(ran)
        ways[way] += 1
        found = shown(tool, folder.folder, [], 1)
        if way == "wrongly" or found not in [folder.state(lines) for lines in done]:
            raise Fault(f"request {number}, told {way}: {ran.stdout.decode()}{ran.stderr.decode()}, and there is {found}")
    counts = ", ".join(f"{way}: {number}" for way, number in sorted(ways.items()))
    print(f"each change, version {version}: {count(folder.whole)} requests refused in turn, told {counts}", flush=True)


# Tests


def names(tests: Path, kind: str) -> list[str]:
    """The tests of a kind that a crate's built tests have."""
    listed = subprocess.run([tests, "--list"], capture_output=True, text=True, check=True).stdout.splitlines()
    return [line.removesuffix(": test") for line in listed if f"::{kind}_" in line]


def refuse_each(memory: Memory, tests: Path, name: str) -> None:
    """Refuses each request of a test in turn."""
    whole = memory.run([tests, name])
    if whole.returncode:
        raise Fault(f"{tests.name} {name}: it fails where no request is refused: {whole.stderr.decode()}")
    failed = [number for number in range(1, count(whole) + 1) if memory.run([tests, name], refused=number).returncode]
    print(f"{tests.name} {name}: {count(whole)} requests refused in turn", flush=True)
    if failed:
        raise Fault(f"{tests.name} {name}: it fails for the requests {failed}")


def count_requests(memory: Memory, tests: Path, name: str) -> None:
    """Counts the requests of a test."""
    whole = memory.run([tests, name])
    print(f"{tests.name} {name}: {count(whole)} requests of at most {MOST[name]}")
    if whole.returncode or count(whole) > MOST[name]:
        raise Fault(f"{tests.name} {name}: too many requests, or it fails")


def try_tests(memory: Memory) -> None:
    built = sorted(ROOT.glob("crates/*/out/*_tests"))
    tried = [(tests, name) for tests in built for name in names(tests, "refused_memory")]
    if not tried:
        raise Fault("no tests are built: rt ci builds them, or rt test in their folders")
    for tests, name in tried:
        refuse_each(memory, tests, name)
    for tests in built:
        for name in names(tests, "counted_memory"):
            count_requests(memory, tests, name)


def main() -> int:
    with room() as work:
        memory = Memory(work)
        if sys.argv[1:] == ["tests"]:
            try_tests(memory)
        else:
            tool = program(sys.argv[1] if len(sys.argv) > 1 else None)
            try_program(memory, tool)
            for version in (1, 2):
                try_changes(memory, tool, work, version)
    return 0


if __name__ == "__main__":
    sys.exit(main())
