#!/usr/bin/env python3
"""Keeps the last bytes or days of each recording of a served archive, and removes the segment files before them.

Usage: retention.py [--apply] PORT BYTES
       retention.py [--apply] [--tool PROGRAM] --days N --times FOLDER PORT

PORT is the control port of `archive_tool serve` on this machine. BYTES is a number, or one with K, M, G or T (1,024 bytes each, and
so on). N is a number of days, as 30 or 0.5, and FOLDER that of `serve --times`, which `archive_tool when` is asked for. Without --apply
it prints what would go, and nothing goes. Only whole segments go: up to a segment more than BYTES, or than N days, stays of each
recording, and recordings go on. One with an open replay before its new start is refused (error 4) and stays as it is. Nothing goes of a
recording without times, and that is printed.

Each recording that is being written costs an entry of the history, and each one that is purged too. Status 1 if a line was refused, 3
if the server doesn't answer or a file of times can't be read.
"""
import argparse
import re
import socket
import subprocess
import sys
import time
from collections.abc import Callable, Iterator
from dataclasses import dataclass
from pathlib import Path
from typing import TextIO

PATIENCE = 60  # seconds that an answer may take
DAY = 86_400_000  # milliseconds
MOST_RECORDINGS = 1_024
UNITS = {"": 1, "K": 2**10, "M": 2**20, "G": 2**30, "T": 2**40}


class Refused(Exception):
    """A line that was refused: what it was answered."""


class Server:
    """A connection to the control port."""

    def __init__(self, port: int) -> None:
        self.socket = socket.create_connection(("127.0.0.1", port), PATIENCE)
        self.replies: TextIO = self.socket.makefile("r", encoding="utf-8", newline="\n")

    def ask(self, line: str) -> str:
        """The first line of a line's answer."""
        self.socket.sendall(f"{line}\n".encode())
        return self.next_line()

    def next_line(self) -> str:
        """The next line that comes, without its end."""
        reply = self.replies.readline()
        if not reply.endswith("\n"):
            raise ConnectionError("the connection was closed")
        if reply.startswith("error "):
            raise Refused(reply.rstrip("\n"))
        return reply.rstrip("\n")

    def listed(self) -> list[list[str]]:
        """The words of each recording's line."""
        found = []
        line = self.ask(f"list 0 {MOST_RECORDINGS}")
        while not line.startswith("end "):
            found.append(line.split(" "))
            line = self.next_line()
        return found


@dataclass(frozen=True)
class Recording:
    """A recording: its first and its recorded position, and its lengths. All are bytes of the stream."""

    number: int
    start: int
    recorded: int
    segment_length: int
    term_length: int

    @classmethod
    def of(cls, server: Server, words: list[str]) -> "Recording":
        """The recording of a line of `list`. A server is asked where an active one is recorded to."""
        number, start, stop = int(words[1]), int(words[4]), int(words[5])
        recorded = int(server.ask(f"positions {number}").split()[2]) if stop == -1 else stop
        return cls(number, start, recorded, int(words[7]), int(words[8]))

    def base(self, position: int) -> int:
        """Where the segment of a position begins."""
        first = self.start - self.start % self.term_length
        return position - (position - first) % self.segment_length

    def new_start(self, first: int) -> int:
        """Where it begins once only what is from a position on is kept, and the rest of that one's segment."""
        return max(self.start, self.base(min(self.recorded, max(self.start, first))))

    def segments_before(self, position: int) -> int:
        """How many segments end at or before a segment's beginning."""
        return (position - self.base(self.start)) // self.segment_length


def recordings(server: Server) -> Iterator[Recording]:
    """The recordings of a server. One that is purged meanwhile is left out."""
    for words in server.listed():
        try:
            yield Recording.of(server, words)
        except Refused as refused:
            print(f"recording {words[1]}: {refused}", file=sys.stderr)


class NoTimes(Exception):
    """Why nothing is known of when a recording was recorded."""


@dataclass(frozen=True)
class Times:
    """A folder of times, and the program that looks into it."""

    folder: Path
    tool: str

    def position(self, recording: int, millis: int) -> int:
        """Up to where a recording was recorded at a time: all that is before that position is older. 0 if nothing is."""
        words = [self.tool, "when", str(self.folder), str(recording), str(millis)]
        asked = subprocess.run(words, stdin=subprocess.DEVNULL, capture_output=True, text=True, timeout=PATIENCE)
        if asked.stdout.startswith("none before "):
            return 0
        found = re.fullmatch(r"position (\d+) from \d+ to -?\d+\n", asked.stdout)
        if asked.returncode == 1:
            raise NoTimes(asked.stderr.strip())
        if found is None:
            raise OSError(asked.stderr.strip() or f"{self.tool} printed {asked.stdout!r}")
        return int(found[1])


def purge(server: Server, recording: Recording, position: int) -> bool:
    """Purges a recording's segments before a position; whether it was not refused."""
    try:
        server.ask(f"purge-segments {recording.number} {position}")
        return True
    except Refused as refused:
        print(f"recording {recording.number}: {refused}", file=sys.stderr)
        return False


def sweep(server: Server) -> int:
    """Removes all stale files; how many."""
    count = 0
    while server.ask("sweep") != "swept 0":
        count += 1
    return count


def keep(server: Server, first_kept: Callable[[Recording], int], is_applied: bool) -> bool:
    """Keeps each recording from a position on, or prints what would go; whether nothing was refused."""
    is_whole = True
    for found in list(recordings(server)):
        try:
            position = found.new_start(first_kept(found))
        except NoTimes as why:
            print(f"recording {found.number}: {why}; nothing goes", file=sys.stderr)
            continue
        if position == found.start:
            continue
        what = f"{found.segments_before(position)} segments, from {found.start} to {position} of {found.recorded}"
        if not is_applied:
            print(f"recording {found.number}: {what}, would go")
        elif purge(server, found, position):
            print(f"recording {found.number}: {what}, are gone")
        else:
            is_whole = False
    if is_applied:
        print(f"{sweep(server)} files were removed")
    return is_whole


def count_of_bytes(text: str) -> int:
    """The number of bytes that a word asks for."""
    found = re.fullmatch(r"(\d+)([KMGT]?)", text)
    if found is None:
        raise argparse.ArgumentTypeError(f"{text} is not a number of bytes, as 1048576 or 500G")
    return int(found[1]) * UNITS[found[2]]


def count_of_days(text: str) -> float:
    """The number of days that a word asks for."""
    if re.fullmatch(r"\d+(\.\d+)?", text) is None:
        raise argparse.ArgumentTypeError(f"{text} is not a number of days, as 30 or 0.5")
    return float(text)


def words_asked() -> argparse.Namespace:
    """The words of the command line: bytes or days are to be kept."""
    words = argparse.ArgumentParser(description=__doc__, formatter_class=argparse.RawDescriptionHelpFormatter)
    words.add_argument("port", type=int, metavar="PORT")
    words.add_argument("kept", type=count_of_bytes, metavar="BYTES", nargs="?")
    words.add_argument("--days", type=count_of_days, metavar="N", help="keep the last days")
    words.add_argument("--times", type=Path, metavar="FOLDER", help="the folder of serve --times")
    words.add_argument("--tool", default="archive_tool", metavar="PROGRAM", help="the program that is asked for times")
    words.add_argument("--apply", action="store_true", help="purge and sweep; without it nothing is changed")
    asked = words.parse_intermixed_args()
    if (asked.kept is None) == (asked.days is None):
        words.error("either BYTES or --days")
    if (asked.days is None) != (asked.times is None):
        words.error("--days and --times go together")
    return asked


def main() -> int:
    asked = words_asked()

    def first_kept(found: Recording) -> int:
        """From where on a recording is kept."""
        if asked.days is None:
            return found.recorded - asked.kept
        return Times(asked.times, asked.tool).position(found.number, oldest)

    oldest = int(time.time() * 1_000 - (asked.days or 0) * DAY)
    try:
        return 0 if keep(Server(asked.port), first_kept, asked.apply) else 1
    except Refused as refused:
        print(refused, file=sys.stderr)
        return 1
    except subprocess.TimeoutExpired as error:
        print(error, file=sys.stderr)
        return 3
    except OSError as error:
        print(f"no answer from port {asked.port}, or no times: {error}", file=sys.stderr)
        return 3


if __name__ == "__main__":
    sys.exit(main())
