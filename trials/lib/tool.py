"""The built program, the bytes that scripts give it and the folders that they work in: what trials and measures share."""
import argparse
import os
import random
import re
import shutil
import signal
import socket
import struct
import subprocess
import sys
import tempfile
import time
from collections.abc import Callable, Iterable, Iterator, Sequence
from contextlib import contextmanager, suppress
from dataclasses import dataclass
from pathlib import Path
from typing import NoReturn, Protocol, TypeVar

from lib.mounts import Skipped

ROOT = Path(__file__).resolve().parent.parent.parent
MOST_AT_ONCE = 4_096  # frames of a poll
HISTORY_LIMIT = 1_048_576  # entries, if none is asked for
STREAM_ID, SESSION_ID, INITIAL_TERM, MTU, TIMESTAMP = 1_001, 7, 42, 1_408, 1_000

# What a command tells on standard error where nothing has failed: docs/CONTROL.md, "Standard error".
CALM = re.compile(
    r"a new archive was made, as the folder had none"
    r"|\d+ of the \d+ entries of the history are used, \d+ are left"
    r"|the history was made short: \d+ entries became \d+"
    r"|the history is full: .*"
    r"|recordings \d+, frames \d+, bytes \d+, damaged 0, not read 0"
)


def hides(bank: str, gate: int | str) -> str:
    """The line that warns of an entry past a bank's closed gate: docs/STORAGE.md, "A closed gate"."""
    return (
        f"{bank}: a whole entry stands past the closed gate at offset {gate}, "
        "so entries that were answered may be hidden: copy the folder before anything opens it\n"
    )


HIDES = re.compile(hides("catalogue-[ab][.]bank", "[0-9]+"))


Found = TypeVar("Found")


class Fault(Exception):
    """What a script found wrong."""


def needs(*programs: Path) -> None:
    """Ends the script where one of these programs isn't built."""
    for path in programs:
        if not os.access(path, os.X_OK):
            sys.exit(f"there is no program {path}")


def program(named: str | None) -> Path:
    """The program that was named, else that of ARCHIVE_TOOL, else the built one."""
    path = Path(named or os.environ.get("ARCHIVE_TOOL") or ROOT / "crates/archive_tool/out/archive_tool").resolve()
    needs(path)
    return path


def trial_words(doc: str | None) -> argparse.ArgumentParser:
    """The words of a trial: a program, and the seed of what is random."""
    words = argparse.ArgumentParser(description=doc, formatter_class=argparse.RawDescriptionHelpFormatter)
    words.add_argument("program", nargs="?", help="else that of ARCHIVE_TOOL, else the built one")
    words.add_argument("--seed", type=int, default=random.SystemRandom().randrange(10**6))
    return words


def run_trials(trials: dict[str, Callable[[], None]], only: str | None) -> None:
    """Runs trials in their order, or the one that was named. One that this machine can't run is skipped, which is printed."""
    for name, trial in trials.items():
        if only in (None, name):
            try:
                trial()
            except Skipped as why:
                print(f"{name}: skipped, {why}", flush=True)


def conclude(main: Callable[[], int]) -> NoReturn:
    """Runs a script, and ends it with its status; what it found wrong is its last word, with status 1."""
    try:
        sys.exit(main())
    except Fault as fault:
        sys.exit(str(fault))


@contextmanager
def room(default: str | None = None) -> Iterator[Path]:
    """A new folder below that of TRIAL_ROOM, else below a default one. It goes when the block ends, also where the script is
    told to end. Where something is found wrong it stays, that is told, and the script ends with status 1."""
    signal.signal(signal.SIGTERM, lambda *_: sys.exit(1))
    path = Path(tempfile.mkdtemp(prefix="trial-", dir=os.environ.get("TRIAL_ROOM") or default))
    try:
        yield path
    except Fault as fault:
        sys.exit(f"{fault}\nwhat failed lies in {path}")
    except BaseException:
        shutil.rmtree(path, ignore_errors=True)
        raise
    shutil.rmtree(path, ignore_errors=True)


def free_port(kind: int) -> int:
    """A port of this machine that nobody has, below those that the system gives to connections."""
    while True:
        port = random.SystemRandom().randrange(10_000, 32_000)
        with socket.socket(socket.AF_INET, kind) as found, suppress(OSError):
            found.bind(("127.0.0.1", port))
            return port


def expect(what: str, told: object, right: object) -> None:
    """Asks that an answer is the right one."""
    if told != right:
        raise Fault(f"{what}: {str(told)[:200]}, and not {str(right)[:200]}")


def await_that(
    what: str, seen: Callable[[], Found], says: Callable[[], object] = str, seconds: float = 60, pause: float = 0.2
) -> Found:
    """Waits until something is seen, for so many seconds at most; looks again after a pause, also in seconds. If it does not come,
    the fault has what there was instead."""
    until = time.monotonic() + seconds
    while not (found := seen()):
        if time.monotonic() > until:
            raise Fault(f"{what}: not within {seconds} seconds; {says()}")
        time.sleep(pause)
    return found


def file_system(folder: str | Path) -> str:
    """The kind of file system that a folder lies on."""
    told = subprocess.run(["df", "--output=fstype", folder], capture_output=True, text=True, check=True).stdout
    return told.split()[-1]


def aligned(length: int) -> int:
    """A length, rounded up to a multiple of 32."""
    return -(-length // 32) * 32


@dataclass(frozen=True)
class Stream:
    """The geometry of a recorded stream: docs/PROTOCOL.md, "Data and pad header"."""

    term_length: int
    segment_length: int
    mtu: int = MTU
    session_id: int = SESSION_ID

    def header(self, position: int, length: int, kind: int) -> bytes:
        """The header of the frame at a position."""
        term, offset = divmod(position, self.term_length)
        return struct.pack(
            "<iBBHiiiiq", length, 0, 0xC0, kind, offset, self.session_id, STREAM_ID, INITIAL_TERM + term, 0
        )

    def message(self, position: int, payload: bytes) -> bytes:
        """The encoding of a data frame."""
        return self.header(position, 32 + len(payload), 1) + payload

    def numbered(self, recording: int, position: int) -> str:
        """How a poll tells the frame at a position, whose payload is that position and its recording's number."""
        payload = position.to_bytes(8, "little") + recording.to_bytes(8, "little")
        return f"frame {position} {self.message(position, payload).hex()}"

    def start(self, channel: str, position: int = 0) -> str:
        """The line that starts a recording."""
        geometry = f"{INITIAL_TERM} {self.term_length} {self.mtu} {self.segment_length}"
        return f"start {STREAM_ID} {self.session_id} {geometry} {position} {TIMESTAMP} {channel}"

    def extend(self, recording: int, position: int) -> str:
        """The line that goes on with a recording which stopped at a position."""
        return f"extend {recording} {STREAM_ID} {self.session_id} {INITIAL_TERM} {self.term_length} {self.mtu} {position}"

    def descriptor(self, recording: int, stop_timestamp: int, stop: int, channel: str) -> str:
        """A recording from position 0, as a listing tells it."""
        geometry = f"{INITIAL_TERM} {self.segment_length} {self.term_length} {self.mtu}"
        return (
            f"recording {recording} {TIMESTAMP} {stop_timestamp} 0 {stop} {geometry} {self.session_id} {STREAM_ID} {channel}"
        )

    def start_entry(self, recording: int, channel: bytes, version: int = 2) -> bytes:
        """The catalogue's entry of a start at position 0, without a source: docs/STORAGE.md, "Entries"."""
        fields = INITIAL_TERM, self.segment_length, self.term_length, self.mtu, self.session_id, STREAM_ID, len(channel)
        source = b"\x00\x00" if version == 2 else b""
        return entry(1, struct.pack("<qqq6iH", recording, TIMESTAMP, 0, *fields) + channel + source)


def entry(kind: int, body: bytes) -> bytes:
    """An entry behind its gate."""
    return struct.pack("<BH", kind, len(body)) + body


def settle_entry(recording: int, position: int) -> bytes:
    """The catalogue's entry of a settled position."""
    return entry(2, struct.pack("<qq", recording, position))


def stop_entry(recording: int, timestamp: int) -> bytes:
    """The catalogue's entry of a stop."""
    return entry(3, struct.pack("<qq", recording, timestamp))


def bank(history_limit: int, entries: Iterable[bytes], version: int = 2) -> bytes:
    """A catalogue's bank: docs/STORAGE.md, "Banks"."""
    header = struct.pack("<BBHIQ16x", 1, version, 0, history_limit, 1)
    return header + b"".join(b"\x01" + text for text in entries) + b"\x00"


def is_calm(told: str, is_stopped: bool = False) -> bool:
    """Whether standard error tells of nothing that failed. Its texts are tried by standard_error.py. The first opening after a kill, a
    loss of power or a failed call may warn of an entry whose gate was not opened yet."""
    warned = HIDES.match(told) if is_stopped else None
    return all(CALM.fullmatch(line) for line in told[warned.end() if warned else 0 :].splitlines())


def run(words: Sequence[str | Path], lines: Iterable[str] = (), failed: Sequence[str] = (), is_stopped: bool = False) -> list[str]:
    """The lines that a command answers to lines on its standard input; it has to end with status 0, and tell on standard error
    what failed, if it is said that something does, else of nothing that failed (`is_calm`)."""
    given = "".join(line + "\n" for line in lines)
    ended = subprocess.run(words, input=given, capture_output=True, text=True)
    is_told = ended.stderr.splitlines() == [*failed] if failed else is_calm(ended.stderr, is_stopped)
    if ended.returncode != 0 or not is_told:
        raise Fault(f"{' '.join(map(str, words[1:]))} ended with status {ended.returncode}: {ended.stderr.strip()}")
    return ended.stdout.splitlines()


def create(tool: Path, folder: Path, history: int = HISTORY_LIMIT, version: int = 2) -> None:
    """Makes an archive without recordings, whose catalogue has a version, instead of what is there."""
    shutil.rmtree(folder, ignore_errors=True)
    run([tool, "create", folder, "--history", str(history)])
    if version == 1:
        (folder / "catalogue-a.bank").write_bytes(bank(history, [], 1))


def stop_positions(tool: Path, folder: Path, is_stopped: bool = False) -> list[int]:
    """Opens an archive: where each recording stopped, which it does by that at the latest."""
    return [int(line.split()[5]) for line in run([tool, "list", folder], is_stopped=is_stopped)[:-1]]


def replayed(tool: Path, folder: Path, recording: int, begin: int, frames: int) -> list[str]:
    """The frames that a replay of a recording tells from a position on, by polls enough for so many."""
    polls = [f"poll 0 {MOST_AT_ONCE}"] * (frames // MOST_AT_ONCE + 1)
    told = run([tool, "run", folder], [f"replay {recording} {begin} -1", *polls])
    return [line for line in told if line.startswith("frame ")]


class Session:
    """A `run <folder>` that is asked line by line."""

    def __init__(self, program: Path, folder: str | Path, *options: str) -> None:
        words = [program, "run", folder, *options]
        told = subprocess.DEVNULL
        self.process = subprocess.Popen(words, stdin=subprocess.PIPE, stdout=subprocess.PIPE, stderr=told, text=True)

    def ask(self, line: str) -> list[str]:
        """The lines that answer a line; no line where the program has ended. Not for lines to a merge."""
        self.process.stdin.write(line + "\n")
        self.process.stdin.flush()
        told = []
        for answer in self.process.stdout:
            told.append(answer.rstrip("\n"))
            if not answer.startswith(("recording ", "frame ")):
                break
        return told

    def end(self) -> int:
        """Ends the script, and gives the program's status."""
        self.process.stdin.close()
        self.process.stdout.read()
        return self.process.wait()


ENDLESS = 10**9  # blocks: more than a process comes to record


def noted(
    process: subprocess.Popen, most: int | None, chance: random.Random, is_last: Callable[[str], bool], note: Callable[[str], None]
) -> tuple[int, str]:
    """Notes each line of a process but its last one. Kills the process a little after so many, if a number is given. Returns how
    many were noted, and the last line, if it came."""
    count, last = 0, ""
    for line in process.stdout:
        if not line.endswith("\n"):
            break
        if is_last(line):
            last = line
            continue
        note(line)
        count += 1
        if count == most:
            time.sleep(chance.uniform(0, 0.005))
            process.kill()
    return count, last


class Rounds(Protocol):
    """Work over an archive that goes on round by round, and then ends."""

    def is_done(self) -> bool:
        """Whether it is to end."""

    def round(self) -> None: ...

    def end(self) -> None: ...

    def so_far(self) -> str:
        """How far it came."""


class KilledRounds(Rounds):
    """Rounds in each of which a process is killed after some lines, and what it left is looked at."""

    def __init__(self, seed: int, most_kills: int, lines: tuple[int, int]) -> None:
        self.most_kills, self.lines_of_round = most_kills, lines
        self.chance = random.Random(seed)
        self.kills = 0

    def follow(self, blocks: int, most: int | None) -> None:
        """A process of so many blocks, which is killed after so many lines, if a number is given."""

    def look(self) -> object:
        """Looks at what a process left."""

    def is_done(self) -> bool:
        return self.kills >= self.most_kills

    def round(self) -> None:
        self.follow(ENDLESS, self.chance.randint(*self.lines_of_round))
        self.kills += 1
        self.look()


def go_round(tool: Path, folder: Path, history: int, work: Rounds) -> None:
    """Makes an archive with a history of so many entries, and does the work over it. A fault tells how far it came."""
    try:
        run([tool, "create", folder, "--history", str(history)])
        while not work.is_done():
            work.round()
        work.end()
    except Fault as fault:
        raise Fault(f"behind {work.so_far()}: {fault}") from fault
