#!/usr/bin/env python3
"""Opens folders as a loss of power may leave them, built from the system calls that the program really made.

A script of control lines is answered by `archive_tool run <folder>` under `strace`. From the trace comes, for each moment
between two of its system calls, which bytes, lengths and names a file system has to keep over a loss of power there: what
was synced, by `fdatasync` of the file and `fsync` of the folder. All else is left to chance, file by file: each write since
the file's last sync is left as it was written, not at all, cut short, or with other bytes in its place; the length is any
that those allow; and each name that came or went since the folder's last sync is there or not. Each image is opened by a
new process. What the lines before that moment were answered has to be there, exactly, and of the line that was being
answered either nothing or all of it: told by `list`, `verify` and a replay of each recording, which are compared with those
of an archive that answered these lines alone, in memory. Every other script begins with a catalogue of version 1, which its
`compact` writes in version 2.

Usage: trials/power_cuts.py [--images N] [--seed S] [--jobs J] [--scripts K] [--checkpoints] [--skip N] [program]. Prints how many images were
opened, of how many moments; ends with status 1 at the first that is wrong. With `--skip N` every N-th sync of a file answers
success and is not made (`failing_calls.c`): that has to be found. With `--checkpoints` the scripts make them: a `checkpoint` behind every
other line, and before each line at which one is due, over a history of 16 entries.
"""
import argparse
import os
import random
import re
import shutil
import subprocess
import sys
from concurrent.futures import ProcessPoolExecutor
from dataclasses import dataclass, field
from pathlib import Path

from lib.tool import HISTORY_LIMIT, MTU, Fault, Stream, aligned, create, is_calm, program, room

STREAM = Stream(term_length=65_536, segment_length=131_072)
TRACED = "openat,pwrite64,ftruncate,fdatasync,fsync,unlink,write,close,flock"
CALL = re.compile(r"^(\w+)\((.*)\)\s+= (-?\d+)")
SHORT = 16  # entries of a history with checkpoints
MOST = 4_096  # frames of a poll, more than a recording of a script has


@dataclass
class Node:
    """A file: what it reads as, what is durable of it, and the changes since it was last synced."""

    reads: bytearray = field(default_factory=bytearray)
    synced: bytes = b""
    changes: list[tuple[int, bytes | None]] = field(default_factory=list)  # an offset and bytes; none for a cut

    def copy(self) -> "Node":
        return Node(bytearray(self.reads), self.synced, list(self.changes))

    def write(self, at: int, text: bytes) -> None:
        self.reads.extend(bytes(max(0, at - len(self.reads))))
        self.reads[at : at + len(text)] = text
        self.changes.append((at, text))

    def cut(self, length: int) -> None:
        del self.reads[length:]
        self.changes.append((length, None))

    def sync(self) -> None:
        self.synced, self.changes = bytes(self.reads), []

    def left(self, chance: random.Random) -> bytes:
        """One of the texts that a loss of power may leave."""
        text = bytearray(self.synced)
        for at, change in self.changes:
            if change is None:
                if chance.random() < 0.5:
                    del text[at:]
                continue
            what = chance.randrange(4)
            if what == 0:
                continue
            if what == 1:
                change = change[: chance.randint(0, len(change))]
            if what == 2:
                begin = chance.randint(0, len(change))
                end = chance.randint(begin, len(change))
                change = change[:begin] + chance.randbytes(end - begin) + change[end:]
            if change:
                text.extend(bytes(max(0, at - len(text))))
                text[at : at + len(change)] = change
        return bytes(text)


@dataclass
class Moment:
    """A state between two system calls: the files by name, the names that are durable, and how many lines were answered."""

    names: dict[str, Node]
    durable: dict[str, Node]
    answered: int

    def image(self, chance: random.Random) -> dict[str, bytes]:
        """The files that a loss of power may leave now."""
        files = {}
        for name in sorted(self.names.keys() | self.durable.keys()):
            may = [self.durable.get(name)]
            if self.names.get(name) is not may[0]:
                may.append(self.names.get(name))
            node = chance.choice(may)
            if node is not None:
                files[name] = node.left(chance)
        return files


def unescaped(text: str) -> bytes:
    """The bytes of a string that strace has printed with -xx."""
    return bytes.fromhex(text.replace("\\x", ""))


def words(text: str) -> list[str]:
    """The arguments of a traced call; its strings are hexadecimal, so no comma stands in one."""
    return [word.strip() for word in text.split(",")]


class Trace:
    """The moments of a traced run."""

    def __init__(self, folder: Path) -> None:
        self.folder = str(folder.resolve())
        self.names: dict[str, Node] = {}
        self.durable: dict[str, Node] = {}
        self.open: dict[int, tuple[str, Node | None]] = {}
        self.moments: list[Moment] = []
        self.answered = 0
        self.syncs = 0

    def keep(self) -> None:
        nodes: dict[int, Node] = {}

        def copied(names: dict[str, Node]) -> dict[str, Node]:
            return {name: nodes.setdefault(id(node), node.copy()) for name, node in names.items()}

        self.moments.append(Moment(copied(self.names), copied(self.durable), self.answered))

    def take(self, line: str) -> None:
        found = CALL.match(line)
        if not found or int(found[3]) < 0:
            return
        call, given, result = found[1], words(found[2]), int(found[3])
        if call == "openat":
            self.opened(unescaped(given[1].strip('"')).decode(), given[2], result)
        elif call == "close":
            self.open.pop(int(given[0]), None)
        elif call == "unlink":
            path = unescaped(given[0].strip('"')).decode()
            if os.path.dirname(path) == self.folder:
                self.names.pop(os.path.basename(path), None)
                self.keep()
        elif call == "write" and given[0] == "1":
            self.answered += unescaped(given[1].strip('"')).count(b"\n")
            self.keep()
        elif int(given[0]) in self.open:
            self.changed(call, given, result)

    def opened(self, path: str, flags: str, result: int) -> None:
        if path.rstrip("/") == self.folder:
            self.open[result] = ("", None)
        elif os.path.dirname(path) == self.folder:
            name = os.path.basename(path)
            if name not in self.names:
                if "O_CREAT" not in flags:
                    raise Fault(f"{name} was opened and is not there")
                self.names[name] = Node()
                self.keep()
            self.open[result] = (name, self.names[name])

    def changed(self, call: str, given: list[str], result: int) -> None:
        name, node = self.open[int(given[0])]
        if call == "pwrite64":
            node.write(int(given[3]), unescaped(given[1].strip('"'))[:result])
        elif call == "ftruncate":
            node.cut(int(given[1]))
        elif call in ("fdatasync", "fsync"):
            if node is None:
                self.durable = dict(self.names)
            else:
                node.sync()
            self.syncs += 1
        else:
            return
        self.keep()


def script_of(chance: random.Random) -> list[str]:
    """A script whose lines are mostly answered by success, one line of reply each."""
    lines, ends, sessions, active = [], [], [], []
    unsettled = {}  # where the first block begins that a recording's session wrote and did not settle
    for _ in range(chance.randint(12, 24)):
        what = chance.random()
        if not ends or (what < 0.12 and len(ends) < 4):
            lines.append(STREAM.start(f"c{len(ends)}"))
            sessions.append(len(sessions))
            active.append((len(ends), sessions[-1]))
            ends.append(0)
        elif what < 0.7 and active:
            recording, session = chance.choice(active)
            text, end = b"", ends[recording]
            for _ in range(chance.randint(1, 5)):
                payload = chance.randbytes(chance.choice((0, 1, 31, 400, MTU - 32)))
                length = aligned(32 + len(payload))
                if end % STREAM.term_length + length > STREAM.term_length:
                    break
                text += STREAM.message(end, payload).ljust(length, b"\x00")
                end += length
            if not text:
                rest = STREAM.term_length - end % STREAM.term_length
                text, end = STREAM.header(end, rest, 0), end + rest
            begin, together = ends[recording], chance.random() < 0.4
            first = unsettled.get(recording, begin)
            if begin // STREAM.segment_length != first // STREAM.segment_length:
                lines.append(f"settle {session}")
                first = begin
            lines.append(f"{'write' if together else 'block'} {session} {text.hex()}")
            if together and chance.random() < 0.6:
                unsettled[recording] = first
            else:
                lines += [f"settle {session}"] * together
                unsettled.pop(recording, None)
            ends[recording] = end
        elif what < 0.8 and active:
            recording, session = active.pop(chance.randrange(len(active)))
            lines.append(f"stop {recording} {chance.randint(0, 9999)}")
        elif what < 0.88 and len(active) < len(ends):
            recording = chance.choice([each for each in range(len(ends)) if each not in dict(active)])
            lines.append(f"truncate {recording} 0")
            ends[recording] = 0
        elif what < 0.92 and len(active) < len(ends):
            lines.append(f"purge {chance.choice([each for each in range(len(ends)) if each not in dict(active)])}")
        elif what < 0.95:
            lines.append("sweep")
        elif what < 0.98:
            lines.append("compact")
            # What was active is stopped where it was settled, and sessions are numbered anew.
            ends = [unsettled.get(recording, end) for recording, end in enumerate(ends)]
            sessions, active, unsettled = [], [], {}
        else:
            lines.append(f"verify {chance.randrange(len(ends))}")
    return lines


def shown(tool: Path, folder: Path | None, before: list[str], count: int) -> list[str]:
    """What is there behind some lines: the recordings, what verify says, and each frame."""
    asked = ["list 0 1024"]
    for recording in range(count):
        asked += [f"verify {recording}", f"replay {recording} -1 9223372036854775807"]
    asked += [f"poll {number} {MOST}" for number in range(count)]
    given = "".join(line + "\n" for line in [*before, *(["reopen"] if folder is None else []), *asked])
    ended = subprocess.run([tool, "run", *([folder] if folder else [])], input=given, capture_output=True, text=True)
    if ended.returncode != 0 or not is_calm(ended.stderr, is_stopped=folder is not None):
        raise Fault(f"ended with status {ended.returncode}: {ended.stderr.strip()}")
    told = ended.stdout.splitlines()
    skipped = len(before) + (folder is None)
    return told[skipped:]


def library(work: Path) -> Path:
    """The library that lets calls fail or skips them, compiled."""
    path = work / "failing_calls.so"
    source = Path(__file__).resolve().parent / "failing_calls.c"
    subprocess.run(["cc", "-O1", "-shared", "-fPIC", "-o", path, source, "-ldl"], check=True)
    return path


def traced(tool: Path, lines: list[str], work: Path, skip: int, version: int, options: list[str]) -> list[Moment]:
    """The moments of an archive that answers these lines; each line is sent once the one before it was answered."""
    folder, log = work / "archive", work / "log"
    create(tool, folder, SHORT if options else HISTORY_LIMIT, version)
    trace = Trace(folder)
    for path in folder.iterdir():
        text = path.read_bytes()
        trace.names[path.name] = trace.durable[path.name] = Node(bytearray(text), text)
    trace.keep()
    traced_by: list[str | Path] = ["strace", "-qq", "-xx", "-s", "400000", "-e", f"trace={TRACED}", "-o", log]
    if skip:
        traced_by += ["-E", f"LD_PRELOAD={library(work)}", "-E", f"TRIAL_FOLDER={folder}", "-E", f"TRIAL_SKIP={skip}"]
    process = subprocess.Popen([*traced_by, tool, "run", folder, *options], stdin=subprocess.PIPE, stdout=subprocess.PIPE, text=True)
    for line in lines:
        process.stdin.write(line + "\n")
        process.stdin.flush()
        if not process.stdout.readline():
            raise Fault(f"no answer to {line[:60]}")
    process.stdin.close()
    process.wait()
    with open(log) as calls:
        for call in calls:
            trace.take(call)
    shutil.rmtree(folder)
    if trace.answered != len(lines) or not trace.syncs:
        raise Fault(f"{trace.answered} answers and {trace.syncs} syncs were traced of {len(lines)} lines")
    return trace.moments


def tried(tool: Path, seed: int, images: int, skip: int, work: Path, options: list[str]) -> tuple[int, int]:
    """Opens so many images of a script's moments, in a folder of its own: how many moments and images there were."""
    chance = random.Random(seed)
    lines = script_of(chance)
    count = sum(line.startswith("start ") for line in lines)
    if options:
        lines = [word for line in lines for word in ([line, "checkpoint"] if chance.random() < 0.5 else [line])]
    work.mkdir()
    moments = traced(tool, lines, work, skip, 1 + seed % 2, options)
    right: dict[int, list[str]] = {}

    def state(answered: int) -> list[str]:
        if answered not in right:
            right[answered] = shown(tool, None, [line for line in lines[:answered] if line != "checkpoint"], count)
        return right[answered]

    folder = work / "image"
    for number in range(images):
        moment = moments[chance.randrange(len(moments))]
        files = moment.image(chance)
        folder.mkdir()
        for name, text in files.items():
            (folder / name).write_bytes(text)
        told = shown(tool, folder, [], count)
        if told != state(moment.answered) and told != state(min(moment.answered + 1, len(lines))):
            raise Fault(f"script of seed {seed}, image {number}, after {moment.answered} answers: {told[:3]}")
        shutil.rmtree(folder)
    shutil.rmtree(work)
    return len(moments), images


def main() -> int:
    given = argparse.ArgumentParser(description="Opens folders as a loss of power may leave them.")
    given.add_argument("--images", type=int, default=10_000)
    given.add_argument("--scripts", type=int, default=50)
    given.add_argument("--seed", type=int, default=1)
    given.add_argument("--jobs", type=int, default=os.cpu_count())
    given.add_argument("--checkpoints", action="store_true")
    given.add_argument("--skip", type=int, default=0)
    given.add_argument("program", nargs="?")
    words_given = given.parse_args()
    tool = program(words_given.program)
    each = -(-words_given.images // words_given.scripts)
    options = ["--checkpoints"] * words_given.checkpoints
    moments = images = 0
    print(f"seed {words_given.seed}", flush=True)
    with room("/dev/shm") as work, ProcessPoolExecutor(words_given.jobs) as pool:
        seeds = [words_given.seed * 1_000_003 + number for number in range(words_given.scripts)]
        runs = [pool.submit(tried, tool, seed, each, words_given.skip, work / str(seed), options) for seed in seeds]
        try:
            for one in runs:
                found = one.result()
                moments, images = moments + found[0], images + found[1]
        except Fault:
            pool.shutdown(cancel_futures=True)
            raise
    print(f"{images} images of {moments} moments of {words_given.scripts} scripts: each as it has to be")
    return 0


if __name__ == "__main__":
    sys.exit(main())
