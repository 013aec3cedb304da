#!/usr/bin/env python3
"""What a checkpoint of a live archive takes, with 3, 64 and 1,024 recordings, and the longest settle next to it.

Usage: bench/checkpoints.py [--runs N] [program], on the file system of TRIAL_ROOM, else that of TMPDIR. `strace` counts the system
calls and the bytes that they write.

As many recordings as may be are active, each with a settled block; the others are stopped. Printed for each number of recordings:
milliseconds from a line `checkpoint` to its answer, and of a `block` line, which settles, behind each checkpoint and elsewhere
(medians and the longest); the bytes that a checkpoint writes, and its system calls. It fails where the answer is another.
"""
import argparse
import re
import subprocess
import sys
import time
from pathlib import Path

import measure  # noqa: F401, so that trials' modules are found
from lib.tool import MTU, Session, Stream, create, expect, file_system, program, room

STREAM = Stream(term_length=1_048_576, segment_length=1_048_576)
RECORDINGS = 3, 64, 1_024
MOST_ACTIVE = 64
CHANNEL = "aeron:udp?endpoint=localhost:40123"
WRITES = re.compile(r"^(?:\d+ +)?(\w+)\(.*\) += (\d+)", re.M)


def filled(tool: Path, folder: Path, recordings: int) -> Session:
    """A process over a new archive with so many recordings."""
    create(tool, folder)
    session = Session(tool, folder, "--checkpoints")
    for number in range(recordings):
        expect("a start", session.ask(STREAM.start(CHANNEL)), [f"started {number} {number}"])
        ask_to_settle(session, number, 0)
        if number < recordings - MOST_ACTIVE:
            expect("a stop", session.ask(f"stop {number} 2000"), [f"stopped {MTU}"])
    return session


def ask_to_settle(session: Session, recording: int, position: int) -> float:
    """Records a frame at a position: seconds until it is recorded."""
    frame = STREAM.message(position, bytes(MTU - 32)).hex()
    begin = time.monotonic()
    told = session.ask(f"block {recording} {frame}")
    taken = time.monotonic() - begin
    expect("a block", told, [f"settled {position + MTU}"])
    return taken


def taken(session: Session, recording: int, runs: int) -> tuple[list[float], list[float], list[float]]:
    """Seconds of each checkpoint, of the settle behind it, and of one that comes after that."""
    checkpoints, behind, elsewhere = [], [], []
    for number in range(runs):
        begin = time.monotonic()
        told = session.ask("checkpoint")
        checkpoints.append(time.monotonic() - begin)
        expect("a checkpoint", told, ["checkpointed"])
        for times, step in (behind, 1), (elsewhere, 2):
            times.append(ask_to_settle(session, recording, (2 * number + step) * MTU))
    return checkpoints, behind, elsewhere


def milliseconds(times: list[float]) -> str:
    """The median and the longest."""
    return f"{sorted(times)[len(times) // 2] * 1_000:.2f} (longest {max(times) * 1_000:.2f})"


def written(session: Session, work: Path) -> tuple[int, int]:
    """The bytes that a checkpoint writes, and its system calls."""
    summary = work / "calls"
    words = ["strace", "-f", "-o", summary, "-e", "trace=pwrite64,write,pwritev,fdatasync,fsync,ftruncate,openat", "-p", str(session.process.pid)]
    tracer = subprocess.Popen(words, stderr=subprocess.PIPE, text=True)
    tracer.stderr.readline()  # it says that it is attached
    session.ask("checkpoint")
    tracer.terminate()
    tracer.wait()
    calls = WRITES.findall(summary.read_text())
    return sum(int(count) for name, count in calls if name.startswith("pwrite")), len(calls)


def main() -> int:
    words = argparse.ArgumentParser(description=__doc__, formatter_class=argparse.RawDescriptionHelpFormatter)
    words.add_argument("program", nargs="?", help="else that of ARCHIVE_TOOL, else the built one")
    words.add_argument("--runs", type=int, default=100)
    asked = words.parse_args()
    tool = program(asked.program)
    with room() as work:
        print(f"{asked.runs} checkpoints, on {file_system(work)}; medians in milliseconds", flush=True)
        for recordings in RECORDINGS:
            session = filled(tool, work / "archive", recordings)
            checkpoints, behind, elsewhere = taken(session, recordings - 1, asked.runs)
            size, calls = written(session, work)
            session.end()
            print(
                f"{recordings:,} recordings, {min(recordings, MOST_ACTIVE)} active: a checkpoint {milliseconds(checkpoints)}, {size:,} bytes in {calls} calls; "
                f"a settle behind it {milliseconds(behind)}, another {milliseconds(elsewhere)}",
                flush=True,
            )
    return 0


if __name__ == "__main__":
    sys.exit(main())
