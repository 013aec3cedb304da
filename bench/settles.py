#!/usr/bin/env python3
"""Measures the program over a folder: settles of one block and of 16, beside a plain program that makes the same writes and
syncs and does nothing else (plain_settles.rs); the processor seconds of `block` lines, beside the plain program when it reads
the same lines and decodes their digits; a replay; and the memory of the largest poll.

Usage: bench/settles.py [--settles N] [program], on the file system of TRIAL_ROOM, else that of TMPDIR.

A run of settles is one `block` line each, or 16 `write` lines and a `settle`, read from a file. Runs come in turn as proved, plain, plain, proved, so that a
file system that grows slower does so for both; medians are compared. Answers are looked at, so that no line was refused.
The folder of the replay is written here, by docs/STORAGE.md.
"""
import argparse
import os
import shutil
import statistics
import subprocess
import sys
import time
from collections.abc import Sequence
from pathlib import Path

from measure import compiled, cost, seconds
from lib.tool import MTU, Fault, Stream, bank, file_system, program, room, run, settle_entry, stop_entry

STREAM = Stream(term_length=2**30, segment_length=2**30)
TURNS = 4
GOAL = 0.9
# How many blocks a settle has, frames of a block, and bytes of a frame; a run has one settle in so many.
SETTLES = {
    "a 64-byte frame": (1, 1, 64, 1),
    "a frame of 1,408 bytes": (1, 1, MTU, 1),
    "16 blocks of 1,408 bytes": (16, 1, MTU, 4),
    "46 frames of 1,408 bytes": (1, 46, MTU, 4),
    "16 blocks of 46 frames of 1,408 bytes": (16, 46, MTU, 64),
}
LINES = {"a 64-byte frame": (1, 64), "a frame of 1,408 bytes": (1, MTU), "46 frames of 1,408 bytes": (46, MTU)}
PROCESSOR_GOAL = 1.1
LARGEST = 65_504  # bytes of the longest frame
LARGEST_POLL = 1_200  # frames of that length, together 79 MB
MEMORY_GOAL = 1.3, 16_000_000  # bytes for a byte of the polled frames, and bytes beside
REPLAYED = 142_046  # frames of 1,408 bytes, together 200 MB
POLLED = 4_096  # frames of a poll


def message(place: int, length: int) -> bytes:
    """A message of some length at a position, with a payload that tells the position."""
    return STREAM.message(place, place.to_bytes(8, "little") * ((length - 32) // 8))


def write_lines(path: Path, settles: int, blocks: int, frames: int, length: int) -> None:
    """A script of a start and so many settles, each of so many blocks of frames of a length. No sync of a run has to write
    it."""
    with open(path, "w") as script:
        print(STREAM.start("c"), file=script)
        for index in range(settles * blocks):
            begin = index * frames * length
            places = range(begin, begin + frames * length, length)
            print("block 0 " if blocks == 1 else "write 0 ", *(message(place, length).hex() for place in places), sep="", file=script)
            if blocks > 1 and index % blocks == blocks - 1:
                print("settle 0", file=script)
        script.flush()
        os.fsync(script.fileno())


class Trial:
    """A folder for archives, scripts and answers, and the two programs."""

    def __init__(self, tool: Path, plain: Path, path: Path) -> None:
        self.tool, self.plain, self.path = tool, plain, path
        self.folder, self.script, self.answers = path / "archive", path / "script", path / "answers"

    def empty_folder(self) -> Path:
        """The folder, with nothing in it."""
        shutil.rmtree(self.folder, ignore_errors=True)
        self.folder.mkdir()
        return self.folder

    def proved_settles(self, settles: int, size: int, before: Sequence[str] = ()) -> float:
        """Seconds of the script over a new archive; the words before the program's measure it."""
        folder = self.empty_folder()
        run([self.tool, "create", folder])
        with open(self.script, "rb") as lines:
            begin = time.monotonic()
            told = subprocess.run([*before, self.tool, "run", folder], stdin=lines, stdout=subprocess.PIPE, check=True).stdout
            taken = time.monotonic() - begin
        last = told.decode().splitlines()[-1]
        if last != f"settled {settles * size}":
            raise Fault(f"the last of {settles} settles of {size} bytes was answered {last}")
        return taken

    def plain_settles(self, settles: int, blocks: int, size: int) -> float:
        """Seconds of the same settles by the plain program, each of so many blocks of a size."""
        return seconds([self.plain, self.empty_folder(), str(settles), str(blocks), str(size)])


def compare_settles(trial: Trial, most: int) -> None:
    """Settles a second of both programs, by runs of so many at most, and megabytes a second of the proved one."""
    for name, (blocks, frames, length, part) in SETTLES.items():
        settles, size, proved, plain = most // part, blocks * frames * length, [], []
        write_lines(trial.script, settles, blocks, frames, length)
        for _ in range(TURNS):
            proved.append(settles / trial.proved_settles(settles, size))
            plain.append(settles / trial.plain_settles(settles, blocks, size // blocks))
            plain.append(settles / trial.plain_settles(settles, blocks, size // blocks))
            proved.append(settles / trial.proved_settles(settles, size))
        medians = statistics.median(proved), statistics.median(plain)
        print(
            f"settles of {name}: {medians[0]:.0f} a second ({min(proved):.0f} to {max(proved):.0f}), {medians[0] * size / 1e6:.1f} MB/s, "
            f"plain {medians[1]:.0f} ({min(plain):.0f} to {max(plain):.0f}): {medians[0] / medians[1]:.2f} of it, goal {GOAL}",
            flush=True,
        )


def compare_lines(trial: Trial, settles: int) -> None:
    """Processor seconds of `block` lines over a folder, beside those of the plain program for the same lines."""
    for name, (frames, length) in LINES.items():
        write_lines(trial.script, settles, 1, frames, length)
        costs = {"proved": [], "plain": []}
        for who in ["proved", "plain", "plain", "proved"] * TURNS:
            folder = trial.empty_folder()
            words = [trial.tool, "run", folder] if who == "proved" else [trial.plain, folder]
            costs[who].append(cost(words, trial.script, trial.answers))
            last = trial.answers.read_text().splitlines()[-1]
            if last != f"settled {settles * frames * length}":
                raise Fault(f"{who}: the last line was answered {last}")
        proved, plain = (statistics.median(it.processor for it in costs[who]) for who in ("proved", "plain"))
        clock = statistics.median(it.clock for it in costs["proved"]) / statistics.median(it.clock for it in costs["plain"])
        print(
            f"lines of {name}: {proved / settles * 1e6:.1f} us of a processor, plain {plain / settles * 1e6:.1f}: "
            f"{proved / plain:.2f} of it, goal {PROCESSOR_GOAL}; {clock:.2f} by the clock",
            flush=True,
        )


def measure_poll(trial: Trial) -> None:
    """The most memory that the largest poll takes."""
    folder, size = trial.empty_folder(), LARGEST_POLL * LARGEST
    stream = Stream(term_length=2**30, segment_length=2**30, mtu=LARGEST)
    step = -(-LARGEST // 32) * 32
    with open(folder / "0-0.rec", "wb") as segment:
        for place in range(0, LARGEST_POLL * step, step):
            segment.write(stream.message(place, bytes(LARGEST - 32)).ljust(step, b"\0"))
    entries = [stream.start_entry(0, b"c"), settle_entry(0, LARGEST_POLL * step), stop_entry(0, 2_000)]
    (folder / "catalogue-a.bank").write_bytes(bank(1_048_576, entries))
    trial.script.write_text(f"replay 0 0 -1\npoll 0 {POLLED}\nquit\n")
    taken = cost([trial.tool, "run", folder], trial.script, trial.answers)
    with open(trial.answers, "rb") as answers:
        if (count := sum(line.startswith(b"frame ") for line in answers)) != LARGEST_POLL:
            raise Fault(f"the largest poll gave {count} frames")
    most = MEMORY_GOAL[0] * size + MEMORY_GOAL[1]
    held = taken.kibibytes * 1_024
    print(f"the largest poll: {held / 1e6:.0f} MB for {size / 1e6:.0f} MB of frames, goal {most / 1e6:.0f}", flush=True)
    if held > most:
        raise Fault("the largest poll takes too much memory")


def measure_replay(trial: Trial) -> None:
    """Megabytes of frames a second that a replay gives, in polls of 4,096 frames."""
    folder, size = trial.empty_folder(), REPLAYED * MTU
    with open(folder / "0-0.rec", "wb") as segment:
        for place in range(0, size, MTU):
            segment.write(message(place, MTU))
    entries = [STREAM.start_entry(0, b"c"), settle_entry(0, size), stop_entry(0, 2_000)]
    (folder / "catalogue-a.bank").write_bytes(bank(1_048_576, entries))
    polls = [f"poll 0 {POLLED}"] * -(-REPLAYED // POLLED)
    trial.script.write_text("\n".join(["replay 0 0 -1", *polls, "quit"]) + "\n")
    words = [trial.tool, "run", folder]
    seconds(words, trial.script, trial.answers)
    last = size - MTU
    with open(trial.answers, "rb") as answers:
        told = answers.read(len("replay 0\n")), sum(line.startswith(b"frame ") for line in answers)
        answers.seek(-3_000, 2)
        end = answers.read().decode().splitlines()[-3:]
    if told != (b"replay 0\n", REPLAYED) or end != [f"frame {last} {message(last, MTU).hex()}", "done", "bye"]:
        raise Fault(f"a replay of {REPLAYED} frames gave {told[1]}, and last {end[-2:]}")
    trial.answers.unlink()
    taken = statistics.median(seconds(words, trial.script) for _ in range(3))
    print(f"replay of {size / 1e6:.0f} MB: {size / 1e6 / taken:.0f} MB/s", flush=True)


def main() -> int:
    words = argparse.ArgumentParser(description="Measures the program over a folder.")
    words.add_argument("program", nargs="?")
    words.add_argument("--settles", type=int, default=4_000, help="settles of a run")
    asked = words.parse_args()
    with room() as path:
        print(f"{asked.settles} settles a run, {TURNS} times proved, plain, plain, proved, on {file_system(path)}", flush=True)
        trial = Trial(program(asked.program), compiled("plain_settles.rs", path), path)
        measure_poll(trial)
        compare_lines(trial, asked.settles)
        compare_settles(trial, asked.settles)
        measure_replay(trial)
    return 0


if __name__ == "__main__":
    sys.exit(main())
