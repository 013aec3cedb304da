#!/usr/bin/env python3
"""Kills `archive_tool run <folder>` at random moments while it records, and looks each time for what it had settled.

A round starts a writer that goes on with the last recording, or begins one, and sends it blocks of one to six frames, each
by a `block` line, or several by `write` lines and one `settle`, until it is killed (SIGKILL). Then the archive is opened
again, now and then after an opening that was killed too. What was answered `settled` has to be there. What was sent behind it
may be there, in order, of a settle all blocks or none; nothing else may be. The recording is replayed after each round, and
all of them at the end.

Prints rounds, frames and losses, and ends with status 1 where anything is wrong. A kill takes no power away: what the system
was given stays, synced or not. With `--history N` the writer makes checkpoints, a history of 100 entries every few milliseconds. What a loss of power may leave is tried by power_cuts.py, and on the disk in memory (docs/SCENARIOS.md).
"""
import argparse
import random
import signal
import subprocess
import sys
import threading
from collections.abc import Iterable, Iterator
from contextlib import suppress
from pathlib import Path

from lib.tool import MOST_AT_ONCE, MTU, Fault, Stream, aligned, file_system, program, room, run

STREAM = Stream(term_length=65_536, segment_length=131_072)
LONGEST_LIFE = 0.3  # seconds from a writer's first answer, or one time in four from its start, to its kill
LONGEST_OPENING = 0.02  # seconds from the start of an opening to its kill
AHEAD = 0, 0, 2, 12  # lines that a writer is sent ahead of its answers, by chance one of these
BATCHES = 0.3  # how often blocks are settled together
MOST_IN_BATCH = 16  # blocks of these


class Recording:
    """What was sent of a recording, and up to where it is known to be settled."""

    def __init__(self, number: int) -> None:
        self.number = number
        self.channel = f"aeron:udp?endpoint=localhost:{40_000 + number}"
        self.is_known = False
        self.settled = 0
        self.frames: list[tuple[int, str]] = []  # where each frame ends, and how a poll tells it
        self.ends: list[int] = []  # where each settle ends
        self.end = 0  # where the last block ends that was sent

    def told_to(self, stop: int) -> list[str]:
        """How a replay tells the frames up to a position."""
        return [line for end, line in self.frames if end <= stop]

    def lost(self, told: list[str]) -> int:
        """How many settled frames do not stand in their place in a replay."""
        return sum(told[index : index + 1] != [line] for index, line in enumerate(self.told_to(self.settled)))

    def keep(self, stop: int) -> None:
        """Takes what stands as settled, and forgets what was sent behind it."""
        self.is_known, self.settled, self.end = True, stop, stop
        self.frames = [(end, line) for end, line in self.frames if end <= stop]
        self.ends = [end for end in self.ends if end <= stop]

    def send(self, position: int, length: int, encoding: bytes) -> bytes:
        """Notes a frame as sent, and hands it on."""
        self.frames.append((position + length, f"frame {position} {encoding.hex()}"))
        return encoding

    def next_block(self, chance: random.Random) -> bytes:
        """A block behind the last one: some frames, or a pad where the term has no room for the first."""
        begin = position = self.end
        term_end = begin + STREAM.term_length - begin % STREAM.term_length
        block = b""
        for _ in range(chance.randint(1, 6)):
            payload = chance.randbytes(chance.randint(0, MTU - 32))
            length = aligned(32 + len(payload))
            if position + length > term_end:
                break
            block += self.send(position, length, STREAM.message(position, payload)).ljust(length, b"\x00")
            position += length
        if position == begin:
            block = self.send(begin, term_end - begin, STREAM.header(begin, term_end - begin, 0))
            position = term_end
        self.end = position
        return block


class Storm:
    """An archive that is written and killed, and what it has to hold."""

    def __init__(self, tool: Path, folder: Path, seed: int, *options: str) -> None:
        self.script = [tool, "run", folder, *options]
        self.verification = [tool, "verify", folder]
        self.chance = random.Random(seed)
        self.recordings = [Recording(0)]
        self.rights: list[tuple[str, int | None]] = []  # what each line is answered, and up to where that settles
        self.rounds = self.answered = self.unanswered = self.lost = 0

    def asked(self, line: str, right: str, settled: int | None = None) -> str:
        """A line, whose right answer is noted."""
        self.rights.append((right, settled))
        return line

    def lines(self, recording: Recording) -> Iterator[str]:
        """What a writer is sent: its recording, and blocks without end."""
        self.rights = []
        if recording.is_known:
            yield self.asked(STREAM.extend(recording.number, recording.settled), "extended 0")
        else:
            yield self.asked(STREAM.start(recording.channel), f"started {recording.number} 0")
        while True:
            yield from self.batch(recording) if self.chance.random() < BATCHES else self.single(recording)

    def single(self, recording: Recording) -> Iterator[str]:
        """A block that is written and settled by one line."""
        block = recording.next_block(self.chance)
        recording.ends.append(recording.end)
        yield self.asked(f"block 0 {block.hex()}", f"settled {recording.end}", recording.end)

    def batch(self, recording: Recording) -> Iterator[str]:
        """Some blocks that begin in one segment, and their settle."""
        segment = recording.end // STREAM.segment_length
        for _ in range(self.chance.randint(2, MOST_IN_BATCH)):
            if recording.end // STREAM.segment_length != segment:
                break
            block = recording.next_block(self.chance)
            yield self.asked(f"write 0 {block.hex()}", f"written {recording.end}")
        recording.ends.append(recording.end)
        yield self.asked("settle 0", f"settled {recording.end}", recording.end)

    def write(self, recording: Recording) -> None:
        """A writer that is killed, and what its answers say is there. Up to so many lines are sent ahead of the answers."""
        writer = subprocess.Popen(self.script, stdin=subprocess.PIPE, stdout=subprocess.PIPE, text=True)
        killer = threading.Timer(self.chance.uniform(0, LONGEST_LIFE), writer.kill)
        answers, ahead, is_early = [], self.chance.choice(AHEAD), self.chance.random() < 0.25
        if is_early:
            killer.start()
        with suppress(BrokenPipeError):
            for sent, line in enumerate(self.lines(recording), start=1):
                print(line, file=writer.stdin, flush=True)
                if sent - len(answers) > ahead:
                    answers.append(writer.stdout.readline())
                    if len(answers) == 1 and not is_early:
                        killer.start()
        with suppress(BrokenPipeError):
            writer.stdin.close()
        answers += writer.stdout
        if writer.wait() != -signal.SIGKILL:
            raise Fault(f"a writer ended by itself, with status {writer.returncode}")
        self.note(recording, [answer[:-1] for answer in answers if answer.endswith("\n")])

    def note(self, recording: Recording, answers: list[str]) -> None:
        """Takes what is answered as settled; no other answer may come."""
        for index, (answer, (right, _)) in enumerate(zip(answers, self.rights)):
            if answer != right:
                raise Fault(f"recording {recording.number}: a writer was answered {answer} to its line {index}, not {right}")
        if len(answers) > len(self.rights):
            raise Fault(f"recording {recording.number}: {len(answers)} answers to {len(self.rights)} lines")
        settled = [end for _, end in self.rights[: len(answers)] if end is not None]
        if answers:
            recording.is_known = True
        if settled:
            recording.settled = settled[-1]
            self.answered += len(settled)

    def kill_an_opening(self) -> None:
        """An opening that is killed before it is asked for anything."""
        opening = subprocess.Popen(self.script, stdin=subprocess.PIPE, stdout=subprocess.DEVNULL)
        try:
            opening.wait(self.chance.uniform(0, LONGEST_OPENING))
        except subprocess.TimeoutExpired:
            opening.kill()
        opening.communicate()

    def stops(self) -> list[int]:
        """Opens the archive again: where each recording stopped. One whose start was not answered may be missing."""
        told = run(self.script, ["list 0 1024"], is_stopped=True)
        if len(told) == len(self.recordings) and not self.recordings[-1].is_known:
            self.recordings.pop()
        stops = [int(line.split()[5]) for line in told[:-1]]
        right = [STREAM.descriptor(each.number, -1, stop, each.channel) for each, stop in zip(self.recordings, stops)]
        if told != [*right, f"end {len(self.recordings)}"]:
            raise Fault(f"{len(self.recordings)} recordings, of which a listing tells {told}")
        return stops

    def replayed(self, recording: Recording) -> list[str]:
        """What a replay of a recording answers, but that it is done."""
        polls = [f"poll 0 {MOST_AT_ONCE}"] * (len(recording.frames) // MOST_AT_ONCE + 1)
        told = run(self.script, [f"replay {recording.number} 0 -1", *polls])
        return [line for line in told[1:] if line != "done" and not line.startswith("more ")]

    def check(self, recording: Recording, stop: int) -> None:
        """Replays a recording, which stopped at a position."""
        told = self.replayed(recording)
        self.lost += recording.lost(told)
        if stop < recording.settled:
            raise Fault(f"recording {recording.number}: settled to {recording.settled}, it stopped at {stop}")
        if stop != recording.settled and stop not in recording.ends:
            raise Fault(f"recording {recording.number}: it stopped at {stop}, where no settle ends")
        if told != recording.told_to(stop):
            raise Fault(f"recording {recording.number}: not the frames that were sent up to {stop}")

    def look(self, chosen: Iterable[Recording]) -> None:
        """Opens the archive again, and replays these recordings."""
        for recording, stop in zip(self.recordings, self.stops()):
            if recording in chosen:
                self.check(recording, stop)
            elif stop != recording.settled:
                raise Fault(f"recording {recording.number}: settled to {recording.settled}, it stopped at {stop}")
            self.unanswered += sum(end > recording.settled for end in recording.ends if end <= stop)
            recording.keep(stop)

    def round(self) -> None:
        """Writes, is killed, and is looked at."""
        self.rounds += 1
        if not self.recordings or (self.recordings[-1].is_known and self.chance.random() < 0.1):
            self.recordings.append(Recording(len(self.recordings)))
        self.write(self.recordings[-1])
        if self.chance.random() < 0.3:
            self.kill_an_opening()
        self.look(self.recordings[-1:])

    def end(self) -> None:
        """Verifies the archive by its command, and replays every recording."""
        told = run(self.verification)
        if told != [f"verified {len(recording.frames)}" for recording in self.recordings]:
            raise Fault(f"not all recordings are verified: {told}")
        self.look(self.recordings)

    def tally(self) -> str:
        frames = sum(len(recording.told_to(recording.settled)) for recording in self.recordings)
        return (
            f"{self.rounds} rounds, {frames} frames of {len(self.recordings)} recordings, {self.lost} lost; "
            f"{self.answered} settles were answered, {self.unanswered} more were there"
        )


def main() -> int:
    words = argparse.ArgumentParser(description=__doc__, formatter_class=argparse.RawDescriptionHelpFormatter)
    words.add_argument("program", nargs="?", help="else that of ARCHIVE_TOOL, else the built one")
    words.add_argument("--rounds", type=int, default=200)
    words.add_argument("--history", type=int, help="the history has so many entries, and the writer makes checkpoints")
    words.add_argument("--seed", type=int, default=random.SystemRandom().randrange(10**9))
    asked = words.parse_args()
    tool = program(asked.program)
    with room() as folder:
        print(f"seed {asked.seed}, on {file_system(folder)}", flush=True)
        is_short = asked.history is not None
        storm = Storm(tool, folder, asked.seed, *(["--checkpoints"] if is_short else []))
        try:
            run([tool, "create", folder, *(["--history", str(asked.history)] if is_short else [])])
            while storm.rounds < asked.rounds:
                storm.round()
            storm.end()
        except Fault as fault:
            raise Fault(f"{storm.tally()}\nround {storm.rounds}: {fault}") from fault
    print(storm.tally())
    return 0


if __name__ == "__main__":
    sys.exit(main())
