#!/usr/bin/env python3
"""Threads that share an archive, by the program of crates/trial_lock.

Usage: trials/threads.py [--seed S] [--runs N] [--kills N] [--calls N] [program]. First: cd crates/trial_lock && rt run -- memory 1 1

Runs over memory: four threads record and stop and go on now and then, one truncates, lists and purges. One thread makes the
calls of the history again: it is answered the same, frames included, and leaves the same state, which is the plain book's.

Then eight threads record into a folder, each its own recording, and tell each answer; the process is killed (SIGKILL) again
and again. What was answered has to be there, by the program that was named: `list` and a replay from where the last look
ended, at the end of everything and by `verify`. Behind it there may be at most one more settle of each. Prints runs, calls
and kills, and ends with status 1 where anything is wrong.
"""
import random
import signal
import subprocess
from pathlib import Path

from lib.tool import ROOT, Fault, Stream, conclude, expect, file_system, go_round, needs, noted, program, replayed, room, run, stop_positions, trial_words

THREADS = ROOT / "crates/trial_lock/out/trial_lock"
STREAM = Stream(term_length=65_536, segment_length=65_536)
HISTORY = 16_777_216
FRAME = 64  # bytes of a recorded frame
MOST_TOGETHER = 6  # blocks of a settle
WORDS = ["started", "extended", "settled", "stopped", "truncated", "purged", "purged-recording", "swept 1"]
CHANNEL = "c"


def runs(count: int, seed: int) -> None:
    """Runs over memory, each of which has to be right; together they have to be answered by each of the words."""
    told = run([THREADS, "census", str(count), str(seed)])
    right = "each call is answered as one thread is, and leaves the same state"
    expect("runs", told[::2], [f"seed {seed + index}: {right}" for index in range(count)])
    totals = [0] * (len(WORDS) + 1)
    for line in told[1::2]:
        for index, part in enumerate(line.split(", ")):
            totals[index] += int(part.split()[0] if index == 0 else part.split()[-1])
    if 0 in totals and count >= 20:
        raise Fault(f"{count} runs are never answered by one of {WORDS}: {totals}")
    print(f"{count} runs over memory: {totals[0]} calls, " + ", ".join(f"{n} {word}" for word, n in zip(WORDS, totals[1:])))


class Recording:
    """What was answered of a recording."""

    def __init__(self, number: int) -> None:
        self.number = number
        self.is_known = False
        self.settled = 0
        self.looked = 0  # up to where its frames were looked at


class Storm:
    """An archive that eight threads write, and whose process is killed."""

    def __init__(self, tool: Path, folder: Path, seed: int, calls: int, kills: int) -> None:
        self.tool, self.folder = tool, folder
        self.most_calls, self.most_kills = calls, kills
        self.chance = random.Random(seed)
        self.recordings = [Recording(number) for number in range(8)]
        self.calls = self.kills = self.more = 0
        self.least = calls // kills  # calls of a process, at the mean

    def note(self, line: str) -> None:
        """Takes an answer."""
        word, number, position = line.split()
        recording = self.recordings[int(number)]
        at = int(position)
        if at < recording.settled:
            raise Fault(f"{line}: it was settled to {recording.settled} before")
        self.calls += {"begun": 2, "stopped": 1, "settled": 1 + (at - recording.settled) // FRAME}[word]
        recording.is_known, recording.settled = True, at

    def write(self, turns: int, most: int | None) -> list[str]:
        """A process that is killed behind so many answers, if a number is given; else what it tells at its end."""
        words = [THREADS, "folder", self.folder, str(self.chance.randrange(10**6)), str(turns)]
        writer = subprocess.Popen(words, stdout=subprocess.PIPE, text=True)
        _, last = noted(writer, most, self.chance, lambda line: line.startswith("closed "), self.note)
        if last:
            return [last.strip(), str(writer.wait())]
        if most is None or writer.wait() != -signal.SIGKILL:
            raise Fault(f"a process ended by itself, with status {writer.wait()}")
        self.kills += 1
        return []

    def stops(self) -> list[int]:
        """Opens the archive again: where each recording stopped."""
        stops = stop_positions(self.tool, self.folder, is_stopped=True)
        if len(stops) < sum(each.is_known for each in self.recordings):
            raise Fault(f"{len(stops)} recordings are there")
        return stops

    def look(self) -> None:
        """What was answered is there, and of each recording at most one settle more."""
        for recording, stop in zip(self.recordings, self.stops()):
            if not recording.settled <= stop <= recording.settled + MOST_TOGETHER * FRAME or stop % FRAME:
                raise Fault(f"recording {recording.number}: settled to {recording.settled}, it stopped at {stop}")
            self.more += stop > recording.settled
            recording.is_known, recording.settled = True, stop
            self.replay(recording, recording.looked)

    def replay(self, recording: Recording, begin: int) -> None:
        """Replays a recording from a position to its end."""
        frames = (recording.settled - begin) // FRAME
        right = [STREAM.numbered(recording.number, position) for position in range(begin, recording.settled, FRAME)]
        if replayed(self.tool, self.folder, recording.number, begin, frames) != right:
            raise Fault(f"recording {recording.number}: not the {frames} frames from {begin} on that were answered")
        recording.looked = recording.settled

    def is_done(self) -> bool:
        return self.kills >= self.most_kills and self.calls >= self.most_calls

    def so_far(self) -> str:
        return f"{self.calls} calls and {self.kills} kills"

    def round(self) -> None:
        """Writes, is killed, and is looked at. A settle with its blocks is about three and a half calls."""
        self.write(10**9, self.chance.randint(self.least // 5, self.least // 2))
        self.look()

    def end(self) -> None:
        """A process that ends by itself has made the calls that it counted; and all is there."""
        before = self.calls
        told = self.write(20, None)
        expect("a process at its end", told, [f"closed {self.calls - before}", "0"])
        self.look()
        ended = subprocess.run([self.tool, "verify", self.folder], stdout=subprocess.PIPE, stderr=subprocess.DEVNULL, text=True)
        right = [f"verified {each.settled // FRAME}" for each in self.recordings]
        expect("verify", (ended.stdout.splitlines(), ended.returncode), (right, 0))
        for recording in self.recordings:
            self.replay(recording, 0)


def killed(tool: Path, seed: int, kills: int, calls: int) -> None:
    """Kills a process of eight threads so often at least, until it has made so many calls."""
    with room() as folder:
        storm = Storm(tool, folder, seed, calls, kills)
        go_round(tool, folder, HISTORY, storm)
        print(f"eight threads over {file_system(folder)}: {storm.calls} calls, {storm.kills} kills, nothing lost; "
              f"{storm.more} settles more were there")


def main() -> int:
    words = trial_words(__doc__)
    words.add_argument("--runs", type=int, default=100)
    words.add_argument("--kills", type=int, default=20)
    words.add_argument("--calls", type=int, default=100_000)
    asked = words.parse_args()
    needs(THREADS)
    print(f"seed {asked.seed}", flush=True)
    runs(asked.runs, asked.seed)
    killed(program(asked.program), asked.seed, asked.kills, asked.calls)
    return 0


if __name__ == "__main__":
    conclude(main)
