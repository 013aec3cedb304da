#!/usr/bin/env python3
"""Data that is handed out no further than a log is durable, before and after kills.

Usage: trials/bounded.py [--seed S] [--kills N] [program]. First: cd crates/trial_agents && rt run -- look 1

A process records a log into one folder and data into another, where it is ahead of the log. A bounded replayer hands out the
data, and prints each frame with the position of the log that it saw. The process is killed (SIGKILL) at a random moment, again
and again. The next one goes on with both recordings and with the replay. After each kill `list` of the log's folder has to show
a position at or past the end of each frame that was handed out. Frames come in order, without gaps, and are those that a replay
of the data gives. The last process ends by itself: it hands out all up to the log's end, and no more.
"""
import signal
import subprocess
import threading
from pathlib import Path

from lib.tool import ROOT, Fault, KilledRounds, Stream, conclude, expect, file_system, go_round, needs, noted, program, replayed, room, run, stop_positions, trial_words

AGENTS = ROOT / "crates/trial_agents/out/trial_agents"
STREAM = Stream(term_length=65_536, segment_length=65_536)
HISTORY = 16_777_216
FRAME = 64  # bytes of a recorded frame
FRAMES_AHEAD = 8  # frames of a block of the data; a block of the log has one
FEW_BLOCKS = 50  # of a process that ends by itself
LONGEST = 300  # seconds of a process


class Held(KilledRounds):
    """A log, data that its position holds back, and what was handed out."""

    def __init__(self, tool: Path, log: Path, data: Path, seed: int, most_kills: int) -> None:
        super().__init__(seed, most_kills, (1, 300))
        self.tool, self.log, self.data = tool, log, data
        self.handed = 0  # the end of the last frame that was handed out
        self.seen = 0  # what the replayer saw of the log
        self.compared = 0  # up to where frames were compared with a replay
        self.ahead = self.more = 0

    def note(self, line: str) -> None:
        """Takes a frame that was handed out."""
        word, *numbers = line.split()
        expect(f"the word of {line.strip()}", word, "handed")
        seen, begin, end, told = map(int, numbers)
        expect(f"the frame of {line.strip()}", (begin, end, told), (self.handed, self.handed + FRAME, self.handed))
        if seen < self.seen:
            raise Fault(f"{line.strip()}: it saw {self.seen} of the log before")
        if end > seen:
            raise Fault(f"{line.strip()}: the frame ends past what it saw of the log")
        self.handed, self.seen = end, seen

    def follow(self, blocks: int, most: int | None) -> None:
        """A process of so many blocks, which is killed after so many lines, if a number is given."""
        words = [AGENTS, "bounded", self.log, self.data, str(blocks), str(self.handed)]
        process = subprocess.Popen(words, stdout=subprocess.PIPE, text=True)
        limit = threading.Timer(LONGEST, process.kill)
        limit.start()
        try:
            count, last = noted(process, most, self.chance, "ended\n".__eq__, self.note)
            if not most:
                process.wait()
        finally:
            limit.cancel()
            process.kill()
            status = process.wait()
        right = ("", -signal.SIGKILL, True) if most else ("ended\n", 0, True)
        expect("how a process ended", (last, status, count >= (most or 0)), right)

    def stop(self, folder: Path) -> int:
        """Up to where a folder's recording is recorded."""
        stops = stop_positions(self.tool, folder, is_stopped=True)
        expect(f"how many recordings are in {folder}", len(stops), 1)
        return stops[0]

    def look(self) -> tuple[int, int]:
        """What was handed out ends at or before what the log has. Returns what the log and the data have."""
        log, data = self.stop(self.log), self.stop(self.data)
        if log < self.seen:
            raise Fault(f"frames were handed out up to {self.handed}, by {self.seen} of the log, which has {log}")
        self.ahead += data > log
        self.more += log > self.handed
        self.seen = log
        self.compare()
        return log, data

    def compare(self) -> None:
        """Compares what was handed out since the last look with a replay of the data."""
        frames = (self.handed - self.compared) // FRAME
        right = [STREAM.numbered(0, position) for position in range(self.compared, self.handed, FRAME)]
        if replayed(self.tool, self.data, 0, self.compared, frames)[:frames] != right:
            raise Fault(f"a replay of the data does not give the {frames} frames from {self.compared} on that were handed out")
        self.compared = self.handed

    def so_far(self) -> str:
        return f"{self.handed // FRAME} frames and {self.kills} kills"

    def end(self) -> None:
        """A process that ends by itself: what it handed out ends with the log, and the data goes on."""
        before = self.stop(self.log), self.stop(self.data)
        self.follow(FEW_BLOCKS, None)
        log, data = self.look()
        right = before[0] + FEW_BLOCKS * FRAME, before[1] + FEW_BLOCKS * FRAMES_AHEAD * FRAME
        expect("what the log and the data have", (log, data), right)
        expect("up to where frames were handed out", self.handed, log)
        if data <= log:
            raise Fault(f"the data ends at {data}, and the log at {log}: nothing was held back")
        for folder, position in (self.log, log), (self.data, data):
            expect("verify", run([self.tool, "verify", folder]), [f"verified {position // FRAME}"])


def main() -> int:
    words = trial_words(__doc__)
    words.add_argument("--kills", type=int, default=100)
    asked = words.parse_args()
    needs(AGENTS)
    tool = program(asked.program)
    print(f"seed {asked.seed}", flush=True)
    with room() as folder:
        log, data = folder / "log", folder / "data"
        log.mkdir()
        data.mkdir()
        run([tool, "create", data, "--history", str(HISTORY)])
        held = Held(tool, log, data, asked.seed, asked.kills)
        go_round(tool, log, HISTORY, held)
        print(f"a log and data that it holds back over {file_system(folder)}: {held.so_far()}; each frame that was handed out lies "
              f"below what the log has; the data was ahead {held.ahead} times; the log had more {held.more} times")
    return 0


if __name__ == "__main__":
    conclude(main)
