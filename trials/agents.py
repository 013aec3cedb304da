#!/usr/bin/env python3
"""Agents in threads: two scenarios of tests_live, a run without threads, and followed positions after a kill.

Usage: trials/agents.py [--seed S] [--runs N] [--kills N] [program]. First: cd crates/trial_agents && rt run -- look 1, and
cd crates/tests_live && rt test

Two recorders and two replayers, whose sources and sinks wait for each other, run again and again: agents on one thread would end
a wait by its limit. So do six agents that their gate ends, each at a turn of its own. Then a receiver and a recorder run as a user
who may make no thread, which root alone can try: that run has to be answered NoMemory, and one with enough threads has to end well.
Then two recorders with their receivers record into a folder, and a follower writes each position down that it sees; the process is
killed (SIGKILL) at a random moment. What was written down has to be there, by the program that was named: `list`, a replay of each
recording from where the last look ended, and at the end of everything `verify`.
"""
import os
import resource
import shutil
import signal
import subprocess
from collections.abc import Callable
from pathlib import Path

from lib.tool import ROOT, Fault, KilledRounds, Stream, conclude, expect, file_system, go_round, needs, noted, program, replayed, room, run, stop_positions, trial_words

AGENTS = ROOT / "crates/trial_agents/out/trial_agents"
TESTS = ROOT / "crates/tests_live/out/tests_live_tests"
SCENARIOS = ["agents::two_recorders_and_two_replayers", "agents::a_gate_ends_each_agent_at_its_turn"]
STREAM = Stream(term_length=65_536, segment_length=65_536)
HISTORY = 16_777_216
FRAME = 64  # bytes of a recorded frame
FEW_BLOCKS = 50  # of a process that ends by itself
NOBODY = 65_534  # a user who runs nothing else
PATIENCE = 60  # seconds for a run that has to end by itself
THREADS = 2  # that a run of a receiver and a recorder makes; the recorder's is the program's own


def scenario(name: str, runs: int) -> None:
    """Runs a scenario so often; each run has to end well."""
    for index in range(runs):
        ended = subprocess.run([TESTS, name], capture_output=True, text=True)
        if ended.returncode:
            raise Fault(f"run {index} of {name}: status {ended.returncode}, {ended.stdout}{ended.stderr}")
    print(f"{runs} runs of {name}", flush=True)


def as_nobody(threads: int) -> Callable[[], None]:
    """What makes a process one of a user who may have no more than it and so many threads."""

    def become() -> None:
        os.setgroups([])
        os.setgid(NOBODY)
        os.setuid(NOBODY)
        resource.setrlimit(resource.RLIMIT_NPROC, (1 + threads, 1 + threads))

    return become


def unthreaded() -> None:
    """A run for which no thread can be made is refused; one for which all can be made is not."""
    if os.geteuid() != 0:
        print("runs without threads: skipped, this is not root", flush=True)
        return
    with room() as folder:
        folder.chmod(0o755)
        agents = shutil.copy(AGENTS, folder)
        os.chmod(agents, 0o755)
        for threads in (0, THREADS):
            words = [agents, "queue", str(FEW_BLOCKS)]
            try:
                ended = subprocess.run(words, capture_output=True, text=True, preexec_fn=as_nobody(threads), timeout=PATIENCE)
            except subprocess.TimeoutExpired:
                raise Fault(f"with {threads} threads: no end after {PATIENCE} seconds") from None
            is_run = ended.returncode == 0 and ended.stdout.strip().isdecimal() and ended.stderr == ""
            is_refused = ended.returncode == 1 and ended.stdout == "" and ended.stderr.split()[-1:] == ["NoMemory"]
            if not (is_run if threads else is_refused):
                raise Fault(f"with {threads} threads: status {ended.returncode}, {ended.stdout}{ended.stderr}")
    print("a run for which no thread can be made is refused: NoMemory", flush=True)


class Followed(KilledRounds):
    """An archive that two recorders write, and the positions that their follower wrote down."""

    def __init__(self, tool: Path, folder: Path, seed: int, most_kills: int) -> None:
        super().__init__(seed, most_kills, (20, 2_000))
        self.tool, self.folder = tool, folder
        self.seen = [0, 0]
        self.looked = [0, 0]  # up to where frames were looked at
        self.lines = self.more = 0

    def note(self, line: str) -> None:
        """Takes a position that was seen."""
        word, slot, position = line.split()
        number, at = int(slot), int(position)
        expect("a line", word, "seen")
        if at < self.seen[number] or at % FRAME:
            raise Fault(f"{line.strip()}: it was at {self.seen[number]} before")
        self.seen[number] = at
        self.lines += 1

    def follow(self, blocks: int, most: int | None) -> None:
        """A process of so many blocks, which is killed behind so many lines, if a number is given."""
        follower = subprocess.Popen([AGENTS, "folder", self.folder, str(blocks)], stdout=subprocess.PIPE, text=True)
        _, last = noted(follower, most, self.chance, "ended\n".__eq__, self.note)
        status = follower.wait()
        right = ("", -signal.SIGKILL) if most else ("ended\n", 0)
        expect("how a process ended", (last, status), right)

    def look(self) -> None:
        """What was seen is there; what was settled and not seen may be."""
        stops = stop_positions(self.tool, self.folder, is_stopped=True)
        if len(stops) < 2 and max(self.seen) > 0:
            raise Fault(f"{len(stops)} recordings are there")
        for number, stop in enumerate(stops):
            if stop < self.seen[number] or stop % FRAME:
                raise Fault(f"recording {number}: seen at {self.seen[number]}, it stopped at {stop}")
            self.more += stop > self.seen[number]
            self.seen[number] = stop
            self.replay(number, self.looked[number])
            self.looked[number] = stop

    def replay(self, number: int, begin: int) -> None:
        """Replays a recording from a position to its end."""
        frames = (self.seen[number] - begin) // FRAME
        right = [STREAM.numbered(number, position) for position in range(begin, self.seen[number], FRAME)]
        if replayed(self.tool, self.folder, number, begin, frames) != right:
            raise Fault(f"recording {number}: not the {frames} frames from {begin} on that were recorded")

    def so_far(self) -> str:
        return f"{self.lines} positions and {self.kills} kills"

    def end(self) -> None:
        """A process that ends by itself: its last look saw all that it recorded."""
        before = list(self.seen)
        self.follow(FEW_BLOCKS, None)
        expect("what was seen last", self.seen, [position + FEW_BLOCKS * FRAME for position in before])
        self.look()
        right = [f"verified {position // FRAME}" for position in self.seen]
        expect("verify", run([self.tool, "verify", self.folder]), right)
        for number in range(2):
            self.replay(number, 0)


def killed(tool: Path, seed: int, kills: int) -> None:
    """Kills a process so often, and looks at what it left."""
    with room() as folder:
        followed = Followed(tool, folder, seed, kills)
        go_round(tool, folder, HISTORY, followed)
        print(f"two recorders and a follower over {file_system(folder)}: {followed.lines} positions written down, "
              f"{followed.kills} kills, each is there; {followed.more} times more was recorded than was seen")


def main() -> int:
    words = trial_words(__doc__)
    words.add_argument("--runs", type=int, default=100)
    words.add_argument("--kills", type=int, default=20)
    asked = words.parse_args()
    needs(AGENTS, TESTS)
    print(f"seed {asked.seed}", flush=True)
    for name in SCENARIOS:
        scenario(name, asked.runs)
    unthreaded()
    killed(program(asked.program), asked.seed, asked.kills)
    return 0


if __name__ == "__main__":
    conclude(main)
