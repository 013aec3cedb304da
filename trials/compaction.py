#!/usr/bin/env python3
"""Kills `archive_tool compact <folder>` at random moments over a long history, and looks each time whether the archive is the same.

The archive has three recordings, of which one is active, and a history of 100,000 entries. A round takes a copy of its folder and
kills a compaction in it (SIGKILL), every other round two of them; a quarter lives as long as it wants to. Then the archive is
opened: the recordings have to be those of before, with the active one stopped. It is compacted to the end, and has to be the same
again: listed, verified, replayed; and the next recording has the next id. With `--version 1` the catalogue is one of version 1, as
an earlier program wrote it, and has version 2 once it is compacted.

Prints rounds, kills and how many of them left the new bank in use, and ends with status 1 where anything is wrong.
"""
import shutil
import signal
import struct
import subprocess
import time
from pathlib import Path
from random import Random

from readers.catalogue import BANKS, bank_in_use, epoch_of
from lib.tool import Fault, Stream, bank, conclude, entry, expect, file_system, program, replayed, room, run, settle_entry, stop_entry, trial_words

STREAM = Stream(term_length=65_536, segment_length=131_072)
CHANNELS = ["first", "second", "third"]
FRAMES = 20  # of each recording, each of 64 bytes
HISTORY = 100_000  # entries
LIMIT = 1_048_576  # of the history, if none is asked for


def truncation(recording: int, position: int) -> bytes:
    """The catalogue's entry of a truncation: docs/STORAGE.md, "Entries"."""
    return entry(5, struct.pack("<qq", recording, position))


def earlier(count: int) -> bytes:
    """The bank of version 1 for the same archive, with so many truncations."""
    starts = [STREAM.start_entry(number, channel.encode(), 1) for number, channel in enumerate(CHANNELS)]
    settles = [settle_entry(number, 64 * frame) for frame in range(1, FRAMES + 1) for number in range(len(CHANNELS))]
    stops = [stop_entry(number, 2_000) for number in (0, 1)]
    return bank(LIMIT, [*starts, *settles, *stops, *[truncation(0, 64 * FRAMES)] * count], 1)


def make(tool: Path, folder: Path, version: int) -> None:
    """An archive with three recordings, the last one active, and with a long history."""
    run([tool, "create", folder])
    lines = [STREAM.start(channel) for channel in CHANNELS]
    for frame in range(FRAMES):
        for number in range(len(CHANNELS)):
            payload = (64 * frame).to_bytes(8, "little") + number.to_bytes(8, "little")
            lines.append(f"block {number} {STREAM.message(64 * frame, payload).hex()}")
    run([tool, "run", folder], [*lines, "stop 0 2000", "stop 1 2000"])
    path = folder / BANKS[0]
    known = path.read_bytes()
    count = HISTORY - (len(lines) + 2)
    made = known[:-1] + (b"\x01" + truncation(0, 64 * FRAMES)) * count + b"\x00"
    path.write_bytes(earlier(count) if version == 1 else made)


def in_use(folder: Path) -> bytes:
    """The bank in use of a folder."""
    banks = {name: (folder / name).read_bytes() if (folder / name).exists() else None for name in BANKS}
    return banks[bank_in_use(banks)]


class Rounds:
    """A folder of which each round has a copy, and what is to be found in it."""

    def __init__(self, tool: Path, room: Path, seed: int, version: int) -> None:
        self.tool, self.master, self.folder = tool, room / "long", room / "round"
        self.chance = Random(seed)
        self.killed = self.new = 0
        make(tool, self.master, version)
        expect("version", in_use(self.master)[1], version)
        self.copy()
        begun = time.monotonic()
        expect("compact", run([tool, "compact", self.folder]), ["compacted"])
        self.life = time.monotonic() - begun
        self.right = [STREAM.descriptor(number, 2_000 if number < 2 else -1, 64 * FRAMES, channel) for number, channel in enumerate(CHANNELS)]

    def copy(self) -> None:
        """A new copy of the archive with the long history."""
        shutil.rmtree(self.folder, ignore_errors=True)
        shutil.copytree(self.master, self.folder)

    def kill(self) -> None:
        """A compaction that is killed, unless it ends before."""
        words = [self.tool, "compact", self.folder]
        process = subprocess.Popen(words, stdout=subprocess.PIPE, stderr=subprocess.PIPE, text=True)
        try:
            told, error = process.communicate(timeout=self.chance.uniform(0, 1.3 * self.life))
            expect("a compaction that was not killed", (process.returncode, told, error), (0, "compacted\n", ""))
        except subprocess.TimeoutExpired:
            process.send_signal(signal.SIGKILL)
            process.communicate()
            self.killed += 1
        self.new += epoch_of(in_use(self.folder)) > 1

    def listed(self, what: str) -> None:
        """The recordings have to be those of before."""
        expect(f"list {what}", run([self.tool, "list", self.folder]), [*self.right, f"end {len(self.right)}"])

    def whole(self) -> None:
        """And so have their frames, and the next id."""
        expect("verify", run([self.tool, "verify", self.folder]), [f"verified {FRAMES}"] * len(self.right))
        for number in range(len(self.right)):
            frames = [STREAM.numbered(number, 64 * frame) for frame in range(FRAMES)]
            expect(f"recording {number}", replayed(self.tool, self.folder, number, 0, FRAMES), frames)
        expect("a start", run([self.tool, "run", self.folder], [STREAM.start("next")]), [f"started {len(self.right)} 0"])

    def round(self, number: int) -> None:
        """Compacts, is killed, and is looked at."""
        self.copy()
        for _ in range(1 + number % 2):
            self.kill()
        self.listed("behind a kill")
        expect("compact", run([self.tool, "compact", self.folder]), ["compacted"])
        expect("version behind a compaction", in_use(self.folder)[1], 2)
        self.listed("behind a compaction")
        self.whole()


def main() -> int:
    words = trial_words(__doc__)
    words.add_argument("--rounds", type=int, default=100)
    words.add_argument("--version", type=int, choices=(1, 2), default=2)
    asked = words.parse_args()
    tool = program(asked.program)
    with room() as folder:
        print(f"seed {asked.seed}, on {file_system(folder)}", flush=True)
        rounds = Rounds(tool, folder, asked.seed, asked.version)
        for number in range(asked.rounds):
            try:
                rounds.round(number)
            except Fault as fault:
                raise Fault(f"round {number}: {fault}") from fault
    print(f"{asked.rounds} rounds over {HISTORY} entries of version {asked.version}, {rounds.killed} compactions killed, {rounds.new} left the new bank in use")
    return 0


if __name__ == "__main__":
    conclude(main)
