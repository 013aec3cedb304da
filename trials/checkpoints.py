#!/usr/bin/env python3
"""Asks that checkpoints change no answer, lose nothing, and let others look meanwhile: docs/STORAGE.md, "Checkpoints".

Usage: trials/checkpoints.py [--seed S] [--only TRIAL] [--scripts N] [--looks N] [program]

- answers: so many random scripts, whose replies are those of `readers/`, which knows no checkpoint. Each runs twice by
  `run --checkpoints`: with a line `checkpoint` behind each line, and over a history of 16 entries, of which half is used again and
  again. All that is answered beside `checkpointed` has to be the same. Then the folder is looked at, with and without an opening.
- many: 64 active recordings, with blocks that are written and not settled, open replays, and truncations and extensions between two
  checkpoints. All that is answered beside `checkpointed` is what `readers/` answers.
- looks: next to a process that records by `run --checkpoints` over a history of 64 entries, `list --read-only`, `describe`, `verify
  --read-only` and `export` look at the folder, so many times. What each shows is one moment: recordings end where a settle ended, no
  sooner than what was answered before the look began. Only a `verify` may find damage, and then it says that the archive has moved.

Kills with checkpoints are tried by `kills.py --history N`.
"""
import json
import threading
from collections import Counter
from pathlib import Path
from random import Random

from lib import random_lines
from lib.comparison import Script, ended, told_by
from lib.tool import Fault, Session, Stream, conclude, expect, program, room, run, run_trials, trial_words
from readers.archive import Archive
from readers.catalogue import NEWEST, Register

STEPS = 40  # of a script
SHORT = 16  # entries of a history: more than twice the recordings of a script
STREAM = Stream(term_length=65_536, segment_length=131_072)
MOVED = "the archive is being written: what is told to be damaged may be whole, so look again\n"
OF_LOOKS = 64  # entries of a history


def script_of(chance: Random) -> Script:
    """Random lines, with their replies."""
    script = Script(Archive({}, Register(NEWEST)))
    for _ in range(STEPS):
        for line in random_lines.line(script.archive, chance):
            script.ask(line)
    for known in script.archive.register.listed():
        script.ask(f"verify {known.number}")
    script.ask("list 0 1024")
    return script


def beside_checkpoints(tool: Path, folder: Path, lines: list[str]) -> list[str]:
    """What a script that makes checkpoints answers beside `checkpointed`."""
    return [line for line in told_by(tool, folder, lines, "--checkpoints") if line != "checkpointed"]


def try_answers(tool: Path, chance: Random, count: int) -> None:
    """Random scripts with a checkpoint behind each line, and over a short history."""
    lines = checkpoints = 0
    for number in range(count):
        script = script_of(chance)
        asked = [line for line, _ in script.asked]
        right = [reply for _, replies in script.asked for reply in replies]
        with room() as path:
            each = path / "each"
            each.mkdir()
            expect(f"script {number}, a checkpoint behind each line", beside_checkpoints(tool, each, [word for line in asked for word in (line, "checkpoint")]), right)
            short = path / "short"
            run([tool, "create", short, "--history", str(SHORT)])
            expect(f"script {number}, a short history", beside_checkpoints(tool, short, asked), right)
            seen = run([tool, "list", short, "--read-only"])
            expect(f"script {number}, a look", seen, run([tool, "list", each, "--read-only"]))
            expect(f"script {number}, an opening", run([tool, "list", short]), run([tool, "list", each]))
            known = json.loads("".join(run([tool, "describe", short, "--json"])))
            expect(f"script {number}, entries that are used", known["history_entries"] <= SHORT, True)
        lines, checkpoints = lines + len(asked), checkpoints + len(asked)
    print(f"{count} scripts, {lines} lines and as many checkpoints behind them; the same over a history of {SHORT} entries")


def many_script() -> Script:
    """Lines over as many active recordings as may be, with their replies, and a checkpoint where nothing is settled and where all is."""
    script, most = Script(Archive({}, Register(NEWEST))), 64

    def blocks(word: str, numbers: range, position: int) -> None:
        for number in numbers:
            script.ask(f"{word} {number} {STREAM.message(position, position.to_bytes(8, 'little')).hex()}")

    for number in range(most):
        script.ask(STREAM.start(f"c{number}"))
    blocks("block", range(most), 0)
    for number in range(most - 4):
        script.ask(f"replay {number} 0 -1")
    blocks("write", range(most), 64)
    script.checkpoint()
    for number in range(most):
        script.ask(f"positions {number}")
    blocks("write", range(0, most, 2), 128)
    for number in range(most):
        script.ask(f"settle {number}")
    for number in range(most - 4):
        script.ask(f"poll {number} 1")
    script.checkpoint()
    for number in range(most - 4):
        script.ask(f"poll {number} 4096")
    for number in range(most - 4, most):
        script.ask(f"stop {number} 2000")
        script.ask(f"truncate {number} 64")
    script.checkpoint()
    for number in range(most - 4, most):
        script.ask(STREAM.extend(number, 64))
    script.checkpoint()
    blocks("block", range(most, most + 4), 64)
    script.ask("list 0 1024")
    for number in range(most):
        script.ask(f"verify {number}")
    script.checkpoint()
    return script


def try_many(tool: Path) -> None:
    """Checkpoints over as many active recordings as may be."""
    with room() as path:
        script = many_script()
        script.try_on(tool, path, "64 active recordings", "--checkpoints")
        listed = run([tool, "list", path])
        expect("an opening", [line for line in listed if line.startswith("end ")], ["end 64"])
        known = json.loads("".join(run([tool, "describe", path, "--json"])))
        expect("entries that are used", known["history_entries"], 64)
    print(f"64 active recordings: {len(script.asked)} lines, five checkpoints between them")


class Writer(threading.Thread):
    """Records message after message in two recordings, each by a `block`, until it is told to end."""

    def __init__(self, tool: Path, folder: Path) -> None:
        super().__init__()
        self.session = Session(tool, folder, "--checkpoints")
        self.settled = [0, 0]
        self.is_over = False
        self.fault: Fault | None = None
        for number in range(2):
            expect("start", self.session.ask(STREAM.start("c")), [f"started {number} {number}"])

    def run(self) -> None:
        try:
            while not self.is_over:
                for number, position in enumerate(self.settled):
                    frame = STREAM.message(position, position.to_bytes(8, "little"))
                    expect("block", self.session.ask(f"block {number} {frame.hex()}"), [f"settled {position + 64}"])
                    self.settled[number] = position + 64
        except Fault as fault:
            self.fault = fault

    def end(self) -> None:
        self.is_over = True
        self.join()
        if self.fault:
            raise self.fault
        expect("status of run", self.session.end(), 0)


def is_one_moment(positions: list[int], before: list[int], after: list[int]) -> bool:
    """Whether recordings that grow by turns end so at one moment between two others."""
    first, second = positions
    return first - second in (0, 64) and before[0] - 64 <= first <= after[0] + 64 and before[1] - 64 <= second <= after[1] + 64


def look(tool: Path, folder: Path, what: str, writer: Writer) -> str:
    """Looks at the folder of a process that records. Returns how it ended."""
    before = list(writer.settled)
    words = {
        "list": ["list", folder, "--read-only"],
        "describe": ["describe", folder, "--json"],
        "verify": ["verify", folder, "--read-only"],
        "export": ["export", folder, "0", "--pcap", f"{folder}.pcap"],
    }[what]
    done = ended(tool, *words)
    out, error = done.stdout.decode(), done.stderr.decode()
    after = list(writer.settled)
    if MOVED in error:
        return "moved"
    expect(f"{what}: its status, and standard error: {error}", done.returncode, 0)
    if what == "list":
        expect(what, out.splitlines()[-1], "end 2")
        expect("recordings that are active", [line.split()[5] for line in out.splitlines()[:2]], ["-1", "-1"])
    if what == "describe":
        positions = [each["recorded_position"] for each in json.loads(out)["recordings"]]
        expect(f"whether {positions} is one moment, from {before} to {after}", is_one_moment(positions, before, after), True)
    if what == "verify":
        frames = [int(line.removeprefix("verified ")) * 64 for line in out.splitlines()]
        expect(f"whether {frames} is one moment, from {before} to {after}", is_one_moment(frames, before, after), True)
    if what == "export":
        Path(f"{folder}.pcap").unlink()
    return "whole"


def try_looks(tool: Path, count: int) -> None:
    """Looks next to a process whose history is made short every few milliseconds."""
    found: Counter[str] = Counter()
    with room() as path:
        folder = path / "archive"
        run([tool, "create", folder, "--history", str(OF_LOOKS)])
        writer = Writer(tool, folder)
        writer.start()
        try:
            for index in range(count):
                found[look(tool, folder, ("list", "describe", "verify", "export")[index % 4], writer)] += 1
        finally:
            writer.end()
        settles = sum(writer.settled) // 64
        expect("verify", run([tool, "verify", folder]), [f"verified {position // 64}" for position in writer.settled])
    print(f"{count} looks next to {settles} settles over a history of {OF_LOOKS} entries: {dict(found)}")


def main() -> int:
    words = trial_words(__doc__)
    words.add_argument("--only", choices=("answers", "many", "looks"))
    words.add_argument("--scripts", type=int, default=1_000)
    words.add_argument("--looks", type=int, default=400)
    asked = words.parse_args()
    tool, chance = program(asked.program), Random(asked.seed)
    print(f"seed {asked.seed}", flush=True)
    trials = {
        "answers": lambda: try_answers(tool, chance, asked.scripts),
        "many": lambda: try_many(tool),
        "looks": lambda: try_looks(tool, asked.looks),
    }
    run_trials(trials, asked.only)
    return 0


if __name__ == "__main__":
    conclude(main)
