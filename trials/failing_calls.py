#!/usr/bin/env python3
"""Lets each call that `archive_tool run <folder>` makes on its files fail once, with ENOSPC and with EIO.

A script is answered while one call fails, by a library before the C library (`failing_calls.c`). The line that meets the
fault has to be answered by `error 17 DeviceFault`; a fault at the opening leaves no archive open, or ends the program. What
was answered before is there in the next process, exactly, and of the line that met the fault either nothing or all of it.
Within the same process `reopen` opens the archive again, unless it was a sync that failed, and then tells the same.

The scripts are a random one, and one that takes a recording through each change (`each_change.py`), over an empty catalogue of
version 1 and over one of version 2. Without the fault the second one is answered as it says. After the fault all its lines are Broken,
but for a fault of a sweep: then they are answered as without that sweep, until a further call fails.

Before it opens the archive, the program looks past the catalogue's closed gate (docs/STORAGE.md, "A closed gate"). A call of this look
may fail without a word; then each line has to be answered as without the fault. The look comes before the first listing of the folder.

Usage: trials/failing_calls.py [--seed S] [--only SCRIPT] [program]. SCRIPT is `random` or `changes`. Ends with status 1 where
anything is wrong.
"""
import errno
import os
import random
import subprocess
from pathlib import Path

from lib import each_change
from power_cuts import library, script_of, shown
from lib.tool import HISTORY_LIMIT, Fault, conclude, create, expect, program, room, run, run_trials, trial_words

DEVICE_FAULT, BROKEN = "error 17 DeviceFault", "error 16 Broken"


class Trial:
    def __init__(self, tool: Path, work: Path, lines: list[str], history: int = HISTORY_LIMIT, version: int = 2) -> None:
        self.tool, self.work, self.folder = tool, work, work / "archive"
        self.lines, self.history, self.version = lines, history, version
        self.count = sum(line.startswith("start ") for line in self.lines)
        self.library = library(work)
        self.right = run([tool, "run"], self.lines)
        self.states = [shown(tool, None, self.lines[:number], self.count) for number in range(len(self.lines) + 1)]
        self.reopened = self.looked = self.first_listing = 0

    def begin(self) -> None:
        create(self.tool, self.folder, self.history, self.version)

    def answers(self, lines: list[str], **failing: str) -> list[str]:
        given = os.environ | {"LD_PRELOAD": str(self.library), "TRIAL_FOLDER": str(self.folder)} | failing
        text = "".join(line + "\n" for line in lines)
        ended = subprocess.run([self.tool, "run", self.folder], input=text, capture_output=True, text=True, env=given)
        if ended.returncode == 3 and ended.stderr.startswith(DEVICE_FAULT) and not ended.stdout:
            return [DEVICE_FAULT]
        if ended.returncode != 0:
            raise Fault(f"ended with status {ended.returncode}: {ended.stderr}")
        return ended.stdout.splitlines()

    def calls(self) -> int:
        """How many calls the script makes."""
        self.begin()
        counted = self.work / "count"
        if self.answers(self.lines, TRIAL_COUNT=str(counted)) != self.right:
            raise Fault("the script is answered otherwise in a folder than in memory")
        count, self.first_listing = map(int, counted.read_text().split())
        return count

    def fail(self, number: int, error: int) -> None:
        """One call fails."""
        where = f"call {number}, {errno.errorcode[error]}"
        failing = {"TRIAL_FAIL": str(number), "TRIAL_ERROR": str(error)}
        self.begin()
        told = self.answers(self.lines, **failing)
        if told == self.right:
            if number >= self.first_listing:
                raise Fault(f"{where}: nothing was told of it")
            self.looked += 1
            self.expect(where, len(self.lines), shown(self.tool, self.folder, [], self.count))
            return
        met = next(index for index, (one, other) in enumerate(zip(told, self.right)) if one != other)
        if told[met] != DEVICE_FAULT and not (met == 0 and told[met] == BROKEN):
            raise Fault(f"{where}: line {met} was answered {told[met]}")
        self.goes_on(where, met, told)
        self.begin()
        self.answers(self.lines[: met + 1], **failing)
        self.expect(where, met, shown(self.tool, self.folder, [], self.count))
        self.begin()
        asked = self.lines[: met + 1] + ["reopen"]
        told = self.answers(asked, **failing)
        if told[-1].startswith("reopened "):
            self.reopened += 1
        elif told[-1] != DEVICE_FAULT:
            raise Fault(f"{where}: reopen was answered {told[-1]}")
        self.expect(f"{where}, reopened", met, shown(self.tool, self.folder, [], self.count))

    def goes_on(self, where: str, met: int, told: list[str]) -> None:
        """Asks how the lines after the one that met the fault were answered. Nothing is asked of a random script."""

    def expect(self, where: str, met: int, told: list[str]) -> None:
        if told not in self.states[met : met + 2]:
            raise Fault(f"{where}: {met} lines were answered, and this is there: {told[:3]}")


class Changes(Trial):
    """The script of each change, over a catalogue of a version."""

    def __init__(self, tool: Path, work: Path, version: int) -> None:
        super().__init__(tool, work, each_change.LINES, each_change.HISTORY, version)
        expect("the answers to each change", self.right, each_change.REPLIES)
        self.without = [run([tool, "run"], self.lines[:met] + self.lines[met + 1 :])[met:] for met in range(len(self.lines))]

    def goes_on(self, where: str, met: int, told: list[str]) -> None:
        """After a sweep the archive goes on as without it, unless a further call fails. After any other line it is Broken."""
        rest, lines = told[met + 1 :], self.lines[met + 1 :]
        if len(told) == 1:
            return  # the program ended at its opening
        right = self.without[met] if self.lines[met] == "sweep" else [BROKEN] * len(lines)
        for at, line in enumerate(lines):
            if rest[at] == DEVICE_FAULT != right[at] and self.lines[met] == "sweep" and BROKEN not in right:
                right = right[:at] + [DEVICE_FAULT] + (right[at + 1 :] if line == "sweep" else [BROKEN] * (len(lines) - at - 1))
        expect(f"{where}: the lines after {self.lines[met][:20]}", rest, right)


def try_each(trial: Trial, what: str) -> None:
    """Lets each call of a script fail."""
    calls = trial.calls()
    for number in range(1, calls + 1):
        for error in (errno.ENOSPC, errno.EIO):
            trial.fail(number, error)
    counts = f"each of {calls} calls failed twice, {trial.looked} in the look"
    print(f"{what}: {counts}: nothing was lost; `reopen` succeeded {trial.reopened} times", flush=True)


def main() -> int:
    words = trial_words(__doc__)
    words.add_argument("--only", help="one script alone, by its name")
    asked = words.parse_args()
    tool = program(asked.program)
    print(f"seed {asked.seed}", flush=True)
    with room("/dev/shm") as work:
        scripts = {
            "random": lambda: try_each(Trial(tool, work, script_of(random.Random(asked.seed))), "a random script"),
            "changes": lambda: [try_each(Changes(tool, work, version), f"each change, version {version}") for version in (1, 2)],
        }
        run_trials(scripts, asked.only)
    return 0


if __name__ == "__main__":
    conclude(main)
