#!/usr/bin/env python3
"""Runs the gate from nothing and prints what it cost: units and minutes, the memory that it held, then the minutes and processor
seconds of each crate's proof, tests and edits, the longest chain of these that wait for one another, and the most expensive edits.

Usage: tools/gate.py [--kept] [NAME..]   runs `rt ci` from nothing at the top of the repository; its status is that of rt ci
With --kept over what earlier runs on this machine passed: so a gate can be measured in parts, each of which is done once.
Where `rt ci` keeps what it passed (rattle-kit-13f) that is `rt ci --anew [NAME..]`; where it proves from nothing each time
(rattle-kit-13b) it takes no crate's name. Broken off by Ctrl-C or SIGTERM, it ends the run, and prints what that had spent.
As many crates are proved at a time as tools/jobs.py says.

A unit is 126 processor seconds on the machine of docs/GATE.md. To scale that to this machine, frame_core as of commit 426571b is
proved by one worker beside the run's beginning; that took 95 seconds on the machine of docs/GATE.md. The budget is 126 units, and
80 minutes with four processors, 150 with two. The processors should be idle: minutes are by the clock. Processor seconds are sampled
twice a second from /proc, so up to half a second of each process is missed. A check's workers are counted with it. Lines of rt are
printed as they come, each after the minute.
"""
import os
import re
import signal
import subprocess
import sys
import tempfile
import threading
import time
from collections import defaultdict
from contextlib import contextmanager
from pathlib import Path

from jobs import free_bytes, jobs
from repository import ROOT, dependencies

TICKS, PAGE = os.sysconf("SC_CLK_TCK"), os.sysconf("SC_PAGE_SIZE")
GIGABYTE = 10**9
PERIOD = 0.5
PARTS = ("proof", "tests", "edits")
# What a unit is proved by, its processor seconds, and those that its proof by one worker took on the machine of docs/GATE.md.
UNIT, UNIT_CRATE, UNIT_SECONDS, UNIT_PROOF_SECONDS = "426571b", "frame_core", 126, 95
MOST_UNITS, MOST_MINUTES, MOST_MINUTES_OF_TWO = 126, 80, 150
DEAREST = 40
# What processes work at beside a crate's proof and tests: the check that its edits begin with, and the one that ends them. Of an
# edit that is tried in turn, over what those before it left, the number is known by its folder alone.
BEGIN, END, IN_TURN = "begin", "end", "in turn"


def keeps() -> bool:
    """Whether `rt ci` keeps what it passed, and takes nothing of it with --anew; it tries edits side by side then."""
    told = subprocess.run(["rt", "help"], stdout=subprocess.PIPE, stderr=subprocess.STDOUT, text=True)
    return "--anew" in told.stdout


def edits_of(crate: str) -> list[str]:
    """The names of a crate's edits in the gate, in the order of their numbers."""
    return sorted(it.stem for it in (ROOT / "crates" / crate / "must-fail").glob("*.edit"))


class Process:
    """A process of the prover: the crate, and what of it. An edit has its number, or none where it is tried from nothing."""

    def __init__(self, words: list[str], folder: str) -> None:
        self.crate = words[words.index("--crate-name") + 1]
        self.folder = folder
        self.part, self.number = "tests" if "--test" in words else "proof", None
        if "/rt-edit-" in folder + "/":
            self.part = "edits"
            seed = os.path.basename(words[words.index("--incremental") + 1]) if "--incremental" in words else ""
            in_turn = IN_TURN if seed.startswith("rt-edits-") else None
            self.number = int(seed) if seed.isdigit() else BEGIN if seed == "seed" else in_turn


class Memory:
    """What the checks held at most, all at a time and one alone, and what was free at least, in bytes."""

    def __init__(self) -> None:
        self.all, self.one, self.whose, self.free = 0, 0, "no check", free_bytes()

    def take(self, held: dict[tuple[str, str], int]) -> None:
        """Notes what each check holds now. A check is known by what it is of, and by its folder."""
        self.all, self.free = max(self.all, sum(held.values())), min(self.free, free_bytes())
        one, whose = max(((much, what) for (what, _), much in held.items()), default=(0, ""))
        if one > self.one:
            self.one, self.whose = one, whose

    def __str__(self) -> str:
        held, one, free = (it / GIGABYTE for it in (self.all, self.one, self.free))
        return f"Resident at most: {held:.1f} GB in all checks, {one:.1f} GB in one ({self.whose}); free at least {free:.1f} GB."


class Samples:
    """What each part of each crate has taken: processor seconds, and when it was first and last seen."""

    def __init__(self) -> None:
        self.memory = Memory()
        self.spent: dict[tuple[int, int], tuple[Process, float]] = {}
        self.begun: dict[str, str] = {}  # of each crate, the folder of the check that its edits begin with
        self.turns: dict[str, list[str]] = defaultdict(list)  # and those of edits that are tried in turn
        self.seen: dict[tuple[str, str], list[float]] = {}

    def take(self, top: int) -> None:
        """Notes the processes of the prover below one process."""
        parents, found = {}, {}
        for entry in os.listdir("/proc"):
            if not entry.isdigit():
                continue
            try:
                stat = Path(f"/proc/{entry}/stat").read_text()
                fields = stat[stat.rindex(")") + 2 :].split()
                parents[int(entry)] = int(fields[1])
                words = Path(f"/proc/{entry}/cmdline").read_text().split("\0")
                if os.path.basename(words[0]) == "rattle" and "--crate-name" in words:
                    found[int(entry)] = fields, Process(words, os.readlink(f"/proc/{entry}/cwd"))
            except (OSError, ValueError):
                continue
        workers = {number: int(fields[1]) for number, (fields, _) in found.items() if int(fields[1]) in found}
        held: dict[tuple[str, str], int] = defaultdict(int)
        for fields, process in found.values():
            held[f"{process.crate} {process.part}", process.folder] += PAGE * int(fields[21])
        self.memory.take(held)
        for number, (fields, process) in found.items():
            if number in workers:
                continue
            above = number
            while above in parents and above != top:
                above = parents[above]
            if above == top:
                alive = [found[worker][0] for worker, of in workers.items() if of == number]
                ticks = [int(tick) for tick in fields[11:15]] + [int(tick) for it in alive for tick in it[11:13]]
                self.note((number, int(fields[19])), process, sum(ticks) / TICKS)

    def note(self, name: tuple[int, int], process: Process, seconds: float) -> None:
        if process.number == BEGIN and self.begun.setdefault(process.crate, process.folder) != process.folder:
            process.number = END
        if process.number == IN_TURN:
            process.number = self.turn(process)
        self.spent[name] = process, seconds
        part = BEGIN if process.number == BEGIN else process.part
        self.seen.setdefault((process.crate, part), [time.time(), 0.0])[1] = time.time()

    def turn(self, process: Process) -> int | str:
        """The number of an edit that is tried in turn: each has a folder, and so has the check that ends them."""
        folders = self.turns[process.crate]
        if process.folder not in folders:
            folders.append(process.folder)
        number = folders.index(process.folder)
        return number if number < len(edits_of(process.crate)) else END

    def seconds(self) -> dict[tuple[str, str], float]:
        """The processor seconds of each part of each crate."""
        total: dict[tuple[str, str], float] = defaultdict(float)
        for process, spent in self.spent.values():
            total[process.crate, process.part] += spent
        return total

    def edits(self, crate: str) -> list[tuple[float, str]]:
        """The processor seconds of each edit, and of the checks that they begin and end with."""
        names, total = edits_of(crate), defaultdict(float)
        for process, spent in self.spent.values():
            if process.crate == crate and process.part == "edits":
                if isinstance(process.number, int):
                    what = names[process.number]
                else:
                    what = {BEGIN: "(their first check)", END: "(their last check)"}.get(process.number)
                total[what or (names[0] if len(names) == 1 else "(from nothing)")] += spent
        return [(spent, f"{crate}/{what}") for what, spent in total.items()]

    def minutes(self, crate: str, part: str) -> float:
        first, last = self.seen.get((crate, part), (0.0, 0.0))
        return (last - first) / 60

    def minutes_of_edits(self, crate: str) -> float:
        """From where a crate is proved, and what its edits begin with is, to its last edit; of edits in turn, which begin once
        its tests are proved too, from the first."""
        if crate in self.turns:
            return self.minutes(crate, "edits")
        known = [self.seen[crate, it][1] for it in ("proof", BEGIN) if (crate, it) in self.seen]
        last = self.seen.get((crate, "edits"), (0.0, 0.0))[1]
        return max(0.0, last - max(known, default=last)) / 60


def longest_chain(samples: Samples) -> tuple[float, list[str]]:
    """The chain of parts that wait for one another and take longest, by the clock. What a crate's edits begin with is checked
    beside its own proof; edits in turn wait for its tests."""
    below, known = dependencies(), {}

    def proof(crate: str) -> tuple[float, list[str]]:
        if crate not in known:
            before = max((proof(it) for it in below[crate]), default=(0.0, []))
            known[crate] = before[0] + samples.minutes(crate, "proof"), [*before[1], f"{crate} proof"]
        return known[crate]

    def whole(crate: str) -> tuple[float, list[str]]:
        minutes, names = proof(crate)
        start = max((proof(it)[0] for it in below[crate]), default=0.0)
        edits = samples.minutes_of_edits(crate)
        tests = samples.minutes(crate, "tests") if crate in samples.turns else 0.0
        ends = [
            (minutes, names),
            (start + samples.minutes(crate, "tests"), [*names[:-1], f"{crate} tests"]),
            (max(minutes, start + samples.minutes(crate, BEGIN), start + tests) + edits, [*names, f"{crate} edits"]),
        ]
        return max(ends, key=lambda it: it[0])

    return max(whole(crate) for crate in below)


def report(samples: Samples, elapsed: float) -> None:
    seconds = samples.seconds()
    print("| Crate | proof, min | proof, s | tests, min | tests, s | edits | edits, min | edits, s |")
    print("|---|---|---|---|---|---|---|---|")
    for crate in (it for it in dependencies() if any(seconds[it, part] for part in PARTS)):
        cells = [f"{samples.minutes(crate, it):.1f} | {seconds[crate, it]:.0f}" for it in PARTS]
        print(f"| {crate} | {cells[0]} | {cells[1]} | {len(edits_of(crate))} | {cells[2]} |")
    sums = [sum(spent for (_, part), spent in seconds.items() if part == it) for it in PARTS]
    told = ", ".join(f"{part} {spent / 60:.0f}" for part, spent in zip(PARTS, sums))
    print(f"\nProcessor minutes: {told}; together {sum(sums) / 60:.0f}. By the clock: {elapsed / 60:.1f} minutes.")
    minutes, names = longest_chain(samples)
    print(f"The longest chain: {', '.join(names)}: {minutes:.1f} minutes.")
    dear = sorted((it for crate in dependencies() for it in samples.edits(crate)), reverse=True)[:DEAREST]
    print(f"The dearest of the edits, in processor seconds: {', '.join(f'{name} {spent:.0f}' for spent, name in dear)}.")


class Run:
    """A run of rt ci, sampled until it ends."""

    def __init__(self, top: Path, names: list[str], is_anew: bool, at_a_time: int | None) -> None:
        self.samples, self.begun = Samples(), time.time()
        words = ["rt", "ci", *(["--anew"] if is_anew and keeps() else []), *names]
        room = os.environ | ({"RT_JOBS": str(at_a_time)} if at_a_time else {})
        self.ran = subprocess.Popen(words, cwd=top, env=room, stdout=subprocess.PIPE, stderr=subprocess.STDOUT, text=True)
        self.watcher = threading.Thread(target=self.watch)
        self.watcher.start()

    def watch(self) -> None:
        while self.ran.poll() is None:
            self.samples.take(self.ran.pid)
            time.sleep(PERIOD)

    def lines(self):
        """What rt says, until it has ended."""
        yield from self.ran.stdout
        self.ran.wait()
        self.watcher.join()

    def is_broken_off(self, kept: re.Pattern) -> bool:
        """Prints the lines that matter of what rt says, until it has ended. Whether the run was broken off."""
        try:
            self.say(kept)
        except KeyboardInterrupt:
            self.ran.terminate()
            self.say(kept)
            return True
        return False

    def say(self, kept: re.Pattern) -> None:
        for line in self.lines():
            if kept.search(line):
                print(f"{(time.time() - self.begun) / 60:5.1f} {line}", end="", flush=True)


@contextmanager
def unit():
    """Begins the proof of the unit by one worker beside the block, and gives a function that waits for it: its processor seconds."""
    with tempfile.TemporaryDirectory() as room:
        top = Path(room)
        for part in ("src", "specs", "proofs"):
            packed = subprocess.run(["git", "archive", UNIT, f"crates/{UNIT_CRATE}/{part}"], cwd=ROOT, stdout=subprocess.PIPE)
            subprocess.run(["tar", "-x"], cwd=top, input=packed.stdout, check=True)
        lines = subprocess.run(["git", "show", f"{UNIT}:crates.txt"], cwd=ROOT, capture_output=True, text=True, check=True).stdout
        own = [line for line in lines.splitlines() if line.startswith(f"{UNIT_CRATE}:")]
        (top / "crates.txt").write_text(own[0] + "\n")
        subprocess.run(["git", "init", "-q", top], check=True)
        run = Run(top, [], True, 1)

        def seconds() -> float:
            said = "".join(run.lines())
            if run.ran.returncode:
                sys.exit(f"the unit was not proved, status {run.ran.returncode}:\n{said}")
            return run.samples.seconds()[UNIT_CRATE, "proof"]

        yield seconds


def main() -> int:
    is_kept, names = "--kept" in sys.argv[1:], [it for it in sys.argv[1:] if it != "--kept"]
    if sys.argv[1:] and not keeps():
        sys.exit("rt ci of this toolchain takes no crate's name and keeps nothing: it proves all")
    kept = re.compile(r"^rt: |passed|FAILED|NOT ")
    signal.signal(signal.SIGTERM, signal.default_int_handler)
    with unit() as unit_seconds:
        run = Run(ROOT, names, not is_kept, jobs())
        is_cut = run.is_broken_off(kept)
        elapsed, proved_in = time.time() - run.begun, unit_seconds()
    of_unit = UNIT_SECONDS * proved_in / UNIT_PROOF_SECONDS
    units = sum(run.samples.seconds().values()) / of_unit
    budget = f"{MOST_UNITS} units, {MOST_MINUTES} minutes with four processors, {MOST_MINUTES_OF_TWO} with two"
    print(f"{units:.1f} units of {of_unit:.0f} processor seconds ({UNIT_CRATE} took {proved_in:.0f}), {elapsed / 60:.1f} minutes", end="")
    print(f"{'; broken off' if is_cut else ''}. The budget is {budget}.")
    print(run.samples.memory)
    report(run.samples, elapsed)
    return run.ran.returncode


if __name__ == "__main__":
    sys.exit(main())
