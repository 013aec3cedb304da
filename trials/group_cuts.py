#!/usr/bin/env python3
"""Opens folders as a loss of power may leave them below a server that settles many sessions by one commit.

Usage: trials/group_cuts.py [--images N] [--runs N] [--seed S] [program]

Each run serves a folder under `strace`, by which eight publications are recorded. All send at once, again and again, and a client
asks `positions`. From the trace comes, for each moment between two system calls of any thread, what a loss of power may leave there,
as `power_cuts.py` has it: a sync that runs makes durable what was written before it began. So many images are opened. The recordings
of each have to be those of a prefix of the history's commits, with all sessions of a settling or none. They end at or after each
position that a client was answered before that moment, and have exactly the frames that were sent.
Prints how many images of how many moments were opened, how many settlings the history has by their number of sessions, and how many
images warned of an entry past a closed gate. Status 1 at the first that is wrong, and where no settling has two sessions.
"""
import random
import re
import shutil
import subprocess
import time
from bisect import bisect_right
from collections import Counter
from collections.abc import Callable
from dataclasses import dataclass, field
from pathlib import Path

from lib.tool import HIDES, Fault, conclude, expect, program, room, run, trial_words
from power_cuts import MOST, Moment, Node, Trace, unescaped, words
from readers.catalogue import BANKS, SETTLE, Register, read_banks
from serving import Sender, Server, started

STREAMS = 8
ROUNDS = 40
TRACED = "openat,pwrite64,ftruncate,fdatasync,fsync,unlink,close,write,sendto"
CALL = re.compile(r"^(\d+) +(\w+)\((.*?)(?:\) += (-?\d+).*| <unfinished \.\.\.>)$")
RESUMED = re.compile(r"^(\d+) +<\.\.\. (\w+) resumed>.*\) += (-?\d+)")
ANSWERED = re.compile(rb"positions (\d+) \d+ (\d+) ")


class TracedServer(Server):
    """A server whose system calls are written to a log."""

    def __init__(self, tool: Path, folder: Path, log: Path) -> None:
        script = log.with_suffix(".sh")
        script.write_text(f'#!/bin/sh\nexec strace -f -qq -xx -s 200000 -e trace={TRACED} -o {log} {tool} "$@"\n')
        script.chmod(0o755)
        super().__init__(script, folder, "--clients", "2")


@dataclass
class Begun:
    """A call that has begun: what it was given, and for a sync what was written or named by then."""

    call: str
    given: list[str]
    node: Node | None = None
    reads: bytes = b""
    changes: int = 0
    names: dict[str, Node] = field(default_factory=dict)


class ServedTrace(Trace):
    """The moments of a traced server. At each it calls a function with its number."""

    def __init__(self, folder: Path, at: Callable[["ServedTrace", int], None]) -> None:
        super().__init__(folder)
        self.at, self.moment = at, 0
        self.begun: dict[str, Begun] = {}
        self.shown: dict[int, int] = {}  # by recording: the position that was answered last
        self.gates: list[int] = []  # offsets in the first bank where a gate was opened

    def keep(self) -> None:
        self.at(self, self.moment)
        self.moment += 1

    def take(self, line: str) -> None:
        if resumed := RESUMED.match(line):
            begun = self.begun.pop(resumed[1], None)
            if begun and int(resumed[3]) >= 0:
                self.ended(begun, int(resumed[3]))
        elif found := CALL.match(line):
            begun = self.begin(found[2], words(found[3]))
            if found[4] is None:
                self.begun[found[1]] = begun
            elif int(found[4]) >= 0:
                self.ended(begun, int(found[4]))

    def begin(self, call: str, given: list[str]) -> Begun:
        """A call begins: what it writes may be there from now on."""
        begun = Begun(call, given)
        number = int(given[0]) if given and given[0].isdigit() else -1
        if call in ("write", "sendto") and number not in self.open:
            for recording, position in ANSWERED.findall(unescaped(given[1].strip('".'))):
                self.shown[int(recording)] = max(int(position), self.shown.get(int(recording), 0))
        elif number in self.open:
            name, node = self.open[number]
            if call == "pwrite64":
                text, offset = unescaped(given[1].strip('"')), int(given[3])
                if name == BANKS[0] and text == b"\x01":
                    self.gates.append(offset)
                self.changed(call, given, len(text))
            elif call == "ftruncate":
                self.changed(call, given, 0)
            elif call in ("fdatasync", "fsync"):
                begun.node, begun.names = node, dict(self.names)
                if node:
                    begun.reads, begun.changes = bytes(node.reads), len(node.changes)
        return begun

    def ended(self, begun: Begun, result: int) -> None:
        """A call has ended well."""
        number = int(begun.given[0]) if begun.given and begun.given[0].isdigit() else -1
        if begun.call == "openat":
            self.opened(unescaped(begun.given[1].strip('"')).decode(), begun.given[2], result)
        elif begun.call == "unlink":
            super().take(f'unlink({begun.given[0]}) = 0')
        elif begun.call == "close":
            self.open.pop(number, None)
        elif begun.call in ("fdatasync", "fsync") and number in self.open:
            if begun.node is None:
                self.durable = begun.names
            else:
                begun.node.synced = begun.reads
                begun.node.changes = begun.node.changes[begun.changes :]
            self.syncs += 1
            self.keep()


def recorded(tool: Path, archive: Path, log: Path, chance: random.Random) -> list[Sender]:
    """Records publications that send at once, by a traced server. Their senders, which have all frames."""
    server = TracedServer(tool, archive, log)
    senders, client = started(server, chance, STREAMS), server.client()
    for _ in range(ROUNDS):
        for sender in chance.sample(senders, chance.randint(2, STREAMS)):
            for _ in range(chance.randint(1, 3)):
                sender.message(chance.choice((40, 200, 1_408)))
        for sender in senders:
            sender.repeat()
        list(client.ask(f"positions {chance.randrange(STREAMS)}"))
        time.sleep(chance.uniform(0.0, 0.02))
    for number, sender in enumerate(senders):
        sender.until(client, number, 0)
    client.close()
    server.quit()
    return senders


@dataclass
class Commits:
    """What the prefixes of a history make: the position of each recording, by the number of commits."""

    positions: list[dict[int, int]]
    sizes: Counter[int]


def commits_of(archive: Path, gates: list[int]) -> Commits:
    """The commits of an archive's history, which begin where gates were opened."""
    known = read_banks(lambda name: (archive / name).read_bytes() if (archive / name).exists() else None)
    register = Register(known.version)
    opened, found = sorted(set(gates)), Commits([{}], Counter())
    groups: dict[int, list] = {}
    for offset, entry in known.entries:
        groups.setdefault(opened[bisect_right(opened, offset) - 1], []).append(entry)
    for entries in groups.values():
        for entry in entries:
            register.take(entry)
        found.sizes[len(entries)] += all(entry.kind == SETTLE for entry in entries)
        found.positions.append({each.number: each.recorded for each in register.listed()})
    return found


class Images:
    """Opens images of chosen moments, and compares them."""

    def __init__(self, tool: Path, folder: Path, chance: random.Random, senders: list[Sender], commits: Commits, moments: Counter[int]) -> None:
        self.tool, self.folder, self.chance = tool, folder, chance
        self.senders, self.commits, self.moments = senders, commits, moments
        self.opened = self.warned = 0

    def at(self, trace: ServedTrace, moment: int) -> None:
        for _ in range(self.moments[moment]):
            self.open(Moment(trace.names, trace.durable, 0).image(self.chance), trace.shown, moment)

    def open(self, files: dict[str, bytes], answered: dict[int, int], moment: int) -> None:
        """One image is as it has to be."""
        self.folder.mkdir()
        for name, text in files.items():
            (self.folder / name).write_bytes(text)
        lines = ["list 0 1024", *(f"replay {number} -1 -1" for number in range(STREAMS)), *(f"poll {number} {MOST}" for number in range(STREAMS))]
        given = "".join(f"{line}\n" for line in lines)
        done = subprocess.run([self.tool, "run", self.folder], input=given, capture_output=True, text=True)
        expect(f"moment {moment}: status", done.returncode, 0)
        self.warned += bool(HIDES.search(done.stderr))
        told = done.stdout.splitlines()
        positions = {int(line.split()[1]): int(line.split()[5]) for line in told if line.startswith("recording ")}
        if positions not in self.commits.positions:
            raise Fault(f"moment {moment}: {positions} are the positions of no number of commits")
        late = {number: position for number, position in answered.items() if positions.get(number, -1) < position}
        expect(f"moment {moment}: positions that were answered and are gone", late, {})
        right = [f"frame {at} {sender.publication.frames[at][0].hex()}" for number, sender in enumerate(self.senders)
                 for at in sorted(sender.publication.frames) if at < positions.get(number, 0)]
        expect(f"moment {moment}: frames", [line for line in told if line.startswith("frame ")], right)
        shutil.rmtree(self.folder)
        self.opened += 1


def traced(folder: Path, log: Path, at: Callable[[ServedTrace, int], None], new: dict[str, bytes]) -> ServedTrace:
    """Goes through a log's moments, from those files on."""
    trace = ServedTrace(folder, at)
    for name, text in new.items():
        trace.names[name] = trace.durable[name] = Node(bytearray(text), text)
    with open(log) as calls:
        for call in calls:
            trace.take(call.rstrip("\n"))
    return trace


def tried(tool: Path, chance: random.Random, images: int) -> tuple[int, int, int, Counter[int]]:
    """One run: its moments, the images that were opened and that warned, and how many settlings had so many sessions."""
    with room("/dev/shm") as work:
        archive, log = work / "archive", work / "log"
        run([tool, "create", archive])
        new = {path.name: path.read_bytes() for path in archive.iterdir()}
        senders = recorded(tool, archive, log, chance)
        first = traced(archive, log, lambda trace, moment: None, new)
        commits = commits_of(archive, first.gates)
        chosen = Counter(chance.randrange(first.moment) for _ in range(images))
        opened = Images(tool, work / "image", chance, senders, commits, chosen)
        traced(archive, log, opened.at, new)
        return first.moment, opened.opened, opened.warned, commits.sizes


def main() -> int:
    given = trial_words(__doc__)
    given.add_argument("--images", type=int, default=10_000)
    given.add_argument("--runs", type=int, default=10)
    asked = given.parse_args()
    tool, chance = program(asked.program), random.Random(asked.seed)
    print(f"seed {asked.seed}", flush=True)
    moments = images = warned = 0
    sizes: Counter[int] = Counter()
    for _ in range(asked.runs):
        found = tried(tool, chance, -(-asked.images // asked.runs))
        moments, images, warned = moments + found[0], images + found[1], warned + found[2]
        sizes += found[3]
    print(f"{images} images of {moments} moments of {asked.runs} servers, {warned} warned of an entry past a closed gate; settlings: "
          + ", ".join(f"{count} of {size}" for size, count in sorted(sizes.items())))
    expect("whether many sessions were settled at once", any(size > 1 for size in sizes), True)
    return 0


if __name__ == "__main__":
    conclude(main)
