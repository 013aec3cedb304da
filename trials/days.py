#!/usr/bin/env python3
"""A server that records a stream without being asked, through many trading days in a minute: `serve --aeron --record --metrics`.

Usage: trials/days.py [--seed S] [--days N] [--senders N] [program]

Senders with flow control publish one stream, each under a session id of its own. At random moments a sender ends, and another one
with a new session id takes its place; at random moments the server is killed, and starts again. Nobody sends a `start`.
- Each recording has what its session's sender sent, from where it joined to where it was stopped, frame by frame, by replay.
- A position that `list`, `positions` or the metrics file showed before a kill is in some recording of that session afterwards.
- The metrics file is read four times a second: each time it is whole, and no counter falls within a life of the server.
- What no recording has lies between the end of one recording of a session and the join of the next: the trial prints how much.
- The server goes on with a recording where it was stopped, up to half a term and an eighth before the sender, and begins one if not.
- The server stays below its bound of memory.

Then a few days more, in which no sender ends, and each one that finds its recording stopped goes back to where that ends. Each of them
has one recording, which was extended, and every byte that was sent is in it.

Then a server that can record nothing, with `--strict` and without: over a damaged catalogue, with a full history, over a file that
takes no more, over a full disk, and over a catalogue with an entry past its closed gate. With `--strict` it ends by itself, and a
`quit` ends it, with status 3 and its line; without it goes on, and `quit` ends it with status 0. Mounting a disk takes the right to;
else that one is skipped, and said to be.

Then a server whose metrics file would lie in a folder that is not there: it says so once, goes on, and ends well.
"""
import random
import resource
import select
import socket
import subprocess
import time
from collections.abc import Callable
from dataclasses import dataclass
from pathlib import Path

from flow_control import FaultySender, receiver
from lib.metrics import Reader
from lib.mounts import Skipped, mounted
from serving import MOST_MEMORY, PATIENCE, STREAM, Client, Faults, Server, compare
from lib.tool import STREAM_ID, Fault, bank, conclude, expect, file_system, free_port, program, room, run, trial_words


@dataclass
class Recording:
    """A line of `list`."""

    number: int
    begin: int
    stop: int
    session_id: int

    @classmethod
    def of(cls, line: str) -> "Recording":
        words = line.split()
        return cls(int(words[1]), int(words[4]), int(words[5]), int(words[10]))


def listed(client: Client) -> list[Recording]:
    """The recordings that a server lists."""
    return [Recording.of(line) for line in list(client.ask("list 0 1024"))[:-1]]


class Days:
    """Senders that come and go, and what was shown of their recordings."""

    def __init__(self, tool: Path, chance: random.Random, archive: Path, count: int, rewinds: bool) -> None:
        self.tool, self.chance, self.archive, self.rewinds = tool, chance, archive, rewinds
        self.port = free_port(socket.SOCK_DGRAM)
        self.session_ids = chance.sample(range(-(2**31), 2**31), 1_000)
        self.ended: list[FaultySender] = []
        self.senders = [self.sender() for _ in range(count)]
        self.shown: dict[int, int] = {}  # by session id the greatest position that was shown
        self.looks = 0  # at the metrics file

    def sender(self) -> FaultySender:
        """A sender with a session id that no other one had."""
        session_id = self.session_ids.pop()
        return FaultySender(("127.0.0.1", self.port), session_id, Faults(self.chance, 0.0))

    def replace_one(self) -> None:
        """A sender ends, and another one comes."""
        index = self.chance.randrange(len(self.senders))
        self.ended.append(self.senders[index])
        self.senders[index] = self.sender()

    def rewind(self, client: Client) -> None:
        """Each sender whose recording was stopped goes back to where that ends, and forgets the server that was there."""
        stops = {found.session_id: found.stop for found in listed(client)}
        for sender in self.senders:
            while select.select([sender.socket], [], [], 0.0)[0]:
                sender.socket.recv(65_536)
            sender.go_to(stops.get(sender.publication.session_id, 0))

    def go_on(self, seconds: float) -> None:
        """The senders send for so many seconds, each in its turn."""
        until = time.monotonic() + seconds
        while time.monotonic() < until:
            for sender in self.senders:
                sender.go_on(0.01)

    def look(self, client: Client) -> None:
        """Notes how far each active recording is recorded, as it is shown."""
        for found in listed(client):
            told = next(iter(client.ask(f"positions {found.number}"))).split()
            self.note(found.session_id, int(told[2]))

    def note(self, session_id: int, position: int) -> None:
        """A position was shown."""
        self.shown[session_id] = max(self.shown.get(session_id, 0), position)

    def day(self, is_last: bool) -> int:
        """A life of the server, which ends by a kill, or by `quit` once all is recorded; the memory that it took."""
        path = self.archive.parent / "recorder.prom"
        options = ["--record", str(STREAM_ID), "--metrics", str(path)]
        with Reader(path) as reader, receiver(self.tool, self.archive, self.port, *options) as (server, client):
            memory = self.live(server, client, is_last)
        self.looks += reader.looks
        for session_id, position in reader.recorded.items():
            self.note(session_id, position)
        return memory

    def live(self, server: Server, client: Client, is_last: bool) -> int:
        """What happens in a life of the server; the memory that it took."""
        if self.rewinds:
            self.rewind(client)
        for _ in range(self.chance.randrange(1, 4)):
            self.go_on(self.chance.uniform(0.2, 1))
            self.look(client)
            if not self.rewinds and self.chance.random() < 0.5:
                self.replace_one()
        self.go_on(self.chance.uniform(0, 0.3))
        if is_last:
            self.await_all(client)
        memory = server.memory()
        if is_last:
            client.close()
            server.quit()
        return memory

    def await_all(self, client: Client) -> None:
        """Waits until all that the living senders sent is recorded."""
        for sender in self.senders:
            until = time.monotonic() + PATIENCE
            while sender.consumed < sender.publication.position:
                if time.monotonic() > until:
                    raise Fault(f"sent up to {sender.publication.position}, consumed {sender.consumed}")
                for other in self.senders:
                    if other.position < other.publication.position:
                        other.send_next()
                    other.tend(0.001)
        time.sleep(1.2)  # the longest wait for a settle
        self.look(client)


def compare_all(days: Days) -> tuple[int, int, int]:
    """Compares each recording with what was sent: how many frames are recorded, how many bytes were sent, and how many are in none."""
    lines = run([days.tool, "list", days.archive])[:-1]
    sent = {it.publication.session_id: it.publication for it in [*days.ended, *days.senders]}
    frames, ends = 0, {session_id: 0 for session_id in sent}
    recorded = dict.fromkeys(sent, 0)
    for found in map(Recording.of, lines):
        frames += compare(days.tool, days.archive, found.number, sent[found.session_id], found.begin)
        if found.begin < ends[found.session_id]:
            raise Fault(f"recording {found.number} begins at {found.begin}, before {ends[found.session_id]}")
        ends[found.session_id] = found.stop
        recorded[found.session_id] += found.stop - found.begin
    for session_id, position in days.shown.items():
        if ends[session_id] < position:
            raise Fault(f"session id {session_id}: {position} was shown, and it ends at {ends[session_id]}")
    total = sum(it.position for it in [*days.ended, *days.senders])
    return frames, total, total - sum(recorded.values())


def try_days(tool: Path, chance: random.Random, senders: int, count: int, rewinds: bool) -> None:
    """So many days, whose senders come and go, or stay and go back to where their recordings end."""
    with room() as folder:
        archive = folder / "archive"
        run([tool, "create", archive, "--history", "16777216"])
        days = Days(tool, chance, archive, senders, rewinds)
        memory = max(days.day(number == count - 1) for number in range(count))
        frames, total, missing = compare_all(days)
        expect("whether it stays below its memory", memory < MOST_MEMORY, True)
        publications = len(days.ended) + len(days.senders)
        if rewinds:
            expect("bytes that are in no recording", missing, 0)
            expect("recordings", len(run([tool, "list", archive])) - 1, publications)
        print(f"{count} days, {publications} publications over {file_system(archive)}: {frames} frames recorded of {total} bytes sent; "
              f"{missing} bytes lie between the end of a recording and the next join; {days.looks} looks at the metrics; {memory} MB")


# ---- servers that can record nothing


@dataclass
class Stuck:
    """A server that can record nothing, how it comes to that, and what it says."""

    what: str
    make: Callable[[Path, Path], None]
    lines: list[str]
    said: str
    file_size: int | None = None


def create(*words: str) -> Callable[[Path, Path], None]:
    return lambda tool, archive: run([tool, "create", archive, *words]) and None


def damage(tool: Path, archive: Path) -> None:
    """Makes a catalogue that ends inside its header."""
    archive.mkdir()
    (archive / "catalogue-a.bank").write_bytes(bank(3, [])[:32])


def fill(tool: Path, archive: Path) -> None:
    """Makes an archive, and takes all that is left of its file system: its catalogue has room for a few entries in its page."""
    ballast = archive.parent / "ballast"
    ballast.unlink(missing_ok=True)
    run([tool, "create", archive])
    with open(ballast, "wb", buffering=0) as file:
        size = 65_536
        while size > 0:
            try:
                file.write(bytes(size))
            except OSError:
                size //= 2


def hide(tool: Path, archive: Path) -> None:
    """Makes an archive with a recording, and closes the gate of its Start: the Settle that follows it has an open one."""
    create()(tool, archive)
    given = f"{START}\nblock 0 {STREAM.message(0, b'hello').hex()}\n".encode()
    subprocess.run([tool, "run", archive], input=given, capture_output=True, check=True)
    with open(archive / "catalogue-a.bank", "r+b") as file:
        file.seek(32)
        file.write(b"\0")


START = STREAM.start("c")
LONG = f"block 0 {STREAM.message(0, bytes(1_000)).hex()}"
STUCK = [
    Stuck("a damaged catalogue", damage, [], "nothing can be recorded: the archive is not open: error 15 Damaged -1 32"),
    Stuck("a full history", create("--history", "2"), [START, "stop 0 1"], "nothing can be recorded: the history is full"),
    Stuck(
        "a file that takes no more", create(), [START, LONG],
        "nothing can be recorded: a write has failed, and the archive is Broken", 512,
    ),
]
HIDDEN = Stuck("a closed gate that hides an entry", hide, [], "the archive is not opened, since entries may be hidden")
FULL = Stuck("a full disk", fill, [START, LONG], "nothing can be recorded: a write has failed, and the archive is Broken")


def end_of(tool: Path, archive: Path, stuck: Stuck, *options: str) -> tuple[int, list[str]]:
    """Serves until the server ends by itself, or by a `quit` if it is not strict: its status, and what it printed."""
    control, receive = free_port(socket.SOCK_STREAM), free_port(socket.SOCK_DGRAM)
    ports = ["--control", str(control), "--receive", str(receive)]

    def limit() -> None:
        if stuck.file_size is not None:
            resource.setrlimit(resource.RLIMIT_FSIZE, (stuck.file_size, stuck.file_size))

    words = [tool, "serve", archive, *ports, *options]
    server = subprocess.Popen(words, stderr=subprocess.PIPE, text=True, preexec_fn=limit, restore_signals=False)
    lines = stuck.lines if "--strict" in options else [*stuck.lines, "quit"]
    if lines:
        ask_all(control, lines)
    try:
        _, errors = server.communicate(timeout=PATIENCE)
    except subprocess.TimeoutExpired:
        server.kill()
        raise Fault(f"{stuck.what}, {options}: the server does not end; {server.communicate()[1]}") from None
    return server.returncode, errors.splitlines()


def ask_all(port: int, lines: list[str]) -> None:
    """Sends lines to a server, once it listens, and reads until it has answered them or closes the connection."""
    until = time.monotonic() + PATIENCE
    while True:
        try:
            with socket.create_connection(("127.0.0.1", port), PATIENCE) as client:
                client.sendall("".join(f"{line}\n" for line in lines).encode())
                client.shutdown(socket.SHUT_WR)
                while client.recv(65_536):
                    pass
                return
        except ConnectionRefusedError:
            if time.monotonic() > until:
                raise
            time.sleep(0.02)
        except ConnectionResetError:
            return


def try_stuck(tool: Path, above: Path, stuck: Stuck) -> None:
    """A server that can record nothing ends with status 3 if it is strict, and goes on if it is not."""
    for number, (options, status) in enumerate([(["--strict"], 3), ([], 0)]):
        archive = above / f"stuck-{number}"
        stuck.make(tool, archive)
        told, errors = end_of(tool, archive, stuck, *options)
        expect(f"{stuck.what}, {options}: the status", told, status)
        expect(f"{stuck.what}, {options}: whether it says so", stuck.said in errors, status == 3)
        faults = [line for line in errors if line.startswith("0-0.rec: write: ")]
        expect(f"{stuck.what}, {options}: its faults", len(faults), 1 if "write" in stuck.said else 0)


def try_all_stuck(tool: Path) -> None:
    """Each of them, and a disk that is full."""
    for stuck in [*STUCK, HIDDEN]:
        with room() as above:
            try_stuck(tool, above, stuck)
    try:
        with room() as above, mounted(above / "disk", "-t", "tmpfs", "-o", "size=1m", "tmpfs") as disk:
            try_stuck(tool, disk, FULL)
    except Skipped as why:
        print(f"a full disk: skipped, {why}")
    print("a server that can record nothing, or finds an entry past a closed gate, ends with status 3 if it is strict, and else goes on")


# ---- a metrics file that can't be written


UNWRITTEN = "the metrics file cannot be written: No such file or directory"


def try_unwritten_metrics(tool: Path) -> None:
    """A metrics file in a folder that is not there: the server says so once, goes on, and ends well."""
    control, receive = free_port(socket.SOCK_STREAM), free_port(socket.SOCK_DGRAM)
    with room() as above:
        archive = above / "archive"
        run([tool, "create", archive])
        ports = ["--control", str(control), "--receive", str(receive)]
        words = [tool, "serve", archive, *ports, "--metrics", above / "missing" / "metrics"]
        server = subprocess.Popen(words, stderr=subprocess.PIPE, text=True)
        ask_all(control, ["list 0 1"])
        time.sleep(3)  # it writes each second
        ask_all(control, ["quit"])
        _, errors = server.communicate(timeout=PATIENCE)
        expect("metrics in no folder: the status", server.returncode, 0)
        expect("metrics in no folder: what is said of it", errors.splitlines().count(UNWRITTEN), 1)
    print("a metrics file that can't be written is reported once, and the server goes on")


def main() -> int:
    words = trial_words(__doc__)
    words.add_argument("--days", type=int, default=12, help="lives of the server")
    words.add_argument("--senders", type=int, default=4)
    args = words.parse_args()
    tool, chance = program(args.program), random.Random(args.seed)
    print(f"seed {args.seed}", flush=True)
    try_days(tool, chance, args.senders, args.days, rewinds=False)
    try_days(tool, chance, args.senders, max(1, args.days // 2), rewinds=True)
    try_all_stuck(tool)
    try_unwritten_metrics(tool)
    return 0


if __name__ == "__main__":
    conclude(main)
