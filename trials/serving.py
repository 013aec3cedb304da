#!/usr/bin/env python3
"""The served archive over sockets: conversations, losses, kills, hostile senders and clients, floods.

Usage: trials/serving.py [--seed S] [--only TRIAL] [--frames N] [--kills N] [--history N] [--datagrams N] [--connections N] [program]

Each trial starts `serve` over a folder of its own, sends it streams by UDP and control lines by TCP, and looks afterwards at
what the folder holds, by `list`, `verify` and replays of the same program. A sender that loses, doubles and swaps one datagram
in a hundred has every byte recorded. What `positions` and settlings answered is there behind each kill. Random and mutated
datagrams and connections that break every rule leave the server answering the next client, below a stated memory.
"""
import argparse
import random
import select
import shutil
import signal
import socket
import struct
import subprocess
import sys
import tempfile
import time
from collections.abc import Iterator
from contextlib import AbstractContextManager, contextmanager
from dataclasses import replace
from pathlib import Path
from typing import TypeVar

from readers.catalogue import SETTLE, read_banks
from lib.captures import dissected, told_of_frame, write_capture
from lib.tool import (
    INITIAL_TERM, ROOT, SESSION_ID, STREAM_ID, Fault, Stream, conclude, expect, file_system, free_port, program, replayed, room, run,
    run_trials, stop_positions, trial_words,
)

sys.path.insert(0, str(ROOT / "examples"))
from client import Client  # noqa: E402
from sender import HEADER_LENGTH, MESSAGE, PAD, STATUS, Publication, kind_of  # noqa: E402

STREAM = Stream(term_length=1_048_576, segment_length=1_048_576)
IN_FLIGHT = 262_144  # bytes that a sender lets stand past the recorded position
MOST_MEMORY = 400  # megabytes, while nobody polls: docs/SERVING.md, "Memory"
PATIENCE = 60  # seconds that a trial waits for what has to come


AnyServer = TypeVar("AnyServer", bound="Server")


def socket_words(port: int) -> list[str]:
    """What the system says of the datagram socket of a port; nothing if there is none."""
    lines = map(str.split, Path("/proc/net/udp").read_text().splitlines()[1:])
    return next((words for words in lines if int(words[1].split(":")[1], 16) == port), [])


class Server:
    """A `serve` over a folder."""

    def __init__(self, tool: Path, folder: Path, *options: str, receive: int = 0, control: int = 0) -> None:
        self.control = control or free_port(socket.SOCK_STREAM)
        self.receive = receive or free_port(socket.SOCK_DGRAM)
        self.told = tempfile.TemporaryFile("w+")
        ports = ["--control", str(self.control), "--receive", str(self.receive)]
        self.process = subprocess.Popen([tool, "serve", folder, *ports, *options], stderr=self.told)
        self.client().close()

    def client(self) -> Client:
        """A connection, once the server takes one."""
        until = time.monotonic() + PATIENCE
        while True:
            try:
                return Client(("127.0.0.1", self.control), PATIENCE)
            except OSError as error:
                if self.process.poll() is not None or time.monotonic() > until:
                    raise Fault(f"nobody listens: {error}; {self.errors()}") from error
                time.sleep(0.02)

    def ask(self, line: str) -> list[str]:
        """What one line is answered, by a connection of its own."""
        client = self.client()
        told = list(client.ask(line))
        client.close()
        return told

    def address(self) -> tuple[str, int]:
        return "127.0.0.1", self.receive

    def quit(self) -> None:
        """Ends it by a line."""
        expect("quit", self.ask("quit"), ["bye"])
        expect("the server's status", self.process.wait(PATIENCE), 0)

    def kill(self, how: int) -> None:
        self.process.send_signal(how)
        self.process.wait(PATIENCE)

    def memory(self) -> int:
        """The most memory that it has had, in megabytes."""
        return self.kilobytes("VmHWM") // 1024

    def kilobytes(self, which: str) -> int:
        """A measure of its memory, as the system names it."""
        for line in Path(f"/proc/{self.process.pid}/status").read_text().splitlines():
            if line.startswith(f"{which}:"):
                return int(line.split()[1])
        return 0

    def socket_words(self) -> list[str]:
        """What the system says of its datagram socket; nothing if there is none."""
        return socket_words(self.receive)

    def dropped(self) -> int:
        """How many datagrams the system has dropped at its port."""
        return int((self.socket_words() or ["0"])[-1])

    def errors(self) -> str:
        """What it told on standard error."""
        self.told.seek(0)
        return self.told.read()

    def counts(self) -> dict[str, int]:
        """What it counted, by the line with which it ended."""
        ended = [line for line in self.errors().splitlines() if line.startswith("ended: ")]
        expect("lines that say how the server ended", len(ended), 1)
        counts = (count.rpartition(" ") for count in ended[0].removeprefix("ended: ").split(", "))
        return {name: int(number) for name, _, number in counts}


@contextmanager
def killed_at_last(server: AnyServer) -> Iterator[AnyServer]:
    """A server, which is killed at the end if it has not ended."""
    try:
        yield server
    finally:
        if server.process.poll() is None:
            server.kill(signal.SIGKILL)


@contextmanager
def served_by(kind: type[AnyServer], tool: Path, *options: str) -> Iterator[tuple[AnyServer, Path]]:
    """A server of a kind over an archive in a new folder."""
    with room() as folder:
        archive = folder / "archive"
        run([tool, "create", archive, "--history", "16777216"])
        with killed_at_last(kind(tool, archive, *options)) as server:
            yield server, archive


def served(tool: Path, *options: str) -> AbstractContextManager[tuple[Server, Path]]:
    """A server over an archive in a new folder."""
    return served_by(Server, tool, *options)


def publication_of(session_id: int) -> Publication:
    """A publication of the trials' stream."""
    return Publication(session_id, STREAM_ID, INITIAL_TERM, STREAM.term_length, STREAM.mtu)


def payload(position: int, length: int) -> bytes:
    """The payload of a message so long, which tells its position."""
    tail = length - HEADER_LENGTH
    return (position.to_bytes(8, "little") * (tail // 8 + 1))[:tail]


class Faults:
    """Loses, doubles and swaps a share of datagrams, a third of it each."""

    def __init__(self, chance: random.Random, share: float) -> None:
        self.chance, self.share = chance, share
        self.late: bytes | None = None  # overtaken by the next one
        self.lost_frames = self.swapped = 0

    def sent_for(self, datagram: bytes) -> list[bytes]:
        """The datagrams that are sent in the place of one."""
        what = self.chance.random() / self.share if self.share else 1.0
        if what < 1 / 3:
            self.lost_frames += kind_of(datagram) in (PAD, MESSAGE) and datagram[:4] != bytes(4)
            return []
        if 2 / 3 <= what < 1 and self.late is None:
            self.late = datagram
            self.swapped += 1
            return []
        return [datagram] * (2 if what < 2 / 3 else 1) + self.held_back()

    def held_back(self) -> list[bytes]:
        """The datagram that waits to be overtaken, if there is one; it waits no longer."""
        late, self.late = self.late, None
        return [] if late is None else [late]


class Sender:
    """Sends a publication; of a hundred datagrams it loses, doubles and swaps some."""

    def __init__(self, server: Server, session_id: int, chance: random.Random, faults: float = 0.0) -> None:
        self.publication = publication_of(session_id)
        self.address, self.faults = server.address(), Faults(chance, faults)
        self.socket = socket.socket(socket.AF_INET, socket.SOCK_DGRAM)
        self.socket.setblocking(False)
        self.naks: list[bytes] = []

    def send(self, datagram: bytes) -> None:
        while True:
            try:
                self.socket.sendto(datagram, self.address)
                return
            except BlockingIOError:
                select.select([], [self.socket], [], 1)
            except ConnectionRefusedError:
                return  # nobody is there any more

    def risk(self, datagram: bytes) -> None:
        """Sends a datagram that may be lost, doubled, or overtaken by the next one."""
        for sent in self.faults.sent_for(datagram):
            self.send(sent)

    def repeat(self) -> None:
        """Answers the NAK frames that have come, each range once."""
        asked = set()
        while True:
            try:
                nak = self.socket.recv(65_536)
            except (BlockingIOError, ConnectionRefusedError):
                break
            self.naks.append(nak)
            asked.add(nak)
        for nak in asked:
            for frame in self.publication.asked_for(nak):
                self.risk(frame)

    def message(self, length: int) -> None:
        """One message more, whose payload tells its position."""
        for frame in self.publication.add(payload(self.publication.position, length)):
            self.risk(frame)

    def until(self, client: Client, recording: int, distance: int) -> int:
        """Repeats and sends heartbeats until the recorded position is near enough; the recorded position."""
        until = time.monotonic() + PATIENCE
        while True:
            self.repeat()
            recorded = recorded_position(client, recording)
            if self.publication.position - recorded <= distance:
                return recorded
            if time.monotonic() > until:
                raise Fault(f"recorded up to {recorded}, sent up to {self.publication.position}")
            self.send(self.publication.heartbeat())
            if distance == 0:
                time.sleep(0.001)


def recorded_position(client: Client, recording: int) -> int:
    """Up to where a recording is recorded."""
    told = list(client.ask(f"positions {recording}"))
    if not told or not told[0].startswith("positions "):
        raise Fault(f"positions {recording}: {told}")
    return int(told[0].split()[2])


def start_line(session_id: int) -> str:
    """The line that starts a recording of a session's stream from its beginning."""
    return replace(STREAM, session_id=session_id).start(f"c{session_id}")


def started(server: Server, chance: random.Random, streams: int, first: int = 0) -> list[Sender]:
    """Has a server record so many publications. Their senders; the recording of the first has this number."""
    client, senders = server.client(), []
    for number in range(streams):
        sender = Sender(server, first + number + 1, chance)
        expect("start", list(client.ask(start_line(first + number + 1))), [f"started {first + number} {number}"])
        sender.send(sender.publication.setup())
        senders.append(sender)
    client.close()
    return senders


def settles(archive: Path) -> int:
    """How many settles the history of an archive has that nobody serves."""
    known = read_banks(lambda name: (archive / name).read_bytes() if (archive / name).exists() else None)
    return sum(entry.kind == SETTLE for _, entry in known.entries)


def compare(tool: Path, archive: Path, recording: int, sent: Publication, begin: int = 0) -> int:
    """A recording has each frame that was sent from a position on, as far as it was recorded; how many."""
    stops = stop_positions(tool, archive)
    right = []
    position = begin
    while position < stops[recording]:
        frame, covers = sent.frames[position]
        right.append(f"frame {position} {frame.hex()}")
        position += covers
    expect("where the recording stopped", stops[recording], position)
    if replayed(tool, archive, recording, begin, len(right)) != right:
        raise Fault(f"recording {recording}: not the {len(right)} frames from {begin} on that were sent")
    return len(right)


def two_publications(tool: Path, chance: random.Random) -> None:
    """Two publications, one with its session before its setup frame and one behind; a block that a client writes itself makes
    the image's next block refused; reopening is no line of a server."""
    with served(tool) as (server, archive):
        client = server.client()
        first, second = Sender(server, 7, chance), Sender(server, 8, chance)
        expect("start", list(client.ask(start_line(7))), ["started 0 0"])
        first.send(first.publication.setup())
        second.send(second.publication.setup())
        for sender in (first, second):
            for _ in range(100):
                sender.message(200)
        time.sleep(0.2)
        expect("start", list(client.ask(start_line(8))), ["started 1 1"])
        for number, sender in enumerate((first, second)):
            sender.until(client, number, 0)
        for line in ("reopen", "compact"):
            expect(line, list(client.ask(line)), ["error 22 BadLine"])
        mine = second.publication.position
        block = replace(STREAM, session_id=8).message(mine, b"by the client...")
        expect("block", list(client.ask(f"block 1 {block.hex()}")), [f"settled {mine + 64}"])
        for _ in range(10):
            second.message(200)
        first.message(200)
        first.until(client, 0, 0)
        time.sleep(0.2)
        expect("the second recording", recorded_position(client, 1), mine + 64)
        client.close()
        server.quit()
        if compare(tool, archive, 0, first.publication) != 101:
            raise Fault("101 frames were sent")
        expect("verify", run([tool, "verify", archive]), ["verified 101", "verified 101"])
    print("two publications, sessions before and behind their setup frames, a refused block", flush=True)


def slow_clients(tool: Path) -> None:
    """Clients that take their time: one is closed while another waits; one that polls and never reads too."""
    with served(tool, "--idle", "1") as (server, archive):
        slow = socket.create_connection(("127.0.0.1", server.control))
        slow.sendall(b"l")
        begun = time.monotonic()
        waiting = server.client()
        waiting.socket.sendall(b"list 0 10\n")
        while not select.select([waiting.socket], [], [], 0.2)[0]:
            try:
                slow.sendall(b"i")
            except OSError:
                pass
            if time.monotonic() - begun > 10:
                raise Fault("a client with a byte now and then keeps another waiting")
        expect("who waited", waiting.replies.readline(), "end 0\n")
        waiting.close()
        slow.close()
        client = server.client()
        expect("start", list(client.ask(start_line(7))), ["started 0 0"])
        payload = bytes(1_376)
        at = 0
        for _ in range(400):
            expect("block", list(client.ask(f"block 0 {STREAM.message(at, payload).hex()}")), [f"settled {at + 1_408}"])
            at += 1_408
        client.close()
        greedy = socket.create_connection(("127.0.0.1", server.control))
        for _ in range(50):
            greedy.sendall(b"replay 0 0 -1\npoll 0 4096\n")
        begun = time.monotonic()
        expect("behind one that never reads", server.ask("list 0 0"), ["end 0"])
        if time.monotonic() - begun > 10:
            raise Fault("a client that never reads keeps another waiting")
        greedy.close()
        server.quit()
    print("clients that are idle, and one that never reads, make room", flush=True)


def lossy(tool: Path, chance: random.Random, frames: int) -> None:
    """So many frames, of whose datagrams one in a hundred is lost, doubled or swapped: every byte is recorded."""
    with served(tool) as (server, archive):
        client = server.client()
        sender = Sender(server, SESSION_ID, chance, faults=0.03)
        expect("start", list(client.ask(start_line(SESSION_ID))), ["started 0 0"])
        sender.send(sender.publication.setup())
        begun = time.monotonic()
        for index in range(frames):
            sender.message(chance.choice((40, 64, 96)))
            if index % 64 == 0:
                sender.until(client, 0, IN_FLIGHT)
        sender.faults.share = 0.0
        sender.until(client, 0, 0)
        took = time.monotonic() - begun
        memory = server.memory()
        client.close()
        server.quit()
        count = compare(tool, archive, 0, sender.publication)
        print(f"{count} frames with losses over {file_system(archive)}, {len(sender.naks)} NAKs, {took:.0f} s, "
              f"{memory} MB: each is recorded", flush=True)


def read_by_wireshark(tool: Path, chance: random.Random) -> None:
    """NAK frames and recorded frames, as Wireshark reads them."""
    if not shutil.which("tshark"):
        print("there is no tshark: its reading of NAKs and frames is left out", flush=True)
        return
    with served(tool) as (server, archive):
        client = server.client()
        sender = Sender(server, SESSION_ID, chance, faults=0.1)
        expect("start", list(client.ask(start_line(SESSION_ID))), ["started 0 0"])
        sender.send(sender.publication.setup())
        for index in range(5_000):
            sender.message(chance.choice((40, 64, 1_000)))
            if index % 16 == 0:
                sender.until(client, 0, IN_FLIGHT)
        sender.faults.share = 0.0
        sender.until(client, 0, 0)
        client.close()
        server.quit()
        stop = sender.publication.position
        frames = [bytes.fromhex(line.split()[2]) for line in replayed(tool, archive, 0, 0, 10_000)]
        capture = archive.parent / "capture.pcap"
        write_capture(capture, sender.naks + frames)
        told = dissected(capture)
        right = [told_of_nak(nak) for nak in sender.naks] + [told_of_frame(frame) for frame in frames]
        differences = sum(one != other for one, other in zip(told, right, strict=True))
        expect("differences between what was sent and what tshark reads", differences, 0)
        print(f"{len(sender.naks)} NAKs and {len(frames)} frames up to {stop}, as tshark reads them", flush=True)


def told_of_nak(nak: bytes) -> list[int]:
    length, _, _, _, session_id, stream_id, term_id, offset, asked = struct.unpack("<iBBHiiiii", nak)
    return [session_id, stream_id, term_id, offset, asked, length]


class Killed:
    """A server that is killed again and again while streams go on, and what it answered."""

    def __init__(self, tool: Path, archive: Path, chance: random.Random, options: list[str]) -> None:
        self.tool, self.archive, self.chance, self.options = tool, archive, chance, options
        self.answered: dict[int, int] = {}  # by recording: the largest position that was answered
        self.sent: dict[int, Publication] = {}
        self.answers = 0

    def note(self, recording: int, position: int) -> None:
        self.answered[recording] = max(position, self.answered.get(recording, 0))
        self.answers += 1

    def round(self, how: int) -> None:
        """A server that records one stream from datagrams and one from a client's blocks, until it is killed."""
        server = Server(self.tool, self.archive, *self.options)
        client = server.client()
        fed = int(next(iter(client.ask(start_line(SESSION_ID)))).split()[1])
        own = int(next(iter(client.ask(start_line(SESSION_ID + 1)))).split()[1])
        sender = Sender(server, SESSION_ID, self.chance, faults=0.01)
        other = publication_of(SESSION_ID + 1)
        self.sent[fed], self.sent[own] = sender.publication, other
        sender.send(sender.publication.setup())
        until = time.monotonic() + self.chance.uniform(0.01, 0.6)
        while time.monotonic() < until:
            for _ in range(self.chance.randint(1, 40)):
                sender.message(self.chance.choice((40, 200, 1_408)))
            sender.repeat()
            self.note(fed, recorded_position(client, fed))
            block = b"".join(other.add(bytes(self.chance.choice((8, 168)))))
            told = list(client.ask(f"block {1} {block.hex()}"))
            expect("block", told, [f"settled {other.position}"])
            self.note(own, other.position)
            if sender.publication.position - self.answered[fed] > IN_FLIGHT:
                sender.until(client, fed, IN_FLIGHT // 2)
        server.kill(how)
        client.close()
        self.look()

    def look(self) -> None:
        """What was answered is there."""
        stops = stop_positions(self.tool, self.archive, is_stopped=True)
        for recording, answered in self.answered.items():
            if stops[recording] < answered:
                raise Fault(f"recording {recording}: answered {answered}, it stopped at {stops[recording]}")
        for recording, sent in self.sent.items():
            compare(self.tool, self.archive, recording, sent)
        self.sent = {}
        self.answered = {}


def killed(tool: Path, chance: random.Random, kills: int, history: int) -> None:
    """Kills a server so often under load, a tenth of the times by SIGTERM. It makes checkpoints if a history is given."""
    new = ["--history", str(history or 16_777_216)]
    with room() as folder:
        archive = folder / "archive"
        run([tool, "create", archive, *new])
        answers = 0
        for index in range(kills):
            if index and index % 400 == 0:
                shutil.rmtree(archive)
                run([tool, "create", archive, *new])
            killer = Killed(tool, archive, chance, ["--checkpoints"] if history else [])
            try:
                killer.round(signal.SIGTERM if index % 10 == 9 else signal.SIGKILL)
            except Fault as fault:
                raise Fault(f"behind {index} kills: {fault}") from fault
            answers += killer.answers
        print(f"{kills} kills over {file_system(archive)}, {answers} answers: each position is there", flush=True)


def hostile(tool: Path, chance: random.Random, datagrams: int, connections: int) -> None:
    """Random and mutated datagrams, and connections that break every rule; the next client is served."""
    with served(tool, "--idle", "1", "--quiet") as (server, archive):
        client = server.client()
        expect("start", list(client.ask(start_line(SESSION_ID))), ["started 0 0"])
        client.close()
        sender = Sender(server, SESSION_ID, chance)
        sender.send(sender.publication.setup())
        for _ in range(50):
            sender.message(200)
        good = [frame for frame, _ in sender.publication.frames.values()] + [sender.publication.heartbeat()]
        begun = time.monotonic()
        for index in range(datagrams):
            sender.send(mutated(chance, good))
            if index % 1_000 == 0:
                sender.repeat()
        for index in range(connections):
            break_rules(chance, server)
        memory = server.memory()
        expect("whether it lives", server.process.poll(), None)
        if memory > MOST_MEMORY:
            raise Fault(f"{memory} MB")
        expect("the next client", server.ask("list 0 0"), ["end 0"])
        server.quit()
        verdicts = run([tool, "verify", archive])
        if not all(line.startswith("verified ") for line in verdicts):
            raise Fault(f"verify: {verdicts}")
        print(f"{datagrams} hostile datagrams and {connections} hostile connections, "
              f"{time.monotonic() - begun:.0f} s, {memory} MB", flush=True)


def mutated(chance: random.Random, good: list[bytes]) -> bytes:
    """A datagram of no honest sender."""
    what = chance.random()
    if what < 0.2:
        return chance.randbytes(chance.choice((0, 1, 7, 8, 31, 32, 40, 1_408, 9_000)))
    if what < 0.4:
        session, stream = chance.randint(-100, 100), chance.randint(-100, 100)
        ids = chance.randint(-5, 5), chance.randint(-5, 5)
        lengths = 2 ** chance.randint(14, 31) % 2**31, chance.choice((1_408, 64, 33, 65_504))
        return struct.pack("<iBBHiii5i", 40, 0, 0, 5, chance.choice((0, 32, 64, 31)), session, stream, *ids, *lengths, 0)
    datagram = bytearray(chance.choice(good))
    for _ in range(chance.randint(1, 4)):
        datagram[chance.randrange(len(datagram))] = chance.randrange(256)
    return bytes(datagram)


def break_rules(chance: random.Random, server: Server) -> None:
    """A connection of no honest client."""
    try:
        with socket.create_connection(("127.0.0.1", server.control), timeout=PATIENCE) as connection:
            what = chance.random()
            if what < 0.3:
                connection.sendall(chance.randbytes(chance.randint(1, 2_000)))
            elif what < 0.6:
                connection.sendall(b"list 0 10\nposi")
            elif what < 0.601:
                connection.sendall(b"x" * 10_000_000)
            elif what < 0.8:
                connection.sendall(b"poll 0 4096\nreplay 0 0 -1\npoll 0 4096\n" * 10)
            if chance.random() < 0.5:
                connection.setsockopt(socket.SOL_SOCKET, socket.SO_LINGER, struct.pack("ii", 1, 0))
    except OSError:
        pass


def flooded(tool: Path) -> None:
    """`quit` while datagrams come as fast as they can be sent."""
    with served(tool) as (server, archive):
        client = server.client()
        expect("start", list(client.ask(start_line(SESSION_ID))), ["started 0 0"])
        client.close()
        flood = ROOT / "trials/serving.py"
        words = [sys.executable, flood, "--flood", str(server.receive)]
        senders = [subprocess.Popen(words) for _ in range(2)]
        try:
            time.sleep(2)
            begun = time.monotonic()
            server.quit()
            took = time.monotonic() - begun
        finally:
            for sender in senders:
                sender.kill()
                sender.wait()
        if took > 3:
            raise Fault(f"it took {took:.1f} s to end")
        run([tool, "verify", archive])
        print(f"a server in a flood ended {took:.2f} s behind its line", flush=True)


def flood(port: int) -> None:
    """Sends a stream without end, as fast as it can."""
    out = socket.socket(socket.AF_INET, socket.SOCK_DGRAM)
    publication = publication_of(SESSION_ID)
    out.sendto(publication.setup(), ("127.0.0.1", port))
    while True:
        for frame in publication.add(bytes(1_000)):
            try:
                out.sendto(frame, ("127.0.0.1", port))
            except OSError:
                return
        publication.frames.clear()


def main() -> int:
    words = trial_words(__doc__)
    words.add_argument("--frames", type=int, default=10**6)
    words.add_argument("--kills", type=int, default=200)
    words.add_argument("--history", type=int, default=0, help="entries of the history that is made short while servers are killed")
    words.add_argument("--datagrams", type=int, default=10**6)
    words.add_argument("--connections", type=int, default=10**4)
    words.add_argument("--only", help="one trial alone, by its name")
    words.add_argument("--flood", type=int, help=argparse.SUPPRESS)
    asked = words.parse_args()
    if asked.flood:
        flood(asked.flood)
        return 0
    tool, chance = program(asked.program), random.Random(asked.seed)
    print(f"seed {asked.seed}", flush=True)
    all_trials = {
        "publications": lambda: two_publications(tool, chance),
        "clients": lambda: slow_clients(tool),
        "flood": lambda: flooded(tool),
        "dissector": lambda: read_by_wireshark(tool, chance),
        "kills": lambda: killed(tool, chance, asked.kills, asked.history),
        "hostile": lambda: hostile(tool, chance, asked.datagrams, asked.connections),
        "losses": lambda: lossy(tool, chance, asked.frames),
    }
    run_trials(all_trials, asked.only)
    return 0


if __name__ == "__main__":
    conclude(main)
