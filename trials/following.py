#!/usr/bin/env python3
"""Followers of a served archive: what they take is what its files have, whatever else happens.

Usage: trials/following.py [--seed S] [--only TRIAL] [--kills N] [--bytes N] [program]

The followers of examples/, in Python, C and Java, follow recordings through both ports of a server, and a reader of this script
(docs/PROTOCOL.md, "Following a recording") looks at times and headers. What came is compared with the files, as `readers/` reads
them: live, over extensions, next to refused truncations and purges, behind kills, in damaged segments, while others take nothing,
60 at once. Nothing changes at the port of consumers. Hostile bytes come to both ports.
"""
import os
import random
import signal
import socket
import struct
import subprocess
import sys
import tempfile
import threading
import time
from collections.abc import Callable
from pathlib import Path

from lib import bent_lines
from lib.followers import DATA, END_OF_STREAM, FAULT, HEARTBEAT, PAD, Command, followers
from lib.tool import ROOT, SESSION_ID, Fault, aligned, conclude, expect, free_port, program, room, run, run_trials, trial_words
from readers.archive import files_of, looked_at
from readers.catalogue import Recording
from serving import IN_FLIGHT, STREAM, Sender, Server, publication_of, served_by, start_line

sys.path.insert(0, str(ROOT / "examples"))
from client import Client  # noqa: E402

PATIENCE = 60  # seconds that a trial waits for what has to come
MOST_FOLLOWERS, PLACES = 60, 64
READ_AT_ONCE = 1_048_576  # bytes of frames that a follower is read at once at most
SILENCE = 0.1 + 0.9  # seconds without a heartbeat: what the server promises, and what a busy machine may add
TO_QUIT = 0.25 + 0.75  # seconds, the same of the end of a server
ANSWERED = {b"list", b"find", b"positions", b"source", b"images", b"follow", b"quit"}  # docs/SERVING.md, "Consumers"
BAD_LINE = "error 22 BadLine"


class Consumed(Server):
    """A `serve` with a port of consumers."""

    def __init__(self, tool: Path, folder: Path, *options: str) -> None:
        self.consumers = free_port(socket.SOCK_STREAM)
        super().__init__(tool, folder, "--clients", "8", "--consumers", str(self.consumers), *options)

    def consumer(self) -> Client:
        """A connection to the port of consumers."""
        return Client(("127.0.0.1", self.consumers), PATIENCE)

    def ports(self) -> tuple[int, int]:
        return self.control, self.consumers


class Follower:
    """A follower of examples/."""

    def __init__(self, name: str, command: Command, port: int, recording: int, position: int, length: int = -1) -> None:
        self.name, self.begin = name, position
        self.out, self.told = tempfile.TemporaryFile(), tempfile.TemporaryFile("w+")
        self.process = subprocess.Popen(command(port, recording, position, length), stdout=self.out, stderr=self.told)

    def await_answer(self) -> None:
        """Waits until it has printed the server's answer."""
        until = time.monotonic() + PATIENCE
        while os.fstat(self.told.fileno()).st_size == 0:
            if time.monotonic() > until:
                raise Fault(f"the follower in {self.name} prints no answer")
            time.sleep(0.005)

    def taken(self) -> bytes:
        """What it has handed on."""
        self.out.seek(0)
        return self.out.read()

    def ended(self, status: int) -> int:
        """The position that it would go on from, once it has ended with a status."""
        found = self.process.wait(PATIENCE)
        self.told.seek(0)
        lines = self.told.read().splitlines()
        if found != status or len(lines) != 2 or lines[0] != f"following {self.begin}":
            raise Fault(f"the follower in {self.name} ended with status {found}, and not {status}: {lines}")
        return int(lines[1].removeprefix("go on from "))


def known_recording(archive: Path, recording: int) -> tuple[Recording, bytes, int]:
    """A recording, as the files have it: what a follower gets of it from its start, and where its first damaged frame or its end is."""
    found = looked_at(files_of(archive))
    known = found.register.recordings[recording]
    text, position = [], known.start
    reader = found.reader()
    while position < known.recorded and (frame := reader.shown(known, position)):
        covers = aligned(frame.length)
        text.append(frame.encoding().ljust(covers if frame.kind == DATA else 0, b"\x00"))
        position += covers
    return known, b"".join(text), position


def stored(archive: Path, recording: int, begin: int, end: int) -> bytes:
    """What a follower gets of a recording without pads between two positions."""
    known, text, _ = known_recording(archive, recording)
    return text[begin - known.start : end - known.start]


def expect_taken(what: str, follower: Follower, right: bytes) -> None:
    """Asks that a follower handed on these bytes."""
    taken = follower.taken()
    if taken != right:
        at = next((at for at, (one, other) in enumerate(zip(taken, right)) if one != other), min(len(taken), len(right)))
        raise Fault(f"{what}: the follower in {follower.name} took {len(taken)} bytes, and not {len(right)}; they differ at {at}")


class Looking:
    """A follower of this script, which looks at each header."""

    def __init__(self, port: int, recording: int, position: int, length: int = -1, buffer: int | None = None) -> None:
        self.socket = socket.socket(socket.AF_INET, socket.SOCK_STREAM)
        if buffer:
            self.socket.setsockopt(socket.SOL_SOCKET, socket.SO_RCVBUF, buffer)
        self.socket.settimeout(PATIENCE)
        self.socket.connect(("127.0.0.1", port))
        self.socket.sendall(f"follow {recording} {position} {length}\n".encode())
        self.stream = self.socket.makefile("rb")
        self.answer = self.stream.readline().decode().rstrip("\n")
        self.position = int(self.answer.split()[1]) if self.answer.startswith("following ") else -1
        self.text = bytearray()
        self.longest = 0.0  # seconds between two headers

    def header(self) -> tuple[int, int, int]:
        """The next frame's length, flags and type; -1 and twice 0 where the connection was closed."""
        begun = time.monotonic()
        try:
            header = self.stream.read(32)
        except ConnectionResetError:  # the server closed it with bytes that it had not read
            return -1, 0, 0
        self.longest = max(self.longest, time.monotonic() - begun)
        if len(header) < 32:
            return -1, 0, 0
        length, version, flags, kind, offset, session, stream, term, _ = struct.unpack("<iBBHiiiiq", header)
        terms, at = divmod(self.position, STREAM.term_length)
        expect("what a header has", (version, offset, term, stream), (0, at, 42 + terms, 1_001))
        if length == 0:
            expect("a heartbeat's type and session", (kind, session), (DATA, SESSION_ID))
            return length, flags, kind
        covers = aligned(length)
        self.text += header + (b"" if kind == PAD else self.stream.read(covers - 32))
        self.position += covers
        return length, flags, kind

    def to_end(self) -> int:
        """Takes all up to the end: the flags of the heartbeat that ended it; 0 if there was none."""
        while True:
            length, flags, _ = self.header()
            if length < 0 or (length == 0 and flags != HEARTBEAT):
                return flags if length == 0 else 0

    def close(self) -> None:
        self.stream.close()
        self.socket.close()


def record(client: Client, blocks: int, session: int = 0, at: int = 0, size: int = 1_408) -> int:
    """Records blocks of a frame by a client: where they end."""
    for _ in range(blocks):
        payload = at.to_bytes(8, "little") * ((size - 32) // 8)
        expect("block", list(client.ask(f"block {session} {STREAM.message(at, payload).hex()}")), [f"settled {at + size}"])
        at += size
    return at


def live(tool: Path, chance: random.Random, size: int) -> None:
    """A stream of so many bytes, followed from its beginning, and from within it, by each language and through both ports, while it is
    recorded, stopped and extended."""
    with served_by(Consumed, tool) as (server, archive):
        commands = followers(archive.parent)
        client = server.client()
        sender = Sender(server, SESSION_ID, chance, faults=0.03)
        expect("start", list(client.ask(start_line(SESSION_ID))), ["started 0 0"])
        sender.send(sender.publication.setup())
        first = [Follower(name, command, port, 0, 0) for name, command in commands.items() for port in server.ports()]
        late: list[Follower] = []
        index = 0
        while sender.publication.position < size:
            sender.message(chance.choice((40, 64, 96, 700, 1_408)))
            index += 1
            if index % 64 == 0:
                recorded = sender.until(client, 0, IN_FLIGHT)
                if not late and recorded > size // 2:
                    late = [Follower(name, command, server.consumers, 0, recorded) for name, command in commands.items()]
        sender.faults.share = 0.0
        stop = sender.until(client, 0, 0)
        expect("stop", list(client.ask("stop 0 2000")), [f"stopped {stop}"])
        for follower in first + late:
            expect("where it ended", follower.ended(0), stop)
        text = known_recording(archive, 0)[1]
        pads = sum(covers - len(frame) for frame, covers in sender.publication.frames.values() if len(frame) == 32)
        for follower in first:
            expect_taken("from the beginning", follower, text)
        for follower in late:
            if not follower.taken() or not text.endswith(follower.taken()):
                raise Fault(f"from {follower.begin} on: the follower in {follower.name} took {len(follower.taken())} bytes of others")
        expect("bytes that came", len(text), stop - pads)
        extended(server, archive, client, commands, stop)
        client.close()
        server.quit()
    print(f"{size} bytes, live, through both ports, and on after an extension: {len(first)} and {len(late)} followers", flush=True)


def extended(server: Consumed, archive: Path, client: Client, commands: dict[str, Command], stop: int) -> None:
    """A follower where a recording has stopped ends at once, and goes on after its extension."""
    for name, command in commands.items():
        follower = Follower(name, command, server.consumers, 0, stop)
        expect("at the stop position", (follower.ended(0), follower.taken()), (stop, b""))
    expect("extend", list(client.ask(STREAM.extend(0, stop))), ["extended 1"])
    going = [Follower(name, command, server.consumers, 0, stop) for name, command in commands.items()]
    end = record(client, 50, 1, stop) if stop % STREAM.term_length < STREAM.term_length - 50 * 1_408 else record(client, 0, 1, stop)
    expect("stop", list(client.ask("stop 0 3000")), [f"stopped {end}"])
    for follower in going:
        expect("where it ended", follower.ended(0), end)
        expect_taken("after an extension", follower, known_recording(archive, 0)[1][len(known_recording(archive, 0)[1]) - (end - stop) :])


def ends_and_bounds(tool: Path) -> None:
    """Bounds, heartbeats, what is refused, and `close` of a follower's replay."""
    with served_by(Consumed, tool) as (server, archive):
        client = server.client()
        expect("start", list(client.ask(start_line(SESSION_ID))), ["started 0 0"])
        end = record(client, 100)
        for port in server.ports():
            for begin, length, to in ((0, 14_080, 14_080), (1_408, 1, 2_816), (14_080, 0, 14_080), (-1, 1_409, 2_816)):
                looking = Looking(port, 0, begin, length)
                expect("the answer", looking.answer, f"following {max(begin, 0)}")
                expect("how it ends", (looking.to_end(), looking.position), (END_OF_STREAM, to))
                expect("what came", looking.text, stored(archive, 0, max(begin, 0), to))
                expect("after the end", looking.stream.read(), b"")
            for line, right in (("1 0 -1", "error 1 UnknownRecording"), ("0 64 -1", "error 5 BadPosition"),
                                ("0 -2 -1", "error 10 BadParameter"), (f"0 {end + 32} -1", "error 5 BadPosition")):
                looking = Looking(port, *map(int, line.split()))
                expect(f"follow {line}", looking.answer, right)
                looking.socket.sendall(b"positions 0\n")
                expect("the next line", looking.stream.readline(), f"positions 0 {end} -1\n".encode())
        waiting = Looking(server.consumers, 0, end)
        for _ in range(20):
            expect("a heartbeat", waiting.header(), (0, HEARTBEAT, DATA))
        if waiting.longest > SILENCE:
            raise Fault(f"{waiting.longest:.2f} s without a heartbeat")
        waiting.socket.sendall(b"quit\nstop 0 1\n" * 1_000)  # is not read
        record(client, 1, 0, end)
        while waiting.position == end:
            if waiting.header()[0] < 0:
                raise Fault("a follower was closed")
        listed, last = client.ask("replays")
        replay, (host, port) = int(listed.split()[1]), waiting.socket.getsockname()
        expect("replays", [listed, last], [f"open {replay} 0 {waiting.position} -1 follow {host}:{port}", "end 1"])
        expect("its replay is the follower's", list(client.ask(f"poll {replay} 1")), ["error 9 UnknownReplay"])
        expect("and by poll-to", list(client.ask(f"poll-to {replay} 1 64")), ["error 9 UnknownReplay"])
        expect("close", list(client.ask(f"close {replay}")), ["closed"])
        expect("after it was closed", waiting.to_end(), 0)
        client.close()
        server.quit()
    print("bounds, heartbeats, refusals, and a follower whose replay is closed", flush=True)


def protected(tool: Path) -> None:
    """While it is followed a recording is not truncated, and not purged but for segments that were passed. The system keeps up to 4 MiB
    of what is sent, so a follower that takes nothing stands within the first five segments."""
    with served_by(Consumed, tool, "--idle", "600") as (server, archive):
        client = server.client()
        expect("start", list(client.ask(start_line(SESSION_ID))), ["started 0 0"])
        end = 0
        while end < 6 * STREAM.segment_length:
            room_left = STREAM.term_length - end % STREAM.term_length
            end = record(client, 1, 0, end, min(1_408, room_left))
        expect("stop", list(client.ask("stop 0 2000")), [f"stopped {end}"])
        slow = Looking(server.consumers, 0, 0, buffer=4_096)
        expect("the answer", slow.answer, "following 0")
        for line in ("truncate 0 0", "purge 0", f"purge-segments 0 {5 * STREAM.segment_length}"):
            expect(line, list(client.ask(line)), ["error 4 ActiveReplay"])
        expect("how it ends", (slow.to_end(), slow.position), (END_OF_STREAM, end))
        expect("what came", slow.text, stored(archive, 0, 0, end))
        until = time.monotonic() + PATIENCE
        while list(client.ask(f"purge-segments 0 {5 * STREAM.segment_length}")) != ["purged 5"]:
            if time.monotonic() > until:
                raise Fault("a follower that has ended keeps its replay")
            time.sleep(0.05)
        expect("sweep", list(client.ask("sweep")), ["swept 1"])
        late = Looking(server.consumers, 0, 0)
        expect("before the start", late.answer, "error 5 BadPosition")
        late = Looking(server.consumers, 0, -1)
        expect("from the start", (late.answer, late.to_end()), (f"following {5 * STREAM.segment_length}", END_OF_STREAM))
        expect("what is left", late.text, known_recording(archive, 0)[1])
        client.close()
        server.quit()
    print("truncations and purges next to followers", flush=True)


def killed(tool: Path, chance: random.Random, kills: int) -> None:
    """Followers of a server that is killed: what they took stands behind the kill, and they go on from there."""
    with room() as folder:
        archive, commands = folder / "archive", followers(folder)
        run([tool, "create", archive, "--history", "16777216"])
        position, taken = 0, b""
        for index in range(kills):
            server = Consumed(tool, archive)
            client = server.client()
            line = start_line(SESSION_ID) if index == 0 else STREAM.extend(0, recorded(archive))
            session = int(next(iter(client.ask(line))).split()[-1])
            name = chance.choice(sorted(commands))
            follower = Follower(name, commands[name], chance.choice(server.ports()), 0, position)
            follower.await_answer()
            at = recorded(archive)
            until = time.monotonic() + chance.uniform(0.05, 0.5)
            while time.monotonic() < until:
                at = record(client, 1, session, at) if at % STREAM.term_length <= STREAM.term_length - 1_408 else pad(client, session, at)
            server.kill(signal.SIGKILL)
            client.close()
            position, taken = follower.ended(1) if follower.process.wait(PATIENCE) else position, taken + follower.taken()
            run([tool, "list", archive], is_stopped=True)
            if not known_recording(archive, 0)[1].startswith(taken):
                raise Fault(f"behind {index + 1} kills: a follower in {name} took what is not recorded up to {position}")
        server = Consumed(tool, archive)
        follower = Follower("Python", commands["Python"], server.consumers, 0, position)
        follower.ended(0)
        expect("all that was followed", taken + follower.taken() == known_recording(archive, 0)[1], True)
        server.quit()
    print(f"{kills} kills: what was followed is recorded, up to {position}", flush=True)


def recorded(archive: Path) -> int:
    """Up to where the first recording is recorded; 0 if there is none."""
    known = looked_at(files_of(archive)).register.recordings.get(0)
    return known.recorded if known else 0


def pad(client: Client, session: int, at: int) -> int:
    """Records a pad up to the end of a term: where that is."""
    size = STREAM.term_length - at % STREAM.term_length
    expect("pad", list(client.ask(f"block {session} {STREAM.header(at, size, PAD).hex()}")), [f"settled {at + size}"])
    return at + size


def damaged(tool: Path, chance: random.Random) -> None:
    """A damaged frame ends a follower at the frame with which a read begins that meets it, and is reported. The frames before it come
    with a bound, and the next term can be followed."""
    with served_by(Consumed, tool) as (server, archive):
        commands = followers(archive.parent)
        client = server.client()
        expect("start", list(client.ask(start_line(SESSION_ID))), ["started 0 0"])
        end = pad(client, 0, record(client, 400))
        end = record(client, 100, 0, end)
        expect("stop", list(client.ask("stop 0 2000")), [f"stopped {end}"])
        at = 1_408 * chance.randrange(400)
        with open(archive / "0-0.rec", "r+b") as segment:
            segment.seek(at)
            segment.write(bytes(4))
        whole = known_recording(archive, 0)[1]
        for name, command in commands.items():
            follower = Follower(name, command, server.consumers, 0, 0)
            ended = follower.ended(3)
            expect(f"whether it ended at {ended}, before {at}", at - READ_AT_ONCE <= ended <= at and ended % 1_408 == 0, True)
            expect_taken("before a damaged frame", follower, whole[:ended])
            follower = Follower(name, command, server.consumers, 0, 0, at)
            expect("with a bound", follower.ended(0), at)
            expect_taken("with a bound", follower, whole)
            follower = Follower(name, command, server.consumers, 0, STREAM.term_length)
            expect("the next term", follower.ended(0), end)
        looking = Looking(server.consumers, 0, 0)
        expect("its last heartbeat", (looking.to_end(), at - READ_AT_ONCE <= looking.position <= at), (FAULT, True))
        expect("the server still answers", server.ask("positions 0"), [f"positions 0 {end} {end}"])
        client.close()
        server.quit()
        if not any("follower" in line for line in server.errors().splitlines()):
            raise Fault(f"no line of a follower that found damage: {server.errors()}")
    print("a damaged frame", flush=True)


def many(tool: Path, chance: random.Random) -> None:
    """60 followers at once, some of which take nothing: one more is refused, the others get all, and those that take nothing go."""
    with served_by(Consumed, tool, "--idle", "15") as (server, archive):
        client = server.client()
        expect("start", list(client.ask(start_line(SESSION_ID))), ["started 0 0"])
        at = record(client, 200)
        lazy = [Looking(server.consumers, 0, 0, buffer=4_096) for _ in range(10)]
        busy = [Looking(chance.choice(server.ports()), 0, 0) for _ in range(MOST_FOLLOWERS - len(lazy))]
        expect("who is served", {it.answer for it in lazy + busy}, {"following 0"})
        for port in server.ports():
            expect("one more", Looking(port, 0, 0).answer, "error 8 MaxReplays")
        expect("four replays are left", [next(iter(client.ask("replay 0 0 -1"))).split()[0] for _ in range(5)], ["replay"] * 4 + ["error"])
        threads = [threading.Thread(target=it.to_end) for it in busy]
        for thread in threads:
            thread.start()
        begun = time.monotonic()
        while time.monotonic() < begun + 10 or at % STREAM.term_length < 1_408:
            at = record(client, 1, 0, at) if at % STREAM.term_length <= STREAM.term_length - 1_408 else pad(client, 0, at)
        expect("stop", list(client.ask("stop 0 2000")), [f"stopped {at}"])
        for thread in threads:
            thread.join(PATIENCE)
        right = known_recording(archive, 0)[1]
        expect("where they ended", {it.position for it in busy}, {at})
        expect("whether each got all", all(it.text == right for it in busy), True)
        until = time.monotonic() + PATIENCE
        while True:
            found = [Looking(server.consumers, 0, 0, buffer=4_096) for _ in range(MOST_FOLLOWERS)]
            refused = {it.answer for it in found} - {"following 0"}
            expect("how they end", {(it.to_end(), it.text == right) for it in found if it.answer not in refused}, {(END_OF_STREAM, True)})
            if not refused:
                break
            if time.monotonic() > until:
                raise Fault(f"followers that take nothing keep their places: {refused}")
        for it in lazy:
            it.close()
        quits(server, at)
        client.close()
    print(f"{MOST_FOLLOWERS} followers at once, {len(lazy)} of which took nothing", flush=True)


def quits(server: Consumed, at: int) -> None:
    """At `quit` the followers are closed at once, without an end."""
    expect("extend", server.ask(STREAM.extend(0, at)), ["extended 1"])
    waiting = [Looking(server.consumers, 0, at) for _ in range(5)]
    begun = time.monotonic()
    expect("quit", server.ask("quit"), ["bye"])
    expect("how they end", {it.to_end() for it in waiting}, {0})
    took = time.monotonic() - begun
    if took > TO_QUIT:
        raise Fault(f"followers were closed {took:.2f} s behind `quit`")
    expect("the server's status", server.process.wait(PATIENCE), 0)


def banks(archive: Path) -> dict[str, bytes]:
    """The catalogue's files."""
    return {path.name: path.read_bytes() for path in sorted(archive.glob("*.bank"))}


def consumers_port(tool: Path, chance: random.Random) -> None:
    """Each line there is answered or BadLine, and nothing changes; `quit` ends the connection, and the 65th client waits."""
    with served_by(Consumed, tool) as (server, archive):
        client = server.client()
        expect("start", list(client.ask(start_line(SESSION_ID))), ["started 0 0"])
        end = record(client, 10)
        known = banks(archive), list(client.ask("list 0 10"))
        lines = [line for line in bent_lines.EACH if line.split(b" ")[0] not in ANSWERED] + [b"replay 0 0 -1", b"poll 0 1", b"merge 42 65536 0"]
        consumer = server.consumer()
        for line in lines:
            consumer.socket.sendall(line.replace(b"\n", b"\r") + b"\n")
            expect(f"{line[:60]!r}", consumer.replies.readline(), f"{BAD_LINE}\n")
        for line, right in (("list 0 10", known[1]), ("positions 0", [f"positions 0 {end} -1"]), ("source 0", ["source 0"]),
                            (f"find 0 1001 {SESSION_ID} c", ["found 0"]), ("images", [BAD_LINE]), ("list 0", [BAD_LINE]),
                            ("positions 7", ["error 1 UnknownRecording"]), ("quit", ["bye"])):
            expect(line, list(consumer.ask(line)), right)
        expect("behind quit", consumer.replies.read(), "")
        expect("nothing changed", (banks(archive), list(client.ask("list 0 10"))), known)
        sender = Sender(server, SESSION_ID, chance)
        unsettled(server, archive)
        places = [server.consumer() for _ in range(PLACES)]
        for place in places:
            expect("a place", list(place.ask("positions 0")), [f"positions 0 {end} -1"])
        waiting = server.consumer()
        waiting.socket.sendall(b"positions 0\n")
        waiting.socket.settimeout(0.5)
        try:
            raise Fault(f"client {PLACES + 1} is served: {waiting.replies.readline()!r}")
        except TimeoutError:
            pass
        expect("the control port", list(client.ask("positions 0")), [f"positions 0 {end} -1"])
        for place in places:
            place.close()
        sender.socket.close()
        client.close()
        server.quit()
    print(f"{len(lines)} lines at the port of consumers, and {PLACES} clients", flush=True)


def unsettled(server: Consumed, archive: Path) -> None:
    """`positions` there settles nothing, and takes no entry of the history."""
    client, consumer = server.client(), server.consumer()
    expect("start", list(client.ask(start_line(SESSION_ID + 1))), ["started 1 1"])
    block = publication_of(SESSION_ID + 1)
    written = b"".join(block.add(bytes(32)))
    expect("write", list(client.ask(f"write 1 {written.hex()}")), [f"written {block.position}"])
    known = banks(archive)
    for _ in range(100):
        expect("positions", list(consumer.ask("positions 1")), ["positions 0 0 -1"])
    time.sleep(0.3)
    expect("the catalogue", banks(archive), known)
    client.close()
    consumer.close()


def hostile(tool: Path, chance: random.Random, size: int) -> None:
    """So many hostile bytes to each port, next to a follower that gets all."""
    with served_by(Consumed, tool, "--idle", "1", "--quiet") as (server, archive):
        client = server.client()
        expect("start", list(client.ask(start_line(SESSION_ID))), ["started 0 0"])
        at = record(client, 100)
        client.close()
        waiting = Looking(server.consumers, 0, 0)
        sent = dict.fromkeys(server.ports(), 0)
        while min(sent.values()) < size:
            port = min(sent, key=lambda it: sent[it])
            text = b"\n".join(bent(chance) for _ in range(20)) + b"\n"
            sent[port] += len(text)
            try:
                with socket.create_connection(("127.0.0.1", port), timeout=1) as connection:
                    connection.sendall(text)
                    connection.settimeout(0.05)
                    while chance.random() < 0.9 and connection.recv(65_536):
                        pass
            except OSError:
                pass
        expect("whether it lives", server.process.poll(), None)
        expect("positions", server.ask("positions 0")[0].split()[0], "positions")
        while waiting.position < at:
            if waiting.header()[0] < 0:
                raise Fault(f"the follower was closed at {waiting.position}")
        expect("what came meanwhile", waiting.text[:at], known_recording(archive, 0)[1][:at])
        server.quit()
    print(f"{sent} hostile bytes by port", flush=True)


def bent(chance: random.Random) -> bytes:
    """A line of no honest client, which neither ends the server nor removes what is followed."""
    if chance.random() < 0.3:
        numbers = " ".join(str(chance.choice((0, 1, -1, 1_408, 2**63 - 1, -(2**63), 32, 64))) for _ in range(3))
        return f"follow {numbers}".encode()
    line = chance.randbytes(chance.randint(0, 300)) if chance.random() < 0.3 else bent_lines.line(chance)
    line = line.replace(b"\n", b"\r")
    return b"x" if line.split(b" ")[0] in (b"quit", b"stop", b"close") else line


def main() -> int:
    words = trial_words(__doc__)
    words.add_argument("--kills", type=int, default=100)
    words.add_argument("--bytes", type=int, default=10**6, help="hostile bytes for each port")
    words.add_argument("--only", help="one trial alone, by its name")
    asked = words.parse_args()
    tool, chance = program(asked.program), random.Random(asked.seed)
    print(f"seed {asked.seed}", flush=True)
    trials: dict[str, Callable[[], None]] = {
        "port": lambda: consumers_port(tool, chance),
        "bounds": lambda: ends_and_bounds(tool),
        "protected": lambda: protected(tool),
        "live": lambda: live(tool, chance, 8_000_000),
        "damaged": lambda: damaged(tool, chance),
        "many": lambda: many(tool, chance),
        "kills": lambda: killed(tool, chance, asked.kills),
        "hostile": lambda: hostile(tool, chance, asked.bytes),
    }
    run_trials(trials, asked.only)
    return 0


if __name__ == "__main__":
    conclude(main)
