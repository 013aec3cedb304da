#!/usr/bin/env python3
"""Recordings that a server sends as publications: to subscribers, and to a second archive.

Usage: trials/sending.py [--seed S] [--only TRIAL] [--frames N] [--kills N] [--datagrams N] [program]

The subscriber is one of this repository's own, by the public specification (`lib/subscriber.py`). Each frame that it gets is compared
with what was written, byte for byte.
- losses: it loses, doubles and swaps 1, 10 and 30 % of what comes, while the recording grows.
- words: which endpoints are refused, and what `sends`, `stop-sending`, `replays` and `close` answer; the end-of-stream flag comes by a
  bound and by `stop-sending` alone.
- again: it is killed and started again, and silent for five seconds.
- setups: an endpoint that never answers gets ten setup frames a second.
- crowd: 60 sendings at once, one more is refused; the others go on.
- hostile: a million forged and mutated status messages and NAKs. Memory stays bounded, and another sending whole.
- copies: the origin and the copy are killed in turn, while `examples/mirror.py` sends one to the other through loss. The copy is the
  recording, byte for byte, without a hole.
- dissector: Wireshark's dissector (`tshark`) reads what is sent, with nothing malformed.
"""
import random
import shutil
import signal
import socket
import struct
import subprocess
import sys
import threading
import time
from collections.abc import Callable, Iterator
from contextlib import contextmanager
from pathlib import Path

from lib.captures import dissected, malformed, write_capture
from lib.mounts import Skipped
from lib.subscriber import SETUP, Subscriber
from lib.tool import (
    INITIAL_TERM, ROOT, SESSION_ID, STREAM_ID, Fault, aligned, await_that, conclude, expect, free_port, program, room, run, run_trials,
    trial_words,
)
from serving import Server, killed_at_last

sys.path.insert(0, str(ROOT / "examples"))
from client import Client  # noqa: E402

TERM, SEGMENT, MTU = 65_536, 131_072, 1_408
MOST_SENDINGS = 60
PATIENCE = 120  # seconds that a trial waits for what has to come
MOST_MEMORY = 400  # megabytes
START = f"start {STREAM_ID} {{}} {INITIAL_TERM} {TERM} {MTU} {SEGMENT} 0 1000 live"


class Origin(Server):
    """A `serve` that may send recordings to this machine."""

    def __init__(self, tool: Path, folder: Path, *options: str, receive: int = 0, before: "Origin | None" = None) -> None:
        """At the ports of the one before it, if there is one."""
        self.consumers = before.consumers if before else free_port(socket.SOCK_STREAM)
        self.sending = before.sending if before else free_port(socket.SOCK_DGRAM)
        words = ["--aeron", "--clients", "8", "--consumers", str(self.consumers), *options]
        sends = ["--send-to", "127.0.0.0/8", "--send-on", f"127.0.0.1:{self.sending}"]
        super().__init__(
            tool, folder, *words, *sends, receive=before.receive if before else receive, control=before.control if before else 0
        )

    def send(self, recording: int, position: int, length: int, port: int) -> str:
        """What a line `send` is answered."""
        return self.ask(f"send {recording} {position} {length} 127.0.0.1:{port}")[0]

    def sends(self) -> dict[int, list[str]]:
        """The sendings, by their numbers: the words after these."""
        return {int(words[1]): words[2:] for words in map(str.split, self.ask("sends")[:-1])}

    def await_state(self, number: int, state: str) -> list[str]:
        """Waits until a sending is in a state: its words."""

        def seen() -> list[str]:
            words = self.sends().get(number, [])
            return words if words[2:3] == [state] else []

        return await_that(f"send {number} {state}", seen, lambda: f"{self.sends()}; {self.errors()}", PATIENCE, 0.05)


class Written:
    """A recording that is written by lines `block`, and what segment files have of it."""

    def __init__(self, chance: random.Random, session_id: int = SESSION_ID) -> None:
        self.chance, self.session_id = chance, session_id
        self.position = 0
        self.data = bytearray()
        self.session = self.recording = -1

    def begin(self, client: Client) -> "Written":
        answer = list(client.ask(START.format(self.session_id)))[0].split()
        expect("the start", answer[0], "started")
        self.recording, self.session = int(answer[1]), int(answer[2])
        return self

    def header(self, position: int, length: int, kind: int) -> bytes:
        term, offset = divmod(position, TERM)
        return struct.pack("<iBBHiiiiq", length, 0, 0xC0, kind, offset, self.session_id, STREAM_ID, INITIAL_TERM + term, 0)

    def block(self) -> bytes:
        """The next block: a few messages, or the pad of a term's end."""
        left = TERM - self.position % TERM
        if left <= MTU:
            frame = self.header(self.position, left, 0)
            self.data += frame
            self.position += left
            return frame
        out = b""
        for _ in range(self.chance.randrange(1, 12)):
            length = self.chance.randrange(32, MTU + 1)
            if aligned(length) > TERM - self.position % TERM:
                break
            frame = self.header(self.position, length, 1) + self.chance.randbytes(length - 32)
            out += frame + bytes(aligned(length) - length)
            self.data += frame + bytes(aligned(length) - length)
            self.position += aligned(length)
            if self.position % TERM == 0:
                break
        return out

    def write(self, client: Client, blocks: int = 1) -> None:
        for _ in range(blocks):
            answer = list(client.ask(f"block {self.session} {self.block().hex()}"))
            expect("a block", answer, [f"settled {self.position}"])

    def write_bytes(self, client: Client, count: int) -> None:
        """Writes until so many bytes of the stream are recorded."""
        while self.position < count:
            self.write(client)


@contextmanager
def origin(tool: Path, *options: str) -> Iterator[tuple[Origin, Path]]:
    """A server that may send, over an archive in a new folder."""
    with room() as folder:
        archive = folder / "archive"
        run([tool, "create", archive, "--history", "16777216"])
        with killed_at_last(Origin(tool, archive, *options)) as server:
            yield server, folder


def await_data(subscriber: Subscriber, data: bytes, server: Origin) -> None:
    """Waits until a subscriber has all of a recording, and compares."""

    def came() -> int:
        return sum(map(len, subscriber.taken))

    await_that(f"{len(data)} bytes", lambda: came() >= len(data), lambda: f"{came()}; {server.ask('sends')}; {server.errors()}", PATIENCE, 0.02)
    if subscriber.data() != data:
        raise Fault("what a subscriber has is not what was recorded")


def number_of(answer: str) -> int:
    """The number of a sending that began."""
    expect("a line `send`", answer.split()[0], "sending")
    return int(answer.split()[1])


def losses(tool: Path, seed: int, frames: int) -> None:
    for percent in (0, 1, 10, 30):
        chance = random.Random(f"{seed} {percent}")
        with origin(tool) as (server, _):
            client = server.client()
            written = Written(chance).begin(client)
            written.write_bytes(client, frames * 350)
            port = free_port(socket.SOCK_DGRAM)
            subscriber = Subscriber(port, chance, percent / 100).start()
            number = number_of(server.send(written.recording, -1, -1, port))
            written.write_bytes(client, frames * 700)
            began = time.monotonic()
            await_data(subscriber, bytes(written.data), server)
            words = server.sends()[number]
            print(
                f"losses of {percent} %: {written.position} bytes, {subscriber.frames} frames came, {subscriber.naks} NAKs, "
                f"{words[-1]} repeats, {time.monotonic() - began:.1f} seconds more"
            )
            expect("a receiver that has all", subscriber.has_ended, False)
            client.close()
            subscriber.end()
            server.quit()


def words(tool: Path, seed: int) -> None:
    """What lines are answered."""
    chance = random.Random(seed)
    with origin(tool) as (server, _):
        client = server.client()
        written = Written(chance).begin(client)
        written.write_bytes(client, 300_000)
        other = Written(chance, SESSION_ID + 1).begin(client)
        other.write_bytes(client, 10_000)
        expect("no sendings", server.ask("sends"), ["end 0"])
        for bad in (
            "127.0.0.1:0", "0.0.0.0:4000", "224.0.1.1:4000", "255.255.255.255:4000", "10.0.0.1:4000", f"127.0.0.1:{server.receive}",
            "127.0.0.1", "127.0.0.1:65536", "127.0.0.01:4000", "127.0.0.1:04000", "localhost:4000", "127.0.0.1:4000 ",
        ):  # fmt: skip
            expect(f"an endpoint {bad!r}", server.ask(f"send 0 0 -1 {bad}"), ["error 22 BadLine"])
        for line in ("send 0 0 -1", "send", "send 0 0 +1 127.0.0.1:4000", "send 0 00 -1 127.0.0.1:4000", "stop-sending", "stop-sending x"):
            expect(f"a line {line!r}", server.ask(line), ["error 22 BadLine"])
        port = free_port(socket.SOCK_DGRAM)
        expect("no recording", server.send(9, 0, -1, port), "error 1 UnknownRecording")
        expect("no frame", server.send(0, 1, -1, port), "error 5 BadPosition")
        expect("past the end", server.send(0, written.position + 32, -1, port), "error 5 BadPosition")
        expect("a bad length", server.send(0, 0, -2, port), "error 10 BadParameter")
        for number in (0, -1, 7):
            expect("an unknown number", server.ask(f"stop-sending {number}"), ["error 9 UnknownReplay"])
        subscriber = Subscriber(port, chance).start()
        expect("the first", server.send(0, 0, -1, port), "sending 0")
        expect("a second of one publication", server.send(0, 0, -1, port), "error 4 ActiveReplay")
        expect("another recording", server.send(1, 0, -1, port), "sending 1")
        await_data(subscriber, bytes(written.data), server)
        replays = [line for line in server.ask("replays") if " send " in line]
        expect("replays of sendings", [line.split()[2:3] + line.split()[-2:] for line in replays][:1], [["0", "send", f"127.0.0.1:{port}"]])
        expect("a poll of one", server.ask(f"poll {replays[0].split()[1]} 1"), ["error 9 UnknownReplay"])
        expect("no end", subscriber.has_ended, False)
        expect("a stop", server.ask("stop-sending 0"), [f"stopped-sending {written.position}"])
        await_end(subscriber)
        expect("a stopped one", server.ask("stop-sending 0"), ["error 9 UnknownReplay"])
        expect("close of the other's replay", server.ask(f"close {replays[1].split()[1]}"), ["closed"])
        server.await_state(1, "refused")
        subscriber.end()
        bounded(server, written, chance)
        print("refusals, numbers, a bound, a stop, and a sending whose replay is closed", flush=True)
        client.close()
        server.quit()


def await_end(subscriber: Subscriber) -> None:
    """Waits until a subscriber was told that the stream ends."""
    await_that("the end-of-stream flag", lambda: subscriber.has_ended, seconds=5, pause=0.02)


def bounded(server: Origin, written: Written, chance: random.Random) -> None:
    """A sending with a bound ends by itself, with the end-of-stream flag."""
    port = free_port(socket.SOCK_DGRAM)
    subscriber = Subscriber(port, chance).start()
    number = number_of(server.send(0, 0, 100_000, port))
    words = server.await_state(number, "done")
    await_end(subscriber)
    expect("the bound", words[6], "100000")
    if not written.data.startswith(subscriber.data()) or subscriber.rebuilt < 100_000:
        raise Fault("a bounded sending is not the recording's beginning")
    expect("one that is done", server.ask(f"stop-sending {number}"), [f"stopped-sending {subscriber.rebuilt}"])
    subscriber.end()


def again(tool: Path, seed: int) -> None:
    """A receiver that is killed and started again, and one that is silent for five seconds."""
    chance = random.Random(seed)
    with origin(tool) as (server, _):
        client = server.client()
        written = Written(chance).begin(client)
        port = free_port(socket.SOCK_DGRAM)
        got = b""
        position = -1
        for turn in range(4):
            written.write_bytes(client, (turn + 1) * 200_000)
            subscriber = Subscriber(port, chance, 0.1).start()
            number = number_of(server.send(0, position, -1, port))
            await_data(subscriber, bytes(written.data[len(got) :]), server)
            got += subscriber.data()
            position = subscriber.rebuilt
            if turn % 2:
                subscriber.end()
            else:
                subscriber.is_silent.set()
            began = time.monotonic()
            words = server.await_state(number, "gone")
            if not 4 < time.monotonic() - began < 8:
                raise Fault(f"a silent receiver is gone after {time.monotonic() - began:.1f} seconds")
            expect("consumed by one that is gone", int(words[5]) <= position, True)
            expect("no end", subscriber.has_ended, False)
            if not turn % 2:
                subscriber.end()
        expect("all of it", got, bytes(written.data))
        print(f"{len(got)} bytes by a receiver that is silent twice and killed twice", flush=True)
        client.close()
        server.quit()


def setups(tool: Path, seed: int) -> None:
    """An endpoint that never answers."""
    chance = random.Random(seed)
    with origin(tool) as (server, _):
        client = server.client()
        Written(chance).begin(client).write(client, 3)
        with socket.socket(socket.AF_INET, socket.SOCK_DGRAM) as endpoint:
            endpoint.bind(("127.0.0.1", 0))
            endpoint.settimeout(0.5)
            number = number_of(server.send(0, 0, -1, endpoint.getsockname()[1]))
            came = []
            until = time.monotonic() + 6
            while time.monotonic() < until:
                came.append(endpoint.recvfrom(65_536))
            kinds = {struct.unpack_from("<H", datagram, 6)[0] for datagram, _ in came}
            expect("what it gets", (kinds, {len(datagram) for datagram, _ in came}), ({SETUP}, {40}))
            expect("where from", {sender[1] for _, sender in came}, {server.sending})
            if not 30 <= len(came) <= 62:
                raise Fault(f"{len(came)} setup frames in 6 seconds")
        expect("its state", server.sends()[number][2], "waiting")
        expect("the log", any(f"send {number} waits for a receiver" in line for line in server.errors().splitlines()), True)
        expect("a stop", server.ask(f"stop-sending {number}"), ["stopped-sending 0"])
        print(f"{len(came)} setup frames in 6 seconds to one that never answers", flush=True)
        client.close()
        server.quit()


def crowd(tool: Path, seed: int) -> None:
    """60 sendings at once."""
    chance = random.Random(seed)
    with origin(tool) as (server, _):
        client = server.client()
        written = Written(chance).begin(client)
        written.write_bytes(client, 400_000)
        subscribers = []
        for _ in range(MOST_SENDINGS):
            port = free_port(socket.SOCK_DGRAM)
            subscribers.append(Subscriber(port, random.Random(port), 0.02).start())
            number_of(server.send(0, -1, -1, port))
        expect("one more", server.send(0, -1, -1, free_port(socket.SOCK_DGRAM)), "error 8 MaxReplays")
        expect("a follower", server.ask("follow 0 0 -1")[0], "error 8 MaxReplays")
        written.write_bytes(client, 600_000)
        for subscriber in subscribers:
            await_data(subscriber, bytes(written.data), server)
        for number in range(MOST_SENDINGS):
            expect("a stop", server.ask(f"stop-sending {number}"), [f"stopped-sending {written.position}"])
        for subscriber in subscribers:
            subscriber.end()
        expect("none", server.ask("sends"), ["end 0"])
        print(f"{MOST_SENDINGS} sendings of {written.position} bytes each, {server.memory()} megabytes")
        client.close()
        server.quit()


def hostile(tool: Path, seed: int, datagrams: int) -> None:
    """Forged and mutated status messages and NAKs."""
    chance = random.Random(seed)
    with origin(tool) as (server, _):
        client = server.client()
        written = Written(chance).begin(client)
        written.write_bytes(client, 2_000_000)
        port, other = free_port(socket.SOCK_DGRAM), free_port(socket.SOCK_DGRAM)
        subscriber = Subscriber(port, chance, 0.05, window=32_768).start()
        number_of(server.send(0, -1, -1, port))
        liar = socket.socket(socket.AF_INET, socket.SOCK_DGRAM)
        liar.bind(("127.0.0.1", other))
        liar.setblocking(False)
        number_of(server.send(0, -1, -1, other))
        stranger = socket.socket(socket.AF_INET, socket.SOCK_DGRAM)
        for count in range(datagrams):
            forged = forged_answer(chance)
            (liar if count % 3 else stranger).sendto(forged, ("127.0.0.1", server.sending))
            if count % 64 == 0:
                drain(liar)
                if count % 20_000 == 0:
                    written.write(client, 5)
                    expect("an answer", server.ask("sends")[-1], "end 2")
        await_data(subscriber, bytes(written.data), server)
        if server.memory() > MOST_MEMORY:
            raise Fault(f"{server.memory()} megabytes")
        print(f"{datagrams} hostile answers, {server.memory()} megabytes, {len(written.data)} bytes whole")
        subscriber.end()
        liar.close()
        stranger.close()
        client.close()
        server.quit()


def drain(end: socket.socket) -> None:
    """Takes what came."""
    while True:
        try:
            end.recv(65_536)
        except OSError:
            return


def forged_answer(chance: random.Random) -> bytes:
    """A status message or a NAK of some kind, most of them of the publication."""
    session = SESSION_ID if chance.random() < 0.9 else chance.getrandbits(31)
    term = INITIAL_TERM + chance.randrange(-2, 40) if chance.random() < 0.9 else chance.getrandbits(31)
    offset = chance.randrange(0, TERM, 32) if chance.random() < 0.8 else chance.randrange(-(2**31), 2**31)
    length = chance.choice([0, 32, MTU, TERM, 2**31 - 1, -1, chance.getrandbits(31)])
    flags = chance.choice([0, 0, 0x80, 0x40, 0xFF])
    if chance.random() < 0.5:
        out = struct.pack("<iBBHiiiiiq", 36, 0, flags, 3, session, STREAM_ID, term, offset, length, chance.getrandbits(63))
    else:
        out = struct.pack("<iBBHiiiii", 28, 0, 0, 2, session, STREAM_ID, term, offset, length)
    if chance.random() < 0.3:
        at = chance.randrange(len(out))
        out = out[:at] + chance.randbytes(1) + out[at + 1 :]
    return out[: chance.randrange(len(out) + 1)] if chance.random() < 0.1 else out


class Relay:
    """Passes datagrams on between an origin and a copy, and loses some of them."""

    def __init__(self, to: tuple[str, int], chance: random.Random, share: float) -> None:
        self.front = socket.socket(socket.AF_INET, socket.SOCK_DGRAM)
        self.back = socket.socket(socket.AF_INET, socket.SOCK_DGRAM)
        for end in (self.front, self.back):
            end.bind(("127.0.0.1", 0))
            end.settimeout(0.1)
        self.to, self.chance, self.share = to, chance, share
        self.sender: tuple[str, int] | None = None
        self.is_over = threading.Event()
        self.threads = [threading.Thread(target=work, daemon=True) for work in (self.forth, self.return_all)]
        for thread in self.threads:
            thread.start()

    def port(self) -> int:
        return self.front.getsockname()[1]

    def forth(self) -> None:
        while not self.is_over.is_set():
            try:
                datagram, self.sender = self.front.recvfrom(65_536)
                if self.chance.random() >= self.share:
                    self.back.sendto(datagram, self.to)
            except OSError:
                pass

    def return_all(self) -> None:
        while not self.is_over.is_set():
            try:
                datagram, _ = self.back.recvfrom(65_536)
                if self.sender is not None and self.chance.random() >= self.share:
                    self.front.sendto(datagram, self.sender)
            except OSError:
                pass

    def end(self) -> None:
        self.is_over.set()
        for thread in self.threads:
            thread.join()


def copies(tool: Path, seed: int, kills: int) -> None:
    """A copy of a recording, while both servers are killed."""
    chance = random.Random(seed)
    with room() as folder:
        for name in ("origin", "copy"):
            run([tool, "create", folder / name, "--history", "16777216"])
        first = Origin(tool, folder / "origin")
        receive = free_port(socket.SOCK_DGRAM)
        record = ["--record", str(STREAM_ID), "--segment-length", str(SEGMENT)]
        second = Origin(tool, folder / "copy", *record, receive=receive)
        relay = Relay(("127.0.0.1", receive), random.Random(seed + 1), 0.05)
        client = first.client()
        written = Written(chance).begin(client)
        written.write_bytes(client, 200_000)
        mirror = mirrored(first, second, relay)
        try:
            for count in range(kills):
                written.write_bytes(client, written.position + chance.randrange(100, 200_000))
                time.sleep(chance.random())
                if count % 2:
                    second = restarted(tool, second, folder / "copy", *record)
                else:
                    first = restarted(tool, first, folder / "origin")
                    client = first.client()
                    resumed(client, written)
                if count % 10 == 9:
                    await_copy(second, written, first)
                    print(f"{count + 1} kills, {written.position} bytes")
            await_copy(second, written, first)
        finally:
            mirror.terminate()
            mirror.wait()
        relay.end()
        compare_copy(second, written)
        first.quit()
        second.quit()


def mirrored(first: Origin, second: Origin, relay: Relay) -> subprocess.Popen[bytes]:
    """`examples/mirror.py` over two servers."""
    script = [sys.executable, str(ROOT / "examples/mirror.py")]
    return subprocess.Popen([*script, str(first.control), f"127.0.0.1:{second.consumers}", "0", f"127.0.0.1:{relay.port()}"])


def restarted(tool: Path, server: Origin, folder: Path, *options: str) -> Origin:
    """A server in the place of one that is killed, at the same ports."""
    server.kill(signal.SIGKILL)
    return Origin(tool, folder, *options, before=server)


def resumed(client: Client, written: Written) -> None:
    """The recording goes on after a restart of the origin."""
    words = list(client.ask(f"positions {written.recording}"))[0].split()
    expect("what is recorded after a kill", int(words[2]), written.position)
    line = f"extend {written.recording} {STREAM_ID} {written.session_id} {INITIAL_TERM} {TERM} {MTU} {written.position}"
    answer = list(client.ask(line))[0].split()
    expect("the extension", answer[0], "extended")
    written.session = int(answer[1])


def await_copy(second: Origin, written: Written, first: Origin) -> None:
    """Waits until the copy has all."""

    def has_all() -> bool:
        words = second.ask("positions 0")[0].split()
        return words[0] == "positions" and int(words[2]) == written.position

    def says() -> str:
        return f"{second.ask('positions 0')}; {first.ask('sends')}; {first.errors()}; {second.errors()}"

    await_that(f"a copy up to {written.position}", has_all, says, PATIENCE, 0.05)


def compare_copy(second: Origin, written: Written) -> None:
    """The copy has one recording, which is what was written."""
    expect("recordings of the copy", second.ask("list 0 10")[-1], "end 1")
    with socket.create_connection(("127.0.0.1", second.consumers)) as end:
        end.sendall(f"follow 0 0 {written.position}\n".encode())
        got = b""
        while True:
            more = end.recv(1_048_576)
            if not more:
                break
            got += more
    _, _, got = got.partition(b"\n")
    frames = without_heartbeats(got)
    if frames != bytes(written.data):
        raise Fault(f"the copy has {len(frames)} bytes, and not the {len(written.data)} that were written")


def without_heartbeats(data: bytes) -> bytes:
    """What a follower got, without heartbeats."""
    out, at = bytearray(), 0
    while at < len(data):
        length, _, _, kind = struct.unpack_from("<iBBH", data, at)
        size = 32 if kind == 0 or length == 0 else aligned(length)
        if length:
            out += data[at : at + size]
        at += size
    return bytes(out)


def dissector(tool: Path, seed: int) -> None:
    """What is sent, as Wireshark reads it."""
    if not shutil.which("tshark"):
        raise Skipped("there is no tshark")
    chance = random.Random(seed)
    with origin(tool) as (server, folder):
        client = server.client()
        written = Written(chance).begin(client)
        written.write_bytes(client, 300_000)
        port = free_port(socket.SOCK_DGRAM)
        kept: list[bytes] = []
        subscriber = Keeper(port, chance, 0.1, kept).start()
        number = number_of(server.send(0, -1, 200_000, port))
        server.await_state(number, "done")
        subscriber.end()
        capture = folder / "sent.pcap"
        write_capture(capture, kept)
        expect("datagrams that the dissector reads", len(dissected(capture, ["aeron.data.frame_length"])), len(kept))
        expect("what it calls malformed", malformed(capture), [])
        print(f"{len(kept)} datagrams, as tshark reads them", flush=True)
        client.close()
        server.quit()


class Keeper(Subscriber):
    """A subscriber that keeps each datagram as it came."""

    def __init__(self, port: int, chance: random.Random, share: float, kept: list[bytes]) -> None:
        super().__init__(port, chance, share)
        self.kept = kept

    def came(self, datagram: bytes) -> list[bytes]:
        if datagram:
            self.kept.append(datagram)
        return super().came(datagram)


def main() -> int:
    asked_for = trial_words(__doc__)
    asked_for.add_argument("--only")
    asked_for.add_argument("--frames", type=int, default=2_000, help="of the recording in `losses`")
    asked_for.add_argument("--kills", type=int, default=20, help="of both servers in `copies`")
    asked_for.add_argument("--datagrams", type=int, default=100_000, help="in `hostile`")
    asked = asked_for.parse_args()
    tool, seed = program(asked.program), asked.seed
    print(f"seed {seed}")
    trials: dict[str, Callable[[], None]] = {
        "words": lambda: words(tool, seed),
        "losses": lambda: losses(tool, seed, asked.frames),
        "again": lambda: again(tool, seed),
        "setups": lambda: setups(tool, seed),
        "crowd": lambda: crowd(tool, seed),
        "hostile": lambda: hostile(tool, seed, asked.datagrams),
        "copies": lambda: copies(tool, seed, asked.kills),
        "dissector": lambda: dissector(tool, seed),
    }
    run_trials(trials, asked.only)
    return 0


if __name__ == "__main__":
    conclude(main)
