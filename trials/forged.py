#!/usr/bin/env python3
"""Sends forged datagrams to `serve`, between those of two honest senders, and compares what is recorded with what the honest ones sent.

Each honest sender sends its setup frame first. Forged datagrams then come from other sockets and other addresses of this machine. They
are such as an image drops or refuses (docs/PROTOCOL.md, "Datagrams" and "Images"): frames of the honest publications with another
version, type, length, alignment or term; past the MTU, past the window or before the rebuild position; a frame that would join in front
of a bad one; setup, NAK and unknown frames; heartbeats far ahead; and frames of other publications. Some of those publications set up,
and send the shortest frames, 1,500 in a datagram, but never their first one: the server has to keep what it has room for.

Each recording has to hold the frames that were sent, byte for byte. The bytes that come back to a forger's socket, but for status
messages, are no more than it sent, and none of these answers is longer than a NAK. Standard error has only lines that docs/SERVING.md
names. The server has to stay below its memory limit and to answer the next client. This is asked of a server without options and of
one with `--aeron`, each for half of the datagrams.

Usage: trials/forged.py [--seed S] [--datagrams N] [program].
"""
import random
import socket
import struct
import time
from collections.abc import Callable
from pathlib import Path

from lib.server_lines import expect_calm
from serving import IN_FLIGHT, MOST_MEMORY, STATUS, STREAM, Sender, Server, compare, kind_of, recorded_position, served, start_line
from lib.tool import INITIAL_TERM, STREAM_ID, Fault, conclude, expect, program, trial_words

SESSIONS = 7, 8
ADDRESSES = [f"127.0.0.{1 + number % 7}" for number in range(8)]
WINDOW = STREAM.term_length // 2
HEADER = "<iBBHiiiiq"
EDGES = 0, 1, 31, 32, 33, 1_408, 1_409, 65_536, 2**31 - 1, -1, -(2**31)
LONGEST_ANSWER = 28  # bytes of a NAK frame
HOARDERS, HOARDED, OFTEN = 70, 1_500, 100  # publications, their frames in a datagram, and after how many datagrams one comes
HOARD = 1_048_576  # bytes of a stream that an image keeps


class Target:
    """A publication as a forger sees it: how far it was sent, and how far it is recorded."""

    def __init__(self, sender: Sender) -> None:
        self.publication = sender.publication
        self.recorded = 0

    def frame(self, position: int, length: int, kind: int = 1, version: int = 0, shift: int = 0) -> bytes:
        """A frame at a position, whose payload is wrong."""
        term_id, offset = self.publication.place(position)
        session = self.publication.session_id
        header = struct.pack(HEADER, length, version, 0xC0, kind, offset + shift, session, STREAM_ID, term_id, 0)
        return header + b"\xee" * max(0, min(length, 9_000) - len(header))

    def ahead(self, chance: random.Random) -> int:
        """A position that an image may wait for."""
        return self.publication.position + 32 * chance.randint(0, 3)


def another_version(target: Target, chance: random.Random) -> bytes:
    return target.frame(target.ahead(chance), 64, version=chance.randint(1, 255))


def another_type(target: Target, chance: random.Random) -> bytes:
    return target.frame(target.ahead(chance), 64, kind=chance.choice((2, 3, 4, 6, 7, 255, 65_535)))


def unaligned(target: Target, chance: random.Random) -> bytes:
    return target.frame(target.ahead(chance), 64, shift=chance.choice((1, 8, 31, -1)))


def not_whole(target: Target, chance: random.Random) -> bytes:
    return target.frame(target.ahead(chance), 1_408)[: chance.choice((1, 7, 8, 31, 32, 40, 1_407))]


def past_the_mtu(target: Target, chance: random.Random) -> bytes:
    return target.frame(target.ahead(chance), chance.choice((1_409, 1_440, 9_000)))


def past_the_window(target: Target, chance: random.Random) -> bytes:
    return target.frame(target.publication.position + WINDOW + 32 * chance.randint(0, 99_999), 64)


def before_the_rebuild_position(target: Target, chance: random.Random) -> bytes:
    return target.frame(32 * chance.randint(0, max(0, target.recorded // 32 - 1)), 64) if target.recorded else b""


def another_term(target: Target, chance: random.Random) -> bytes:
    term = INITIAL_TERM + chance.choice((-1, -2, 2**20, 2**30)) - target.publication.place(0)[0]
    return target.frame(target.publication.position + term * STREAM.term_length, 64)


def past_its_term(target: Target, chance: random.Random) -> bytes:
    end = (target.publication.position // STREAM.term_length + 1) * STREAM.term_length
    return target.frame(end - 32, chance.choice((64, 1_408)))


def in_front_of_a_bad_one(target: Target, chance: random.Random) -> bytes:
    return target.frame(target.ahead(chance), 64) + chance.choice((bytes(32), b"\x01", target.frame(0, 64, version=1)))


def an_edge(target: Target, chance: random.Random) -> bytes:
    length = chance.choice([each for each in EDGES if not 32 <= each <= 1_408])
    return target.frame(target.ahead(chance), length, kind=1)[:32]


def a_setup(target: Target, chance: random.Random) -> bytes:
    fields = [INITIAL_TERM, INITIAL_TERM, STREAM.term_length, STREAM.mtu, 0]
    fields[chance.randrange(5)] = chance.choice((0, -1, 31, 65_536, 2**30, 2**31 - 1, -(2**31)))
    offset = chance.choice((0, 32, 31, STREAM.term_length))
    return struct.pack("<iBBHiii5i", chance.choice((40, 39, 0)), 0, 0, 5, offset, target.publication.session_id, STREAM_ID, *fields)


def a_request(target: Target, chance: random.Random) -> bytes:
    """A NAK frame, or a status message, that nobody asked for."""
    kind = chance.choice((2, 3))
    numbers = chance.choice(EDGES), chance.choice(EDGES), chance.choice(EDGES)
    return struct.pack("<iBBHiiiii", 28, 0, 0, kind, target.publication.session_id, STREAM_ID, *numbers)


def a_heartbeat(target: Target, chance: random.Random) -> bytes:
    return target.frame(target.publication.position + chance.choice((0, 64, WINDOW, 4 * STREAM.term_length)), 0)


def another_publication(target: Target, chance: random.Random) -> bytes:
    frame = bytearray(target.frame(target.ahead(chance), 64))
    struct.pack_into("<ii", frame, 12, *chance.choice(((9, STREAM_ID), (target.publication.session_id, 1_002), (-7, 0))))
    return bytes(frame)


def noise(target: Target, chance: random.Random) -> bytes:
    return chance.randbytes(chance.choice((0, 1, 7, 8, 31, 32, 1_408, 9_000)))


FORGERIES: list[Callable[[Target, random.Random], bytes]] = [
    another_version, another_type, unaligned, not_whole, past_the_mtu, past_the_window, before_the_rebuild_position, another_term, past_its_term,
    in_front_of_a_bad_one, an_edge, a_setup, a_request, a_heartbeat, another_publication, noise,
]  # fmt: skip


class Hoards:
    """Publications whose first frame never comes, so that the server keeps the frames after it."""

    def __init__(self, chance: random.Random) -> None:
        self.chance = chance
        self.begins = {100 + number: 32 for number in range(HOARDERS)}

    def datagram(self) -> bytes:
        """A setup frame of one of them, or its next frames."""
        session = self.chance.choice(list(self.begins))
        begin = self.begins[session]
        if begin == 32 or self.chance.random() < 0.05:
            self.begins[session] = max(begin, 64)
            return struct.pack("<iBBHiii5i", 40, 0, 0, 5, 0, session, STREAM_ID, INITIAL_TERM, INITIAL_TERM, 2**30, STREAM.mtu, 0)
        frames = range(begin, min(begin + 32 * HOARDED, HOARD), 32)
        self.begins[session] = frames.stop if frames.stop < HOARD else 64
        return b"".join(struct.pack(HEADER, 32, 0, 0xC0, 1, at, session, STREAM_ID, INITIAL_TERM, 0) for at in frames)


class Forger:
    """A socket of a forger, and the bytes that it sent and was answered."""

    def __init__(self, address: str) -> None:
        self.socket = socket.socket(socket.AF_INET, socket.SOCK_DGRAM)
        self.socket.bind((address, 0))
        self.socket.setblocking(False)
        self.sent = self.answered = self.answers = 0

    def send(self, text: bytes, server: tuple[str, int]) -> None:
        """Sends a datagram, once there is room for it."""
        self.sent += len(text)
        while True:
            try:
                self.socket.sendto(text, server)
                return
            except BlockingIOError:
                time.sleep(0.001)

    def take_answers(self) -> None:
        """Counts what came back, but for status messages."""
        while True:
            try:
                answer = self.socket.recv(65_536)
            except BlockingIOError:
                return
            if kind_of(answer) != STATUS:
                self.answered += len(answer)
                self.answers += 1
                expect("whether an answer is as short as a NAK", len(answer) <= LONGEST_ANSWER, True)
            if self.answered > self.sent:
                raise Fault(f"{self.answered} bytes came back to a forger that sent {self.sent}")


def forge(server: Server, senders: list[Sender], forgers: list[Forger], chance: random.Random, datagrams: int) -> None:
    """Sends forged datagrams between the frames of honest senders."""
    targets, hoards, client = [Target(sender) for sender in senders], Hoards(chance), server.client()
    for count in range(datagrams):
        target = chance.choice(targets)
        text = chance.choice(FORGERIES)(target, chance) if count % OFTEN else hoards.datagram()
        chance.choice(forgers).send(text, server.address())
        if count % 4 == 0:
            chance.choice(senders).message(chance.choice((32, 33, 64, 500, 1_408)))
        if count % 100 == 0:
            for number, sender in enumerate(senders):
                targets[number].recorded = sender.until(client, number, IN_FLIGHT // 4)
            for forger in forgers:
                forger.take_answers()
    for number, sender in enumerate(senders):
        sender.until(client, number, 0)
        expect("the end of a recording", recorded_position(client, number), sender.publication.position)
    client.close()


def begin(server: Server, chance: random.Random) -> list[Sender]:
    """Starts the recordings, and sends the setup frames of the honest senders."""
    client = server.client()
    for number, session in enumerate(SESSIONS):
        expect("start", list(client.ask(start_line(session))), [f"started {number} {number}"])
    client.close()
    senders = [Sender(server, session, chance) for session in SESSIONS]
    for sender in senders:
        sender.send(sender.publication.setup())
    while not all(f"feeds session {number}" in server.errors() for number in range(len(SESSIONS))):
        time.sleep(0.01)
    return senders


def try_forgeries(tool: Path, chance: random.Random, datagrams: int, *options: str) -> None:
    """Sends forged datagrams to a server with some options."""
    with served(tool, *options) as (server, archive):
        begun = time.monotonic()
        senders, forgers = begin(server, chance), [Forger(address) for address in ADDRESSES]
        forge(server, senders, forgers, chance, datagrams)
        took, memory = time.monotonic() - begun, server.memory()
        expect("the next client", server.ask("list 0 0"), ["end 0"])
        server.quit()
        expect_calm(server.errors())
        frames = sum(compare(tool, archive, number, sender.publication) for number, sender in enumerate(senders))
        if memory > MOST_MEMORY:
            raise Fault(f"{memory} MB")
        images, answers = server.counts()["images"], sum(forger.answers for forger in forgers)
        share = max(forger.answered / forger.sent for forger in forgers)
    print(f"{' '.join(('serve', *options))}: {datagrams} forged datagrams beside {frames} frames, {images} images, {answers} answers, "
          f"at most {100 * share:.1f} % of the bytes that a forger sent, {memory} MB, {took:.0f} s: recorded as they were sent", flush=True)


def main() -> int:
    words = trial_words(__doc__)
    words.add_argument("--datagrams", type=int, default=100_000)
    asked = words.parse_args()
    tool, chance = program(asked.program), random.Random(asked.seed)
    print(f"seed {asked.seed}", flush=True)
    for options in ((), ("--aeron",)):
        try_forgeries(tool, chance, asked.datagrams // 2, *options)
    return 0


if __name__ == "__main__":
    conclude(main)
