#!/usr/bin/env python3
"""Sends mutated datagrams to `serve`, and compares each answer, and what is recorded, with a reader of the documents.

Each server records one publication. Datagrams come from sockets of several addresses:
- those of that publication, at positions near the rebuild position, the window and the end of a term, and far off, mostly mutated: bytes,
  header fields at their edges, cuts, growth;
- setup frames of it and of other publications, right ones and with each field wrong; NAKs and status messages that nobody asked for;
- random bytes.

A datagram is answered by a NAK exactly if `readers/images.py` says so, at the address that it came from, and with the gap that the reader
has. No answer is longer than what it answers. At the end the recording has the frames that the reader has, byte for byte. The server's
counts are the reader's, standard error has only lines that docs/SERVING.md names, and memory stays below 400 MB.

The reader does not know how far the recorder has come. So a datagram whose fate depends on that is not sent.

Usage: trials/hostile_datagrams.py [--seed S] [--datagrams N] [--jobs J] [program].
"""
import os
import random
import select
import socket
import struct
import time
from collections import Counter
from pathlib import Path

from lib import bent_datagrams
from lib import random_lines
from lib.comparison import in_parts
from forged import ADDRESSES, Forger
from readers.catalogue import Recording
from readers.images import STOCK, Image, Receiver
from readers.segments import DATA, HEADER
from lib.server_lines import expect_calm
from serving import MOST_MEMORY, PATIENCE, Client, Server, recorded_position, served
from lib.tool import STREAM_ID, Fault, conclude, expect, program, replayed, trial_words

PART = 50_000  # datagrams that one server gets
MOST_BYTES = 49_152  # of datagrams that are sent before their answers are read: the system's buffer has room for them
MOST_DATAGRAMS = 40
SESSIONS = 7, 8, 9, -1
EDGES = 0, 1, 31, 32, 33, 40, 64, 1_409, 32_768, 65_504, 65_536, 2**30, 2**31 - 1, -1, -(2**31)
# Fields of setup frames, numbered as `setup` does, and their values. Fewer than 64 of them are right.
SETUPS = [(field, value) for field in (0, 1, 4, 5, 6, 7) for value in EDGES] + [(3, -1), (8, -1)]


def geometry(chance: random.Random) -> Recording:
    """A recording from where its image joins."""
    term_length = chance.choice((65_536, 65_536, 131_072))
    start = chance.choice((0, 0, 64, 65_408, 3 * term_length - 32, 2**20 * term_length))
    term = chance.choice((42, 0, 2**31 - 1, -7))
    mtu = chance.choice((1_408, 1_408, 64, 8_192))
    return Recording(0, 1_000, start, term, 2 * term_length, term_length, mtu, SESSIONS[0], STREAM_ID, b"c", start)


def setup(known: Recording, session_id: int, field: int = 8, value: int = 0) -> bytes:
    """A setup frame of a publication with a recording's geometry; one field is another one, else its TTL is 0."""
    term_id, offset = place(known, known.start)
    numbers = [40, offset, session_id, known.stream_id, known.initial_term, term_id, known.term_length, known.mtu, 0]
    numbers[field] = value
    return struct.pack("<iBBHiii5i", numbers[0], 0, 0, 5, *numbers[1:])


def place(known: Recording | Image, position: int) -> tuple[int, int]:
    """The term id and the term offset of a position."""
    term, offset = divmod(position, known.term_length)
    return (known.initial_term + term + 2**31) % 2**32 - 2**31, offset


def heartbeat(known: Recording | Image, session_id: int, position: int) -> bytes:
    """A heartbeat of a session."""
    term_id, offset = place(known, position)
    return HEADER.pack(0, 0, 0xC0, 1, offset, session_id, known.stream_id, term_id, 0)


class Sender:
    """Sends a server's datagrams from several sockets, and compares the answers with the reader's."""

    def __init__(self, server: Server, known: Recording, chance: random.Random) -> None:
        self.server, self.known, self.chance = server, known, chance
        self.forgers = [Forger(address) for address in ADDRESSES]
        self.receiver = Receiver()
        self.waiting: list[tuple[int, bytes, bytes | None]] = []  # socket, datagram and answer, not compared yet
        self.sent = 0

    def image(self) -> Image:
        """The image that is recorded."""
        return self.receiver.images[self.known.session_id, self.known.stream_id]

    def send(self, text: bytes) -> None:
        """Sends a datagram from one of the sockets."""
        number = self.chance.randrange(len(self.forgers))
        self.forgers[number].send(text, self.server.address())
        self.waiting.append((number, text, self.receiver.take(text)))
        self.sent += 1

    def is_full(self) -> bool:
        """Whether answers have to be read before the next datagram."""
        return len(self.waiting) >= MOST_DATAGRAMS or sum(len(text) for _, text, _ in self.waiting) >= MOST_BYTES

    def compare(self) -> None:
        """Sends a heartbeat that is answered, reads the answers, and compares them."""
        image = self.image()
        self.send(heartbeat(image, image.session_id, image.high + 32 * (image.high == image.rebuilt)))
        for number, forger in enumerate(self.forgers):
            asked = [(text, answer) for each, text, answer in self.waiting if each == number and answer]
            told = self.answers(forger.socket, len(asked))
            if told != [answer for _, answer in asked]:
                raise Fault(self.difference(told, [answer for _, answer in asked]))
            expect("bytes of an answer past those of what it answers", sum(len(answer) > len(text) for text, answer in asked), 0)
        self.waiting = []

    def answers(self, one: socket.socket, count: int) -> list[bytes]:
        """What comes to a socket: so many datagrams, and what is there after them."""
        told: list[bytes] = []
        while select.select([one], [], [], PATIENCE if len(told) < count else 0)[0]:
            told.append(one.recv(65_536))
        return told

    def difference(self, told: list[bytes], right: list[bytes]) -> str:
        """What the answers to the last datagrams differ in."""
        numbers = [struct.unpack_from("<iiiii", each, 8) if len(each) == 28 else each for each in (*told, *right)]
        sent = "\n".join(f"{number} {text.hex()} {answer.hex() if answer else None}" for number, text, answer in self.waiting)
        dropped = f"{self.server.dropped()} datagrams dropped by the system"
        return f"{len(told)} answers, and not {len(right)}: {numbers[: len(told)]}, {numbers[len(told) :]}; {dropped}; sent were\n{sent}"

    def datagram(self) -> bytes:
        """The next datagram."""
        chance, image = self.chance, self.image()
        what = chance.random()
        if what < 0.02:
            return chance.randbytes(chance.choice((1, 7, 8, 31, 32, 40, 1_408)))
        if what < 0.04:
            return setup(self.known, chance.choice(SESSIONS))
        if what < 0.06:
            numbers = [chance.choice(EDGES) for _ in range(3)]
            kind = chance.choice((28, 36, 0)), 0, 0, chance.choice((2, 3))
            return struct.pack("<iBBHiiiii", *kind, image.session_id, STREAM_ID, *numbers)
        if what < 0.065:
            return self.many(image)
        known = self.known if what < 0.85 else self.another(image)
        its_own = self.receiver.images.get((known.session_id, known.stream_id), image)
        return bent_datagrams.mutated(known, self.position(its_own), chance)

    def position(self, image: Image) -> int:
        """A position of a datagram for an image."""
        begin, chance = image.rebuilt, self.chance
        near = [begin] * 6 + [begin + 32 * chance.randint(1, 12)] * 3 + image.starts[:1]
        ends = image.window(), begin - begin % image.term_length + image.term_length
        edges = [end + 32 * chance.randint(-4, 4) for end in ends]
        far = max(0, begin - 64), image.given + STOCK + 32 * chance.randint(-4, 1), begin + 2 ** chance.randint(5, 40)
        return chance.choice([*near, *edges, *far]) // 32 * 32

    def many(self, image: Image) -> bytes:
        """The shortest messages, hundreds in a datagram, past the rebuild position."""
        begin, count = image.rebuilt + 32 * self.chance.randint(0, 3), self.chance.randint(2, 600)
        return bent_datagrams.messages(self.known, begin, 32, count)

    def another(self, image: Image) -> Recording:
        """The geometry of frames of another publication."""
        fields = vars(self.known) | {"session_id": self.chance.choice(SESSIONS), "stream_id": image.stream_id + self.chance.choice((0, 0, 1))}
        return Recording(**fields)

    def try_setups(self) -> None:
        """Sends setup frames, each with one field at an edge, and heartbeats that are answered if those made images. Then messages at the end
        of each stock."""
        for session_id, (field, value) in enumerate(SETUPS, 1_000):
            self.send(setup(self.known, session_id, field, value))
            self.send(heartbeat(self.known, session_id, self.known.start + 64))
            if self.is_full():
                self.compare()
        for image in self.receiver.images.values():
            for step in (-64, -32, 0) * (image.given == image.rebuilt):
                self.send(random_lines.frame(image, image.given + STOCK + step, DATA, 32))

    def settle(self, client: Client) -> None:
        """Compares the answers, and waits until all is recorded that the reader has."""
        self.compare()
        image, until = self.image(), time.monotonic() + PATIENCE
        while (recorded := recorded_position(client, 0)) != image.rebuilt:
            if recorded > image.rebuilt or time.monotonic() > until:
                raise Fault(f"recorded up to {recorded}, and not {image.rebuilt}")
        image.given = image.rebuilt


def try_part(tool: Path, seed: int, begin: int, end: int) -> Counter[str]:
    """Sends some of the datagrams to a server of their own."""
    chance = random.Random(f"{seed} {begin}")
    with served(tool) as (server, archive):
        known, client = geometry(chance), server.client()
        numbers = f"{known.initial_term} {known.term_length} {known.mtu} {known.segment_length} {known.start}"
        expect("start", list(client.ask(f"start {STREAM_ID} {known.session_id} {numbers} 1000 c")), ["started 0 0"])
        sender = Sender(server, known, chance)
        sender.send(setup(known, known.session_id))
        sender.try_setups()
        while sender.sent < end - begin:
            text = sender.datagram()
            if sender.receiver.is_certain(text):
                sender.send(text)
            image = sender.image()
            if image.rebuilt - image.given > STOCK // 4:
                sender.settle(client)
            elif sender.is_full():
                sender.compare()
        sender.settle(client)
        client.close()
        memory, image = server.memory(), sender.image()
        expect("the next client", server.ask("list 0 0"), ["end 0"])
        server.quit()
        counts, receiver = server.counts(), sender.receiver
        told = [counts[name] for name in ("datagrams", "images", "datagrams lost", "NAKs", "bytes recorded")]
        right = [sender.sent, len(receiver.images), receiver.lost, receiver.naks, image.rebuilt - known.start]
        expect("datagrams, images, datagrams lost, NAKs and bytes recorded", told, right)
        expect_calm(server.errors())
        frames = [f"frame {at} {frame.encoding().hex()}" for at, frame in image.chain]
        if replayed(tool, archive, 0, -1, len(frames)) != frames:
            raise Fault(f"datagrams {begin} of seed {seed}: not the {len(frames)} frames that the reader has")
        if memory > MOST_MEMORY:
            raise Fault(f"{memory} MB")
    counts = {"datagrams": sender.sent, "NAKs": receiver.naks, "lost": receiver.lost, "images": len(receiver.images)}
    return Counter(counts | {"frames": len(frames)})


def main() -> int:
    words = trial_words(__doc__)
    words.add_argument("--datagrams", type=int, default=1_000_000)
    words.add_argument("--jobs", type=int, default=os.cpu_count())
    asked = words.parse_args()
    tool = program(asked.program)
    print(f"seed {asked.seed}", flush=True)
    parts = [(tool, asked.seed, begin, min(begin + PART, asked.datagrams)) for begin in range(0, asked.datagrams, PART)]
    counted = in_parts(try_part, parts, asked.jobs, 0)
    print(", ".join(f"{count} {what}" for what, count in counted.items()) + ": each answer is the reader's")
    return 0


if __name__ == "__main__":
    conclude(main)
