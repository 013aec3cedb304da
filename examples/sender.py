#!/usr/bin/env python3
"""A small sender of an Aeron stream over UDP: each line of standard input is a message. docs/SERVING.md, "Who can send".

Usage: examples/sender.py --to HOST:PORT [--flow-control] [--control PORT] [--session N] [--stream N] [--term N]
                          [--term-length N] [--mtu N] [--rate N] [--position N] [--linger SECONDS] < messages

It begins with a setup frame, paces its frames, sends heartbeats after the last of them, and sends again what NAK frames ask
for. It keeps all that it sent. No receiver says what it received, so the sender lingers after its last message.

With --flow-control it follows the status messages of a receiver, as an Aeron media driver does:
- It sends a setup frame each 100 milliseconds until the first status message, and one more if a status message asks for it.
- It never sends past the limit: a status message's consumed position and its window, the greatest that came. A pad counts by its
  header, so the stream may come further.
- It sends a heartbeat each 100 milliseconds while it is held at the limit, or has no message.
- It answers a NAK frame from half a term before what it has sent, and none for what it has sent again in the last 60 milliseconds.
- It takes the receiver for gone after 5 seconds without a status message. It sends no frame until the next one comes.
- After its last message it waits until the receiver has consumed all, or is gone, before it lingers. The status is 1 if it is gone.

With --control it has its stream recorded, by that port of a server on this machine. docs/SERVING.md, "After a restart":
- It starts a recording of its stream, or extends the last one, and sends from where that begins or ends.
- Without --flow-control it stays within half a term, and 131,072 bytes, of what `positions` shows.
- After a restart of the server it does the same again, and sends all frames from there once more.
- It ends once all is recorded. The status is 1 if a line is refused, or another client stopped the recording.
"""
import argparse
import math
import os
import select
import socket
import struct
import sys
import time
from collections.abc import Iterable, Iterator
from typing import BinaryIO, NamedTuple

from client import Client

HEADER_LENGTH = 32
UNFRAGMENTED = 0xC0
PAD, MESSAGE, NAK, STATUS, SETUP = 0, 1, 2, 3, 5
ASKS_FOR_SETUP = 0x80  # a flag of a status message
SETUP_SECONDS = HEARTBEAT_SECONDS = 0.1
RECEIVER_SECONDS = 5  # without a status message a receiver is gone
RETRANSMIT_SECONDS = 0.06  # in which frames are sent again once
CATCH_UP_SECONDS = 0.1  # of its rate, after the sender was held
IDLE_SECONDS = 0.01
LOOK_SECONDS = 0.05  # between two questions to the control port
ANSWER_SECONDS = 1  # for a line's answer: another client may have the connection
LONGEST_WINDOW = 131_072  # bytes past the recorded position, without flow control
SEGMENT_LENGTH = 2**30


def aligned(length: int) -> int:
    """A length, rounded up to a multiple of 32."""
    return -(-length // 32) * 32


def kind_of(datagram: bytes) -> int:
    """The type of a datagram's first frame; -1 if it has none."""
    return struct.unpack_from("<H", datagram, 6)[0] if len(datagram) >= 8 else -1


class StatusMessage(NamedTuple):
    """What a receiver says by a status message. The limit is the consumed position and the receiver window."""

    asks_for_setup: bool
    consumed: int
    limit: int


class Publication:
    """A stream from a position on, and all frames of it that were made."""

    def __init__(
        self, session_id: int, stream_id: int, initial_term_id: int, term_length: int, mtu: int, position: int = 0
    ) -> None:
        self.session_id, self.stream_id, self.initial_term_id = session_id, stream_id, initial_term_id
        self.term_length, self.mtu = term_length, mtu
        self.position = position
        self.frames: dict[int, tuple[bytes, int]] = {}  # by position: the encoding, and how many bytes of the stream it covers

    def place(self, position: int) -> tuple[int, int]:
        """The term id and the term offset of a position."""
        terms, offset = divmod(position, self.term_length)
        term_id = self.initial_term_id + terms
        return (term_id + 2**31) % 2**32 - 2**31, offset

    def position_of(self, term_id: int, offset: int) -> int:
        """The position of a term id and a term offset."""
        return (term_id - self.initial_term_id) % 2**32 * self.term_length + offset

    def header(self, kind: int, flags: int, length: int, position: int | None = None) -> bytes:
        """A frame's header at a position, else at the one that the stream has come to."""
        term_id, offset = self.place(self.position if position is None else position)
        return struct.pack(
            "<iBBHiiiiq", length, 0, flags, kind, offset, self.session_id, self.stream_id, term_id, 0
        )

    def setup(self, position: int | None = None) -> bytes:
        """The setup frame, by which a receiver joins at a position, else where the stream has come to."""
        term_id, offset = self.place(self.position if position is None else position)
        terms = self.initial_term_id, term_id, self.term_length, self.mtu, 0
        return struct.pack("<iBBHiii5i", 40, 0, 0, SETUP, offset, self.session_id, self.stream_id, *terms)

    def heartbeat(self, position: int | None = None) -> bytes:
        """A heartbeat, which says that the sender stands at a position, else where the stream has come to."""
        return self.header(MESSAGE, UNFRAGMENTED, 0, position)

    def add(self, payload: bytes) -> Iterator[bytes]:
        """The frames of a message: a pad before it, if its term has no room for it."""
        length = HEADER_LENGTH + len(payload)
        if length > self.mtu:
            raise ValueError(f"a message of {len(payload)} bytes is longer than the MTU of {self.mtu} has room for")
        room = self.term_length - self.position % self.term_length
        if aligned(length) > room:
            yield self.keep(self.header(PAD, UNFRAGMENTED, room), room)
        yield self.keep(self.header(MESSAGE, UNFRAGMENTED, length) + payload, aligned(length))

    def keep(self, frame: bytes, covers: int) -> bytes:
        """Keeps a frame; the stream goes on after it."""
        self.frames[self.position] = frame, covers
        self.position += covers
        return frame

    def has(self, position: int) -> bool:
        """Whether all of the stream from a position on was kept."""
        return position in self.frames or position == self.position

    def range_of(self, nak: bytes) -> range:
        """The positions that a NAK frame asks for, if it is one of this stream."""
        if len(nak) < 28:
            return range(0)
        _, _, _, kind, session_id, stream_id, term_id, offset, length = struct.unpack_from("<iBBHiiiii", nak)
        if (kind, session_id, stream_id) != (NAK, self.session_id, self.stream_id):
            return range(0)
        begin = self.position_of(term_id, offset)
        return range(begin, begin + length)

    def asked_for(self, nak: bytes) -> Iterator[bytes]:
        """The frames that a NAK frame asks for, if it is one of this stream."""
        asked = self.range_of(nak)
        position = asked.start
        while position in asked and position in self.frames:
            frame, covers = self.frames[position]
            yield frame
            position += covers

    def status(self, datagram: bytes) -> StatusMessage | None:
        """What a status message says, if it is one of this stream."""
        if len(datagram) < 36:
            return None
        _, _, flags, kind, session_id, stream_id, term_id, offset, window, _ = struct.unpack_from("<iBBHiiiiiq", datagram)
        if (kind, session_id, stream_id) != (STATUS, self.session_id, self.stream_id):
            return None
        consumed = self.position_of(term_id, offset)
        return StatusMessage(bool(flags & ASKS_FOR_SETUP), consumed, consumed + window)


class Sender:
    """Sends a publication to an address, and again what is asked for."""

    def __init__(self, publication: Publication, address: tuple[str, int]) -> None:
        self.publication, self.address = publication, address
        self.socket = socket.socket(socket.AF_INET, socket.SOCK_DGRAM)
        self.sent = self.repeated = self.naks = 0

    def send(self, datagram: bytes) -> None:
        self.socket.sendto(datagram, self.address)

    def take(self, datagram: bytes) -> None:
        """Sends the frames again that a NAK frame asks for."""
        if kind_of(datagram) != NAK:
            return
        self.naks += 1
        for frame in self.publication.asked_for(datagram):
            self.send(frame)
            self.repeated += 1

    def repeat(self, seconds: float) -> None:
        """Answers the NAK frames that come within so many seconds."""
        until = time.monotonic() + seconds
        while select.select([self.socket], [], [], max(0.0, until - time.monotonic()))[0]:
            self.take(self.socket.recv(65_536))

    def run(self, messages: Iterable[bytes], rate: float, linger: float) -> None:
        """Sends messages, so many frames a second, and then heartbeats for so many seconds."""
        self.send(self.publication.setup())
        begun = time.monotonic()
        for message in messages:
            for frame in self.publication.add(message):
                self.send(frame)
                self.sent += 1
            self.repeat(max(0.0, begun + self.sent / rate - time.monotonic()))
        until = time.monotonic() + linger
        while time.monotonic() < until:
            self.send(self.publication.heartbeat())
            self.repeat(HEARTBEAT_SECONDS)

    def is_done(self) -> bool:
        """Whether the receiver has all, as far as the sender knows."""
        return True


class FlowControlled(Sender):
    """A sender that follows the status messages of a receiver."""

    def __init__(self, publication: Publication, address: tuple[str, int]) -> None:
        super().__init__(publication, address)
        self.status_came = self.last_sent = -math.inf
        self.answered: list[tuple[float, range]] = []  # what was sent again, and when
        self.go_to(publication.position)

    def go_to(self, position: int) -> None:
        """Sends the stream from there on, to a receiver that knows nothing of it."""
        self.position = position  # up to here the stream was sent: it may have come further
        self.consumed = self.limit = position
        self.was_connected = self.is_connected = self.owes_setup = False
        self.setup_sent = -math.inf

    def take(self, datagram: bytes) -> None:
        """Follows a status message, and answers a NAK frame."""
        now = time.monotonic()
        status = self.publication.status(datagram)
        asked = self.publication.range_of(datagram)
        if asked and (not self.is_kept(asked) or self.is_answered(asked, now)):
            self.naks += 1
        elif status is None:
            super().take(datagram)
        elif status.asks_for_setup:
            self.owes_setup = True
        else:
            self.was_connected = self.is_connected = True
            self.status_came = now
            self.consumed = max(self.consumed, status.consumed)
            self.limit = max(self.limit, status.limit)

    def is_kept(self, asked: range) -> bool:
        """Whether a driver would still have it in its term buffers: it begins at most half a term before what was sent."""
        return self.position - self.publication.term_length // 2 <= asked.start < self.position

    def is_answered(self, asked: range, now: float) -> bool:
        """Whether positions were sent again lately. If not, it notes that they are sent now."""
        self.answered = [(at, sent) for at, sent in self.answered if now - at < RETRANSMIT_SECONDS]
        if any(sent.start <= asked.start and asked.stop <= sent.stop for _, sent in self.answered):
            return True
        self.answered.append((now, asked))
        return False

    def send_next(self) -> bool:
        """Sends the next frame, if there is a receiver that has room for it; whether it did."""
        frame, covers = self.publication.frames[self.position]
        if not self.is_connected or self.position + aligned(len(frame)) > self.limit:
            return False
        self.send(frame)
        self.position += covers
        self.sent += 1
        self.last_sent = time.monotonic()
        return True

    def send_due(self, now: float) -> None:
        """Sends the setup frame and the heartbeat that are due, and notes that the receiver is gone."""
        if (self.owes_setup or not self.was_connected) and now - self.setup_sent >= SETUP_SECONDS:
            self.send(self.publication.setup(self.position))
            self.setup_sent, self.owes_setup = now, False
        if self.was_connected and now - self.last_sent >= HEARTBEAT_SECONDS:
            self.send(self.publication.heartbeat(self.position))
            self.last_sent = now
        if self.is_connected and now - self.status_came >= RECEIVER_SECONDS:
            self.is_connected = False
            print(f"the receiver is gone: no status message for {RECEIVER_SECONDS} seconds", file=sys.stderr, flush=True)

    def tend(self, seconds: float) -> None:
        """Sends what is due. Then takes the datagrams that come; it waits for the first one at most so many seconds."""
        self.send_due(time.monotonic())
        while select.select([self.socket], [], [], seconds)[0]:
            self.take(self.socket.recv(65_536))
            seconds = 0.0

    def tend_until(self, until: float) -> None:
        while (seconds := until - time.monotonic()) > 0:
            self.tend(min(seconds, IDLE_SECONDS))

    def run(self, messages: Iterable[bytes | None], rate: float, linger: float) -> None:
        """Sends messages, at most so many a second; None says that the next message is not there yet."""
        due = time.monotonic()
        for message in messages:
            if message is None:
                self.tend(IDLE_SECONDS)
                continue
            for _ in self.publication.add(message):
                self.flush()
            self.tend(0.0)
            due = max(due, time.monotonic() - CATCH_UP_SECONDS) + 1 / rate
            self.tend_until(due)
        self.await_end()
        self.tend_until(time.monotonic() + linger)

    def flush(self) -> None:
        """Sends all frames that were not sent, once the receiver has room for them."""
        while self.position < self.publication.position:
            if not self.send_next():
                self.tend(IDLE_SECONDS)

    def await_end(self) -> None:
        """Waits until the receiver has consumed all, or is gone."""
        while self.is_connected and self.consumed < self.position:
            self.tend(IDLE_SECONDS)

    def is_done(self) -> bool:
        return self.consumed >= self.publication.position


class Refused(Exception):
    """Why a stream can't be recorded."""


class Control:
    """The control port of a server, by which a stream is recorded. Each line has a connection of its own.

    A call raises OSError if no answer comes, and Refused if a line is refused.
    """

    def __init__(self, port: int, publication: Publication, channel: str) -> None:
        self.address, self.publication, self.channel = ("127.0.0.1", port), publication, channel
        self.recording = -1

    def ask(self, line: str) -> list[str]:
        """The lines of a line's answer."""
        client = Client(self.address, ANSWER_SECONDS)
        try:
            answer = list(client.ask(line))
        finally:
            client.close()
        if not answer:
            raise ConnectionError("the connection was closed")
        return answer

    def numbers(self, line: str) -> list[int]:
        """The numbers of an answer of one line."""
        word, *numbers = self.ask(line)[0].split()
        if word == "error":
            raise Refused(f"{line}: {word} {' '.join(numbers)}")
        return [int(it) for it in numbers]

    def recorded(self) -> tuple[int, bool]:
        """Up to where the recording goes, and whether it is active."""
        _, recorded, stop = self.numbers(f"positions {self.recording}")
        return recorded, stop == -1

    def was_stopped(self) -> bool:
        """Whether a client stopped the recording: an opening leaves no timestamp."""
        return self.ask(f"list {self.recording} 1")[0].split()[3] != "-1"

    def joined(self) -> int | None:
        """Where the stream's image joined, if the server has one and says so, as `serve --aeron` does."""
        ids = [str(self.publication.session_id), str(self.publication.stream_id)]
        for fields in (line.split() for line in self.ask("images")):
            if fields[0] == "image" and fields[2:4] == ids:
                if fields[8] != "-":
                    raise Refused(f"session id {ids[0]} fed another recording: take another one")
                return int(fields[7])
        return None

    def begin(self) -> int:
        """Has the stream recorded. Gives the position from which on it has to be sent."""
        stream = self.publication
        ids, terms = f"{stream.stream_id} {stream.session_id}", f"{stream.initial_term_id} {stream.term_length} {stream.mtu}"
        (last,) = self.numbers(f"find 0 {ids} {self.channel}")
        _, end, stop = self.numbers(f"positions {last}") if last >= 0 else (0, -1, 0)
        position = end if stop == -1 else self.joined()
        if position is None:
            position = end if stream.has(end) else stream.position
        if not stream.has(position):
            raise Refused(f"recording {last} ends at {end}, and the server waits for {position}, which is not kept")
        self.recording = last
        if stop == -1:
            self.say(f"recording {last} is at {end}")
        elif position == end:
            self.numbers(f"extend {last} {ids} {terms} {end}")
            self.say(f"recording {last} goes on at {end}")
        else:
            lengths = f"{terms} {max(SEGMENT_LENGTH, stream.term_length)}"
            self.recording, _ = self.numbers(f"start {ids} {lengths} {position} {time.time_ns() // 10**6} {self.channel}")
            self.say(f"recording {self.recording} begins at {position}" + (f", recording {last} ended at {end}" if last >= 0 else ""))
        return position

    def say(self, text: str) -> None:
        print(text, file=sys.stderr, flush=True)


class Recorded(FlowControlled):
    """A sender that has its stream recorded by a server's control port, and goes back after a restart to where its recording ends.

    Without flow control it sends a window past the recorded position, in bytes.
    """

    def __init__(self, publication: Publication, address: tuple[str, int], control: Control, window: int | None) -> None:
        super().__init__(publication, address)
        self.control, self.window = control, window
        self.begun = self.recorded = publication.position
        self.looked = -math.inf

    def begin(self) -> None:
        """Has the stream recorded, once there is a server, and goes to where it has to be sent from."""
        while True:
            try:
                self.begun = self.control.begin()
                break
            except OSError:
                time.sleep(LOOK_SECONDS)
        self.recorded = self.begun
        self.go_to(self.begun)
        if self.window is not None:
            self.limit = self.begun + self.window
            self.was_connected = self.is_connected = True
            self.status_came = math.inf  # no status message is waited for
            self.send(self.publication.setup(self.begun))

    def look(self) -> None:
        """Asks how far the stream is recorded. Begins again if its recording is not active: the server was restarted."""
        try:
            self.recorded, is_active = self.control.recorded()
            if not is_active and self.control.was_stopped():
                raise Refused(f"a client stopped recording {self.control.recording} at {self.recorded}")
        except OSError:
            return
        finally:
            self.looked = time.monotonic()
        if not is_active:
            self.begin()
        elif self.window is not None:
            self.limit = self.recorded + self.window
            if self.recorded == self.begun:  # its setup frame may be lost
                self.send(self.publication.setup(self.begun))

    def send_due(self, now: float) -> None:
        """Looks before it answers a request for a setup frame: an image joins where the first one says."""
        if self.owes_setup or now - self.looked >= LOOK_SECONDS:
            self.look()
        super().send_due(now)

    def run(self, messages: Iterable[bytes | None], rate: float, linger: float) -> None:
        self.begin()
        super().run(messages, rate, linger)

    def await_end(self) -> None:
        """Waits until all is recorded."""
        while self.recorded < self.publication.position:
            self.flush()
            self.tend(IDLE_SECONDS)

    def is_done(self) -> bool:
        return self.recorded >= self.publication.position


def arriving(source: BinaryIO) -> Iterator[bytes | None]:
    """The lines of a file, and None whenever the next one is not there yet."""
    rest = b""
    while True:
        if not select.select([source], [], [], 0.0)[0]:
            yield None
            continue
        more = os.read(source.fileno(), 65_536)
        if not more:
            break
        *lines, rest = (rest + more).split(b"\n")
        yield from lines
    if rest:
        yield rest


def sender_for(asked: argparse.Namespace, publication: Publication, address: tuple[str, int]) -> Sender:
    """The sender that the words ask for."""
    if asked.control is not None:
        control = Control(asked.control, publication, f"aeron:udp?endpoint={asked.to}")
        window = None if asked.flow_control else min(LONGEST_WINDOW, publication.term_length // 2)
        return Recorded(publication, address, control, window)
    return FlowControlled(publication, address) if asked.flow_control else Sender(publication, address)


def main() -> int:
    words = argparse.ArgumentParser(description=__doc__, formatter_class=argparse.RawDescriptionHelpFormatter)
    words.add_argument("--to", required=True, metavar="HOST:PORT")
    words.add_argument("--session", type=int, default=7)
    words.add_argument("--stream", type=int, default=1_001)
    words.add_argument("--term", type=int, default=42, help="the initial term id")
    words.add_argument("--term-length", type=int, default=65_536)
    words.add_argument("--mtu", type=int, default=1_408)
    words.add_argument("--position", type=int, default=0, help="where the stream begins, or goes on after a restart of the server")
    words.add_argument("--rate", type=float, default=10_000, help="frames a second")
    words.add_argument("--linger", type=float, default=1, help="seconds of heartbeats after the last message")
    words.add_argument("--flow-control", action="store_true", help="follow the status messages of the receiver")
    words.add_argument("--control", type=int, metavar="PORT", help="have the stream recorded, by this port of 127.0.0.1")
    asked = words.parse_args()
    host, _, port = asked.to.rpartition(":")
    publication = Publication(asked.session, asked.stream, asked.term, asked.term_length, asked.mtu, asked.position)
    sender = sender_for(asked, publication, (host, int(port)))
    try:
        if isinstance(sender, FlowControlled):
            sender.run(arriving(sys.stdin.buffer), asked.rate, asked.linger)
        else:
            sender.run((line.rstrip(b"\n") for line in sys.stdin.buffer), asked.rate, asked.linger)
    except Refused as refused:
        sys.exit(str(refused))
    print(f"{sender.sent} frames, {publication.position} bytes of the stream, {sender.naks} NAKs, {sender.repeated} repeats")
    return 0 if sender.is_done() else 1


if __name__ == "__main__":
    sys.exit(main())
