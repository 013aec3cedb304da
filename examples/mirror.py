#!/usr/bin/env python3
"""Keeps a copy of a recording in another archive, which is recorded as it is sent. docs/SERVING.md, "A second archive".

Usage: examples/mirror.py ORIGIN-CONTROL-PORT COPY-ADDRESS:CONSUMERS-PORT RECORDING COPY-ADDRESS:RECEIVE-PORT

It runs on the origin's host. The origin is served with `--aeron` and `--send-to`, the copy with `--aeron`, `--record` and
`--consumers`. Each 200 milliseconds it looks at both. After a restart, a break of the network or a fault of either side it sends from
where the copy stands. If the copy has begun another recording of the publication, frames are missing between the two: it says which,
and ends with status 1. What the origin refuses, and a sending that ended refused, is tried again each 5 seconds. What it prints is
printed once, until something else happens.
"""
import sys
import time
from typing import NamedTuple, TextIO

from client import Client

LOOK = 0.2  # seconds between two looks
PATIENCE = 5  # seconds that an answer may take
AGAIN = 5  # seconds after which what was refused is tried again
STILL = 3  # seconds for which a copy may stand behind what it has consumed: it gives up after 5
NEXT = 64  # recordings that are asked for at once


class Descriptor(NamedTuple):
    """What a line `recording` says, as far as a copy is told by it."""

    recording: int
    start: int
    publication: tuple[str, ...]  # initial term, term length, MTU, session id and stream


class Gap(Exception):
    """The copy has another recording of the publication, and bytes between the two are in none."""


def descriptor_of(line: str) -> Descriptor:
    """The descriptor that a line `recording` prints: docs/CONTROL.md, "Lines"."""
    words = line.split(" ", 12)
    return Descriptor(int(words[1]), int(words[4]), (words[6], words[8], words[9], words[10], words[11]))


class End:
    """One of the two servers, asked by a connection that is made again if it breaks."""

    def __init__(self, address: tuple[str, int]) -> None:
        self.address = address
        self.client: Client | None = None
        self.is_new = True  # the connection was made since somebody noted it: it may be another server than before

    def ask(self, line: str) -> list[str]:
        """What a line is answered. OSError if the connection breaks; then the next line makes another one."""
        try:
            if self.client is None:
                self.is_new = True
                self.client = Client(self.address, PATIENCE)
            replies = list(self.client.ask(line))
        except OSError:
            self.drop()
            raise
        if not replies:
            self.drop()
            raise ConnectionError(f"{self.address[0]}:{self.address[1]} ended the connection")
        return replies

    def listed(self, line: str) -> list[str]:
        """What a line is answered by lines, without the last one. OSError too if it is refused."""
        *lines, end = self.ask(line)
        if not end.startswith("end "):
            raise ConnectionError(f"{self.address[0]}:{self.address[1]} answers {line.split()[0]} by {end}")
        return lines

    def drop(self) -> None:
        if self.client is not None:
            self.client.close()
            self.client = None

    def recordings(self, first: int = 0) -> list[Descriptor]:
        """All recordings from an id on."""
        found: list[Descriptor] = []
        while True:
            lines = self.listed(f"list {first} {NEXT}")
            found += map(descriptor_of, lines)
            if len(lines) < NEXT:
                return found
            first = found[-1].recording + 1

    def recorded(self, recording: int) -> int:
        """Up to where a recording is recorded."""
        answer = self.ask(f"positions {recording}")[0]
        if not answer.startswith("positions "):
            raise ConnectionError(f"{self.address[0]}:{self.address[1]} answers positions {recording} by {answer}")
        return int(answer.split()[2])


class Mirror:
    """A recording of the origin, and its copy."""

    def __init__(self, origin: End, copy: End, recording: int, to: str) -> None:
        self.origin, self.copy, self.recording, self.to = origin, copy, recording, to
        self.copied: Descriptor | None = None  # the copy's recording
        self.publication: tuple[str, ...] = ()
        self.stood, self.since = -1, 0.0  # where the copy stood, and since when it does, or is sent to from there
        self.not_before = 0.0  # when it sends again, after a refusal

    def look(self) -> None:
        """Sees that the origin sends, from where the copy stands if it has to begin anew."""
        if not self.publication:
            self.publication = self.descriptor().publication
        stand = self.stand()
        number, state, consumed = self.sending()
        now = time.monotonic()
        if stand != self.stood:
            self.stood, self.since = stand, now
        if not self.copy.is_new and (self.goes_on(state, stand, consumed, now) or now < self.not_before):
            return
        if number is not None:
            self.origin.ask(f"stop-sending {number}")
        answer = self.origin.ask(f"send {self.recording} {stand} -1 {self.to}")[0]
        self.copy.is_new, self.since = False, time.monotonic()
        is_refused = state == "refused" or answer.startswith("error ")
        self.not_before = time.monotonic() + AGAIN if is_refused else 0.0
        say(f"from {stand}: {answer}")

    def goes_on(self, state: str, stand: int, consumed: int, now: float) -> bool:
        """Whether nothing has to be done: it is sent, or all of a stopped recording was. A copy that stands still behind what it has
        consumed has lost that."""
        if state == "done":
            return self.origin.recorded(self.recording) == stand
        is_behind = 0 <= stand < consumed
        return state in ("waiting", "sending") and not (is_behind and now - self.since >= STILL)

    def descriptor(self) -> Descriptor:
        lines = self.origin.listed(f"list {self.recording} 1")
        found = descriptor_of(lines[0]) if lines else None
        if found is None or found.recording != self.recording:
            raise ConnectionError(f"the origin has no recording {self.recording} yet")
        return found

    def stand(self) -> int:
        """Up to where the copy is recorded; -1 if it has no recording of the publication."""
        copies = [each for each in self.copy.recordings() if each.publication == self.publication]
        if not copies:
            if self.copied is not None:  # it was purged
                self.copied, self.copy.is_new = None, True
            return -1
        last = copies[-1]
        if self.copied is not None and last.recording != self.copied.recording:
            self.find_gap(self.copied, copies)
        self.copied = last
        return self.copy.recorded(last.recording)

    def find_gap(self, copied: Descriptor, copies: list[Descriptor]) -> None:
        """Sees whether bytes are in no recording of the copy. Of one that was purged all are."""
        last = copies[-1]
        is_there = any(each.recording == copied.recording for each in copies)
        end = self.copy.recorded(copied.recording) if is_there else copied.start
        if is_there or end < last.start:
            raise Gap(f"the copy has begun recording {last.recording}: the bytes from {end} to {last.start} are in none")

    def sending(self) -> tuple[str | None, str, int]:
        """The sending's number, its state, and how far the copy has consumed it: the last one of the recording to the copy."""
        found: tuple[str | None, str, int] = None, "", 0
        for line in self.origin.listed("sends"):
            words = line.split()
            if words[2:4] == [str(self.recording), self.to]:
                found = words[1], words[4], int(words[7])
        return found


told: list[str] = []  # what was printed last


def say(text: str, out: TextIO = sys.stdout) -> None:
    """Prints a line, unless it is the one that was printed last."""
    if told != [text]:
        told[:] = [text]
        print(text, file=out, flush=True)


def address_of(word: str) -> tuple[str, int]:
    host, _, port = word.rpartition(":")
    return host, int(port)


def main() -> int:
    if len(sys.argv) != 5:
        sys.exit(__doc__)
    control, consumers, recording, to = sys.argv[1:]
    mirror = Mirror(End(("127.0.0.1", int(control))), End(address_of(consumers)), int(recording), to)
    while True:
        try:
            mirror.look()
        except OSError as error:
            say(f"waits: {error}", sys.stderr)
        except Gap as gap:
            print(gap, file=sys.stderr)
            return 1
        time.sleep(LOOK)


if __name__ == "__main__":
    try:
        sys.exit(main())
    except KeyboardInterrupt:
        sys.exit(0)
