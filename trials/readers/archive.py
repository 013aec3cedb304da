"""Answers well-formed control lines as docs/CONTROL.md says, over files in memory.

Callers stay below the limits of the history, of recordings and of sessions. They close the replays of a recording before they truncate
or purge it.
"""
from collections.abc import Iterable, Mapping
from dataclasses import dataclass, field, replace
from pathlib import Path

from readers.blocks import BAD_BLOCK, BAD_PARAMETER, BAD_POSITION, Merge, begun, block_of
from readers.catalogue import (
    BANKS, EXTEND, LARGEST, NEWEST, PURGE_RECORDING, PURGE_SEGMENTS, RESTART, SETTLE, START, STOP, TRUNCATE, Entry,
    Recording, Refused, Register, asks, read_banks,
)
from readers.segments import Reader, stale_files

MOST_REPLAYS = 64


@dataclass
class Session:
    """A recorder session: its recording, and the positions from which and to which it wrote without a settle."""

    recording: int
    first: int
    end: int


@dataclass
class Replay:
    """An open replay: its recording, its next position and its bound."""

    recording: int
    next: int
    bound: int


@dataclass
class Archive:
    """An open archive: its segment files, and the state that its entries make."""

    files: dict[str, bytes]
    register: Register
    sessions: dict[int, Session] = field(default_factory=dict)
    replays: dict[int, Replay] = field(default_factory=dict)
    next_session: int = 0
    next_replay: int = 0
    merge: Merge | None = None

    def reader(self) -> Reader:
        """The reader of its segment files."""
        return Reader(self.files.get)

    def answer(self, line: str) -> list[str]:
        """The reply to a line."""
        word, *rest = line.split(" ")
        try:
            if word in ("block", "write"):
                return [self.write(int(rest[0]), bytes.fromhex(rest[1]), word == "block")]
            if word.startswith("merge"):
                return [self.merging(word, rest)]
            if word in ("start", "start-from"):
                source, *rest = rest if word == "start-from" else ["", *rest]
                return [self.start(*map(int, rest[:8]), " ".join(rest[8:]).encode(), source.encode())]
            told = getattr(self, "listing" if word == "list" else word.replace("-", "_"))(*map(int, rest))
        except Refused as refused:
            return [str(refused)]
        return [told] if isinstance(told, str) else told

    def answers(self, lines: Iterable[str]) -> list[str]:
        """The replies to several lines."""
        return [told for line in lines for told in self.answer(line)]

    def known(self, number: int) -> Recording:
        """The recording of an id."""
        asks(number in self.register.recordings, "error 1 UnknownRecording")
        return self.register.recordings[number]

    def take(self, kind: int, *numbers: int) -> None:
        """Makes the change of a command."""
        self.register.take(Entry(kind, numbers))

    def begin_session(self, number: int) -> int:
        """Opens a session of a recording. Returns its number."""
        end = self.known(number).recorded
        self.sessions[self.next_session] = Session(number, end, end)
        self.next_session += 1
        return self.next_session - 1

    def start(
        self, stream: int, session: int, term: int, term_length: int, mtu: int, segment: int, begin: int, timestamp: int, *texts: bytes
    ) -> str:
        channel, source = texts
        number = self.register.next_id
        origin = term, segment, term_length, mtu, session, stream, channel
        made = Recording(number, timestamp, begin, *origin, begin, True, source=source)
        asks(replace(self.register, version=NEWEST).admits(Entry(START, made=made)), BAD_PARAMETER)
        asks(self.register.admits(Entry(START, made=made)), "error 23 NeedCompact")
        self.register.take(Entry(START, made=made))
        return f"started {number} {self.begin_session(number)}"

    def extend(self, number: int, stream: int, session: int, term: int, term_length: int, mtu: int, join: int) -> str:
        known = self.known(number)
        asks(not known.is_active, "error 2 ActiveRecording")
        its_own = known.stream_id, known.initial_term, known.term_length, known.mtu, known.recorded
        asks(its_own == (stream, term, term_length, mtu, join), "error 6 BadExtension")
        self.take(EXTEND, number, session)
        return f"extended {self.begin_session(number)}"

    def write(self, session: int, text: bytes, is_settled: bool) -> str:
        asks(session in self.sessions, "error 12 StaleSession")
        writer = self.sessions[session]
        known = self.known(writer.recording)
        begin, stored, end = block_of(text, known)
        asks(begin == writer.end, BAD_BLOCK)
        asks(known.base(begin) == known.base(writer.first) or writer.first == begin, "error 14 NeedSettle")
        name, at = known.file(begin)
        before = self.files.get(name, b"")
        self.files[name] = before[:at].ljust(at, b"\x00") + stored + before[at + len(stored) :]
        writer.end = end
        return self.settle(session) if is_settled else f"written {end}"

    def merging(self, word: str, rest: list[str]) -> str:
        """The reply to a line to a merge."""
        if word == "merge":
            self.merge = begun(*map(int, rest))
            return f"merge {self.merge.cursor}"
        asks(self.merge is not None, "error 9 UnknownReplay")
        if word in ("merge-take", "merge-state"):
            return self.merge.take() if word == "merge-take" else self.merge.state()
        return self.merge.offer(bytes.fromhex(rest[0]), word == "merge-live")

    def settle(self, session: int) -> str:
        asks(session in self.sessions, "error 12 StaleSession")
        writer = self.sessions[session]
        if writer.first < writer.end:
            self.take(SETTLE, writer.recording, writer.end)
            writer.first = writer.end
        return f"settled {writer.end}"

    def end_sessions(self) -> None:
        """Closes the sessions of stopped recordings."""
        self.sessions = {each: writer for each, writer in self.sessions.items() if self.register.recordings[writer.recording].is_active}

    def stop(self, number: int, timestamp: int) -> str:
        asks(timestamp >= 0, BAD_PARAMETER)
        asks(self.known(number).is_active, "error 3 NotActive")
        self.take(STOP, number, timestamp)
        self.end_sessions()
        return f"stopped {self.known(number).recorded}"

    def at_boundary(self, known: Recording, position: int) -> None:
        """Refuses a position that is not a boundary of a recording."""
        asks(known.start <= position <= known.recorded and self.reader().is_boundary(known, position), BAD_POSITION)

    def truncate(self, number: int, position: int) -> str:
        known = self.known(number)
        asks(not known.is_active, "error 2 ActiveRecording")
        asks(position % 32 == 0, BAD_POSITION)
        self.at_boundary(known, position)
        self.take(TRUNCATE, number, position)
        return f"truncated {position}"

    def purge_segments(self, number: int, position: int) -> str:
        known = self.known(number)
        asks(self.register.admits(Entry(PURGE_SEGMENTS, (number, position))), BAD_POSITION)
        self.take(PURGE_SEGMENTS, number, position)
        return f"purged {(position - known.base(known.start)) // known.segment_length}"

    def purge(self, number: int) -> str:
        asks(not self.known(number).is_active, "error 2 ActiveRecording")
        self.take(PURGE_RECORDING, number)
        return "purged-recording"

    def listing(self, least: int, count: int) -> list[str]:
        asks(least >= 0 and 0 <= count <= 1_024, BAD_PARAMETER)
        told = [each.line() for each in self.register.listed() if each.number >= least][:count]
        return [*told, f"end {len(told)}"]

    def positions(self, number: int) -> str:
        known = self.known(number)
        return f"positions {known.start} {known.recorded} {-1 if known.is_active else known.recorded}"

    def replay(self, number: int, position: int, length: int) -> str:
        asks(position >= -1 and length >= -1, BAD_PARAMETER)
        known = self.known(number)
        begin = known.start if position == -1 else position
        self.at_boundary(known, begin)
        asks(len(self.replays) < MOST_REPLAYS, "error 8 MaxReplays")
        self.replays[self.next_replay] = Replay(number, begin, LARGEST if length == -1 else min(begin + length, LARGEST))
        self.next_replay += 1
        return f"replay {self.next_replay - 1}"

    def poll(self, number: int, most: int) -> list[str]:
        asks(1 <= most <= 4_096, BAD_PARAMETER)
        asks(number in self.replays, "error 9 UnknownReplay")
        replay = self.replays[number]
        told, replay.next = self.reader().poll(self.known(replay.recording), replay.next, replay.bound, most)
        return told

    def close(self, number: int) -> str:
        asks(number in self.replays, "error 9 UnknownReplay")
        del self.replays[number]
        return "closed"

    def sweep(self) -> str:
        stale = stale_files(self.register, self.files)
        for name in stale[:1]:
            del self.files[name]
        return f"swept {len(stale[:1])}"

    def verify(self, number: int) -> str:
        return self.reader().verify(self.known(number))

    def reopen(self) -> str:
        stopped = len(self.register.active())
        self.take(RESTART)
        self.sessions, self.replays, self.next_session, self.next_replay = {}, {}, 0, 0
        return f"reopened {stopped}"

    def source(self, number: int) -> str:
        text = self.known(number).source
        return f"source {len(text)} {text.decode()}".rstrip()

    def compact(self) -> str:
        self.reopen()
        self.register.counted, self.register.version = 0, NEWEST
        return "compacted"


def files_of(folder: Path) -> dict[str, bytes]:
    """The files of a folder by name."""
    return {path.name: path.read_bytes() for path in folder.iterdir()}


def looked_at(files: Mapping[str, bytes]) -> Archive:
    """The archive in some files, with no recording stopped. Raises Refused if its catalogue can't be opened."""
    register = read_banks(files.get).register
    return Archive({name: text for name, text in files.items() if name not in BANKS}, replace(register, recordings=dict(register.recordings)))


def opened(files: Mapping[str, bytes]) -> Archive:
    """The archive in some files after an opening."""
    archive = looked_at(files)
    archive.reopen()
    return archive
