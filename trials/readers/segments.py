"""Reads segment files as docs/STORAGE.md and docs/PROTOCOL.md describe them. Nothing here is taken from the program."""
import re
import struct
from collections.abc import Iterable, Iterator
from dataclasses import dataclass, replace
from itertools import islice

from readers.catalogue import LARGEST, Files, Recording, Refused, Register, damaged

SEGMENT = re.compile(r"(0|[1-9]\d*)-(0|[1-9]\d*)\.rec")
HEADER = struct.Struct("<iBBHiiiiq")  # docs/PROTOCOL.md, "Data and pad header"
PAD, DATA = 0, 1


def segment_of(name: str) -> re.Match[str] | None:
    """The recording and the base in the name of a segment file, None if it has another name: docs/STORAGE.md, "Folders"."""
    match = SEGMENT.fullmatch(name)
    return match if match and max(map(int, match.groups())) <= LARGEST else None


def aligned(length: int) -> int:
    """A length, rounded up to a multiple of 32."""
    return -(-length // 32) * 32


# Frames: docs/PROTOCOL.md, "Data and pad header", "Fronts".


@dataclass(frozen=True)
class Frame:
    """The header of a frame and the payload of a message."""

    length: int
    version: int
    flags: int
    kind: int
    offset: int
    session_id: int
    stream_id: int
    term_id: int
    reserved: int
    payload: bytes = b""

    def encoding(self) -> bytes:
        """The header, followed by a message's payload."""
        numbers = self.length, self.version, self.flags, self.kind, self.offset
        return HEADER.pack(*numbers, self.session_id, self.stream_id, self.term_id, self.reserved) + self.payload


def stored_frame(text: bytes, at: int) -> Frame | None:
    """The message or pad whose whole encoding is at an offset, None if there is none."""
    if not 0 <= at <= len(text) - HEADER.size:
        return None
    frame = Frame(*HEADER.unpack_from(text, at))
    has_place = frame.version == 0 and frame.offset >= 0 and frame.offset % 32 == 0
    if not has_place or frame.kind not in (PAD, DATA) or frame.length < HEADER.size:
        return None
    if frame.kind == PAD:
        return frame
    payload = text[at + HEADER.size : at + frame.length]
    return replace(frame, payload=payload) if len(payload) == frame.length - HEADER.size else None


def frames_of_file(text: bytes) -> list[str]:
    """What `frames` prints for a segment file: docs/CONTROL.md, "Frames of a file"."""
    told: list[str] = []
    at = 0
    while at < len(text) and text[at : at + 4] != bytes(4):
        frame = stored_frame(text, at)
        if frame is None:
            return [*told, f"error 21 BadFrame {at}"]
        told.append(f"frame {frame.term_id} {frame.offset} {frame.kind} {frame.length} {frame.flags:02x}")
        at += aligned(frame.length)
    return [*told, f"end {len(told)}"]


@dataclass
class Reader:
    """What segment files show of recordings: docs/STORAGE.md, "Damaged frames"."""

    files: Files

    def shown(self, known: Recording, position: int) -> Frame | None:
        """The frame that a recording's file shows at a position, None if the position is damaged."""
        name, offset = known.file(position)
        frame = stored_frame(self.files(name) or b"", offset)
        if frame is None:
            return None
        term, at = divmod(position, known.term_length)
        is_placed = term < 2**31 and (frame.term_id - known.initial_term - term) % 2**32 == 0 and frame.offset == at
        ends = at + aligned(frame.length) <= known.term_length and position + aligned(frame.length) <= known.recorded
        return frame if is_placed and ends and frame.stream_id == known.stream_id else None

    def frames(self, known: Recording, begin: int, limit: int) -> Iterator[tuple[int, Frame]]:
        """The frames from a boundary on that begin before a limit. Raises Refused at the first damaged position."""
        position = begin
        while position < limit:
            frame = self.shown(known, position)
            if frame is None:
                raise Refused(damaged(known.number, position))
            yield position, frame
            position += aligned(frame.length)

    def verify(self, known: Recording) -> str:
        """The answer to `verify`: docs/STORAGE.md, "What verify finds"."""
        try:
            return f"verified {sum(1 for _ in self.frames(known, known.start, known.recorded))}"
        except Refused as refused:
            return str(refused)

    def is_boundary(self, known: Recording, position: int) -> bool:
        """Whether a recorded position is a boundary: docs/STORAGE.md, "Boundaries". Raises Refused if damage of its term comes first."""
        if position == known.recorded:
            return True
        end = max(known.start, position - position % known.term_length)
        for at, frame in self.frames(known, end, position):
            end = at + aligned(frame.length)
        return end == position

    def poll(self, known: Recording, begin: int, bound: int, most: int) -> tuple[list[str], int]:
        """The answer to a poll, and the replay's next position: docs/CONTROL.md, "Replays"."""
        told: list[str] = []
        position = begin
        try:
            for at, frame in islice(self.frames(known, begin, min(bound, known.recorded)), most):
                told.append(f"frame {at} {frame.encoding().hex()}")
                position = at + aligned(frame.length)
        except Refused as refused:
            return [str(refused)], begin
        is_done = position >= bound or (not known.is_active and position == known.recorded)
        return [*told, "done" if is_done else f"more {position}"], position


def stale_files(register: Register, names: Iterable[str]) -> list[str]:
    """The segment files that sweeps remove, in order: docs/STORAGE.md, "Stale files"."""
    found = []
    for name in names:
        if match := segment_of(name):
            number, base = int(match[1]), int(match[2])
            known = register.recordings.get(number)
            if not known.keeps(base) if known else number < register.next_id:
                found.append((number, base, name))
    return [name for _, _, name in sorted(found)]
