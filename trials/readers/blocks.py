"""Reads datagrams and blocks, and merges streams, as docs/PROTOCOL.md describes it. Nothing here is taken from the program."""
from dataclasses import dataclass, field

from readers.catalogue import Recording, asks, is_length
from readers.segments import DATA, HEADER, PAD, Frame, aligned, stored_frame

BAD_BLOCK, BAD_PARAMETER, BAD_POSITION = "error 13 BadBlock", "error 10 BadParameter", "error 5 BadPosition"
LARGEST_BLOCK = 65_536  # bytes that the messages of a block cover
MOST_HELD = 4_096  # frames of a merge


def is_heartbeat(frame: Frame) -> bool:
    """Whether a frame is a heartbeat."""
    return frame.length == 0


def front(text: bytes, at: int) -> tuple[Frame, int]:
    """The frame at an offset, and the offset after the bytes that it uses: "Fronts"."""
    frame = stored_frame(text, at)
    if frame:
        return frame, len(text) if frame.kind == PAD else min(at + aligned(frame.length), len(text))
    asks(at + HEADER.size <= len(text), f"error 21 BadFrame {at}")
    header = Frame(*HEADER.unpack_from(text, at))
    has_place = header.version == 0 and header.offset >= 0 and header.offset % 32 == 0
    asks(has_place and header.kind == DATA and is_heartbeat(header) and at == 0, f"error 21 BadFrame {at}")
    return header, len(text)


def frames_of_datagram(text: bytes) -> list[Frame]:
    """The frames of a datagram: "Datagrams"."""
    frame, at = front(text, 0)
    found = [frame]
    while at < len(text):
        frame, at = front(text, at)
        found.append(frame)
    return found


def position_of(frame: Frame, initial_term: int, term_length: int) -> int | None:
    """The position of a frame: "Positions"."""
    terms = (frame.term_id - initial_term) % 2**32
    return terms * term_length + frame.offset if terms < 2**31 and frame.offset < term_length else None


def block_of(text: bytes, known: Recording) -> tuple[int, bytes, int]:
    """The position of a recording's block, its stored bytes and its end: "Blocks"."""
    frames = frames_of_datagram(text)
    first = frames[0]
    begin = position_of(first, known.initial_term, known.term_length)
    asks(begin is not None and not is_heartbeat(first), BAD_BLOCK)
    end = first.offset
    stored = b""
    for frame in frames:
        same = (frame.term_id, frame.session_id, frame.stream_id) == (first.term_id, known.session_id, known.stream_id)
        asks(same and frame.offset == end, BAD_BLOCK)
        asks(len(frames) == 1 if frame.kind == PAD else frame.length <= known.mtu, BAD_BLOCK)
        end += aligned(frame.length)
        encoding = frame.encoding()
        stored += encoding if frame.kind == PAD else encoding.ljust(aligned(len(encoding)), b"\x00")
    asks(end <= known.term_length and (first.kind == PAD or end - first.offset <= LARGEST_BLOCK), BAD_BLOCK)
    return begin, stored, begin + end - first.offset


@dataclass
class Merge:
    """A merge: "Merging a replay into the live stream"."""

    initial_term: int
    term_length: int
    cursor: int
    held: dict[int, Frame] = field(default_factory=dict)
    live_ends: set[int] = field(default_factory=set)  # ends of live frames at which the live stream joins
    is_joined: bool = False

    def offer(self, text: bytes, is_live: bool) -> str:
        """The reply to an offered datagram."""
        frames = frames_of_datagram(text)
        frame = frames[0]
        asks(len(frames) == 1 and not is_heartbeat(frame), BAD_BLOCK)
        position = position_of(frame, self.initial_term, self.term_length)
        asks(position is not None, BAD_POSITION)
        end = position + aligned(frame.length)
        told = "held"
        if position < self.cursor or position in self.held:
            told = "ignored"
        elif len(self.held) == MOST_HELD:
            told = "full"
        else:
            self.held[position] = frame
        if is_live and told != "full":
            self.is_joined |= end == self.cursor
            other = self.held.get(position)
            if other and aligned(other.length) == aligned(frame.length):
                self.live_ends.add(end)
        return told

    def take(self) -> str:
        """The reply to `merge-take`."""
        frame = self.held.pop(self.cursor, None)
        if frame is None:
            return "none"
        told = f"frame {self.cursor} {frame.encoding().hex()}"
        self.cursor += aligned(frame.length)
        self.is_joined |= self.cursor in self.live_ends
        return told

    def state(self) -> str:
        """The reply to `merge-state`."""
        return f"merged {'yes' if self.is_joined else 'no'} {self.cursor}"


def begun(initial_term: int, term_length: int, position: int) -> Merge:
    """A merge that begins."""
    is_placed = is_length(term_length, 2**16) and position % 32 == 0 and 0 <= position < 2**31 * term_length
    asks(is_placed, BAD_PARAMETER)
    return Merge(initial_term, term_length, position)
