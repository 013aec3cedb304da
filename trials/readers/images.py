"""What a receiver makes of datagrams, as docs/PROTOCOL.md describes it ("Setup frame", "Images", "Stock", "NAK frame"), and which NAKs a
server without `--aeron` sends: docs/SERVING.md, "When NAKs are sent". Nothing here is taken from the program."""
import struct
from bisect import bisect_left, insort
from collections.abc import Iterable
from dataclasses import dataclass, field

from readers.blocks import frames_of_datagram, is_heartbeat, position_of
from readers.catalogue import Refused, is_length
from readers.segments import DATA, PAD, Frame, aligned

STOCK = 1_048_576  # bytes of the stream past what was given on
MOST_IMAGES = 64
NAK, SETUP = 2, 5


@dataclass
class Image:
    """An image of a publication. What was given on is known from below: at least up to `given`, at most up to `rebuilt`."""

    session_id: int
    stream_id: int
    initial_term: int
    term_length: int
    mtu: int
    rebuilt: int  # the rebuild position, at first the join position
    high: int = 0  # the high-water mark
    given: int = 0
    held: dict[int, Frame] = field(default_factory=dict)  # received frames past the rebuild position
    starts: list[int] = field(default_factory=list)  # their positions, by order
    chain: list[tuple[int, Frame]] = field(default_factory=list)  # received frames before it

    def __post_init__(self) -> None:
        self.high = self.given = self.rebuilt

    def window(self) -> int:
        """Where the window ends."""
        return self.rebuilt + self.term_length // 2

    def place(self, frame: Frame) -> int | None:
        """The position of a frame of this publication, None of another one."""
        is_ours = (frame.session_id, frame.stream_id) == (self.session_id, self.stream_id)
        return position_of(frame, self.initial_term, self.term_length) if is_ours else None

    def reach(self, frames: Iterable[Frame]) -> int:
        """Where the last of a datagram's messages and pads ends; a pad counts by its header."""
        counted = [(frame, 32 if frame.kind == PAD else aligned(frame.length)) for frame in frames if not is_heartbeat(frame)]
        places = [(position_of(frame, self.initial_term, self.term_length), length) for frame, length in counted]
        return max((place + length for place, length in places if place is not None), default=0)

    def joins(self, frame: Frame) -> bool:
        """Whether a frame joins."""
        begin, length = self.place(frame), aligned(frame.length)
        if begin is None or is_heartbeat(frame) or (frame.kind == DATA and frame.length > self.mtu):
            return False
        end = begin + length
        if frame.offset + length > self.term_length or begin < self.rebuilt or end > self.window():
            return False
        at = bisect_left(self.starts, end)
        before = self.starts[at - 1] if at else None
        return before is None or before + aligned(self.held[before].length) <= begin

    def take_in(self, frame: Frame) -> None:
        """Takes in a frame of a datagram that is not lost."""
        begin = self.place(frame)
        if begin is not None and is_heartbeat(frame):
            self.high = max(self.high, begin)
        if not self.joins(frame):
            return
        insort(self.starts, begin)
        self.held[begin] = frame
        self.high = max(self.high, begin + aligned(frame.length))
        while self.starts and self.starts[0] == self.rebuilt:
            first = self.held.pop(self.starts.pop(0))
            self.chain.append((self.rebuilt, first))
            self.rebuilt += aligned(first.length)

    def nak(self) -> bytes | None:
        """The NAK frame that asks for the gap, as far as there is room for it. None if there is nothing to ask for."""
        begin = self.rebuilt
        term, offset = divmod(begin, self.term_length)
        ends = self.high, *self.starts[:1], begin - offset + self.term_length, self.window(), self.given + STOCK
        if min(ends) <= begin:
            return None
        term_id = (self.initial_term + term + 2**31) % 2**32 - 2**31
        return struct.pack("<iBBHiiiii", 28, 0, 0, NAK, self.session_id, self.stream_id, term_id, offset, min(ends) - begin)


def image_of(text: bytes) -> Image | None:
    """The image that a setup frame begins. None if no setup frame stands in front of the bytes."""
    if len(text) < 40:
        return None
    length, version, _, kind, offset, session_id, stream_id, initial, active, term_length, mtu = struct.unpack_from("<iBBHiiiiiii", text)
    terms = (active - initial) % 2**32
    is_setup = (length, version, kind) == (40, 0, SETUP) and is_length(term_length, 2**16)
    if not is_setup or mtu % 32 or not 32 < mtu <= 65_504 or offset % 32 or not 0 <= offset < term_length or terms >= 2**31:
        return None
    return Image(session_id, stream_id, initial, term_length, mtu, terms * term_length + offset)


def is_foreign(text: bytes) -> bool:
    """Whether a datagram is foreign."""
    return len(text) >= 8 and struct.unpack_from("<H", text, 6)[0] not in (PAD, DATA)


@dataclass
class Receiver:
    """The images of a server without `--aeron`, and what it counts."""

    images: dict[tuple[int, int], Image] = field(default_factory=dict)
    lost: int = 0
    naks: int = 0

    def image_for(self, frames: list[Frame]) -> Image | None:
        """The image of a datagram's frames: that of the first one's publication."""
        return self.images.get((frames[0].session_id, frames[0].stream_id))

    def is_certain(self, text: bytes) -> bool:
        """Whether what happens to a datagram does not depend on how much of its image was given on by now."""
        frames = read(text)
        image = self.image_for(frames) if frames else None
        return image is None or not image.given + STOCK < image.reach(frames) <= image.rebuilt + STOCK

    def take(self, text: bytes) -> bytes | None:
        """Takes a datagram. Returns the NAK that answers it."""
        if is_foreign(text):
            self.join(text)
            return None
        frames = read(text)
        image = self.image_for(frames) if frames else None
        if image is None:
            return None
        if image.reach(frames) > image.given + STOCK:
            self.lost += 1
        else:
            for frame in frames:
                image.take_in(frame)
        told = image.nak()
        self.naks += told is not None
        return told

    def join(self, text: bytes) -> None:
        """Takes a setup frame, if it is one of a publication without an image."""
        made = image_of(text)
        if made and len(self.images) < MOST_IMAGES:
            self.images.setdefault((made.session_id, made.stream_id), made)


def read(text: bytes) -> list[Frame]:
    """The frames of a datagram; no frames if it is refused."""
    try:
        return frames_of_datagram(text)
    except Refused:
        return []
