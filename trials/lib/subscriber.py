"""A subscriber by the public specification, which loses, doubles and swaps what comes: docs/PROTOCOL.md, "Publications of recordings"."""
import random
import socket
import struct
import threading
import time

from lib.tool import aligned

DATA, PAD, NAK, STATUS, SETUP = 1, 0, 2, 3, 5  # types of frames
HEADER_LENGTH, SETUP_LENGTH = 32, 40
END_OF_STREAM = 0x20
STATUS_PAUSE, NAK_PAUSE = 0.2, 0.02  # seconds from one to the next


class Subscriber:
    """One image: it joins at a setup frame, keeps each frame once, and hands them on in order."""

    def __init__(self, port: int, chance: random.Random, share: float = 0.0, window: int = 131_072, address: str = "127.0.0.1") -> None:
        self.socket = socket.socket(socket.AF_INET, socket.SOCK_DGRAM)
        self.socket.setsockopt(socket.SOL_SOCKET, socket.SO_RCVBUF, 4_194_304)
        self.socket.bind((address, port))
        self.socket.settimeout(0.005)
        self.chance, self.share, self.window = chance, share, window
        self.late: bytes | None = None
        self.sender: tuple[str, int] | None = None
        self.setup: tuple[int, ...] | None = None
        self.begin = self.rebuilt = self.sent_to = 0  # bytes of the stream; the last: as heartbeats say
        self.held: dict[int, tuple[int, bytes]] = {}  # frames past a gap, by position: what they cover, and their bytes
        self.taken: list[bytes] = []
        self.has_ended = False
        self.status_at = self.nak_at = 0.0
        self.told = -1
        self.setups = self.frames = self.repeats = self.naks = self.statuses = 0
        self.is_over, self.is_silent = threading.Event(), threading.Event()
        self.thread = threading.Thread(target=self.run, daemon=True)

    def start(self) -> "Subscriber":
        self.thread.start()
        return self

    def end(self) -> None:
        """Takes no more."""
        self.is_over.set()
        self.thread.join()
        self.socket.close()

    def data(self) -> bytes:
        """The frames that were handed on, as segment files have them: a pad's header alone."""
        return b"".join(self.taken)

    def run(self) -> None:
        while not self.is_over.is_set():
            try:
                datagram, self.sender = self.socket.recvfrom(65_536)
            except TimeoutError:
                datagram = b""
            for each in self.came(datagram):
                self.take(each)
            if not self.is_silent.is_set():
                self.tend(time.monotonic())

    def came(self, datagram: bytes) -> list[bytes]:
        """What comes of a datagram: it may be lost, doubled, or overtaken by the next one, a third of the share each."""
        what = self.chance.random() / self.share if self.share and datagram else 1.0
        late, self.late = self.late, None
        if 2 / 3 <= what < 1 and late is None:
            self.late = datagram
            return []
        count = 0 if what < 1 / 3 else 2 if what < 2 / 3 else 1
        return [each for each in [datagram] * count + [late or b""] if each]

    def take(self, datagram: bytes) -> None:
        kind = struct.unpack_from("<H", datagram, 6)[0]
        if kind == SETUP:
            self.set_up(datagram)
        elif kind in (DATA, PAD) and self.setup is not None:
            self.take_frames(datagram)

    def set_up(self, datagram: bytes) -> None:
        """Joins, unless it has."""
        self.setups += 1
        fields = struct.unpack_from("<iBBHiiiiiiii", datagram)
        if self.setup is None:
            _, _, _, _, offset, _, _, initial, active, length, _, _ = fields
            self.setup = fields
            self.begin = self.rebuilt = (active - initial) * length + offset

    def position_of(self, frame: bytes, at: int) -> int:
        offset, _, _, term = struct.unpack_from("<iiii", frame, at + 8)
        assert self.setup is not None
        return (term - self.setup[7]) * self.setup[9] + offset

    def take_frames(self, datagram: bytes) -> None:
        at = 0
        while at + HEADER_LENGTH <= len(datagram):
            length, _, flags, kind = struct.unpack_from("<iBBH", datagram, at)
            position = self.position_of(datagram, at)
            if length <= 0:
                self.has_ended |= bool(flags & END_OF_STREAM) and position <= self.rebuilt
                self.sent_to = max(self.sent_to, position)
                return
            covers = aligned(length)
            size = HEADER_LENGTH if kind == PAD else covers
            self.keep(position, covers, datagram[at : at + size])
            at += size

    def keep(self, position: int, covers: int, frame: bytes) -> None:
        self.frames += 1
        if position < self.rebuilt or position in self.held:
            self.repeats += 1
            return
        self.held[position] = covers, frame
        while self.rebuilt in self.held:
            covers, frame = self.held.pop(self.rebuilt)
            self.taken.append(frame)
            self.rebuilt += covers

    def tend(self, now: float) -> None:
        """Sends a status message and a NAK, if they are due."""
        if self.setup is None or self.sender is None:
            return
        moved = self.rebuilt - self.told >= self.window // 4
        if moved or now - self.status_at >= STATUS_PAUSE:
            self.status_at, self.told = now, self.rebuilt
            self.statuses += 1
            self.send(self.status(self.rebuilt))
        end = min(self.held, default=self.sent_to)
        if self.rebuilt < end and now - self.nak_at >= NAK_PAUSE:
            self.nak_at = now
            self.naks += 1
            self.send(self.nak(self.rebuilt, end - self.rebuilt))

    def send(self, datagram: bytes) -> None:
        """Sends to the sender; it may be lost."""
        if self.sender is not None and self.chance.random() >= self.share / 3:
            self.socket.sendto(datagram, self.sender)

    def term_of(self, position: int) -> tuple[int, int]:
        assert self.setup is not None
        term, offset = divmod(position, self.setup[9])
        return self.setup[7] + term, offset

    def status(self, position: int, flags: int = 0) -> bytes:
        assert self.setup is not None
        term, offset = self.term_of(position)
        window = min(self.window, self.setup[9] // 2)
        return struct.pack("<iBBHiiiiiq", 36, 0, flags, STATUS, self.setup[5], self.setup[6], term, offset, window, 5)

    def nak(self, position: int, length: int) -> bytes:
        assert self.setup is not None
        term, offset = self.term_of(position)
        length = min(length, self.setup[9] - offset)
        return struct.pack("<iBBHiiiii", 28, 0, 0, NAK, self.setup[5], self.setup[6], term, offset, length)
