"""Random control lines for an archive that a trial has read. The archive accepts most of them."""
from random import Random

from readers.archive import Archive
from readers.catalogue import Recording, Refused
from readers.segments import DATA, HEADER, PAD, aligned

CHANNELS = "c", "aeron:udp?endpoint=localhost:40123", "a b", "äöü"
SOURCES = "127.0.0.1:40123", "s", "é"
STARTS = (0,) * 6 + (65_536, 65_408, 131_072, 2**47 - 131_072)  # the last one is two terms before the last position
MOST_RECORDINGS = 5
GEOMETRY = "65536 1408"  # term length and MTU


def start(chance: Random) -> str:
    """A line that starts a recording."""
    term = chance.choice((42, 0, 2**31 - 1, -7))
    segment = chance.choice((65_536, 65_536, 131_072))
    ids = f"{chance.choice((1_001, 1_002))} {chance.randint(-3, 9)} {term}"
    word = "start" if chance.random() < 0.7 else f"start-from {chance.choice(SOURCES)}"
    return f"{word} {ids} {GEOMETRY} {segment} {chance.choice(STARTS)} {chance.randint(0, 9_999)} {chance.choice(CHANNELS)}"


def frame(known: Recording, position: int, kind: int, length: int, payload: bytes = b"") -> bytes:
    """The encoding of a frame of a recording at a position."""
    term, offset = divmod(position, known.term_length)
    term_id = (known.initial_term + term + 2**31) % 2**32 - 2**31
    return HEADER.pack(length, 0, 0xC0, kind, offset, known.session_id, known.stream_id, term_id, 0) + payload


def block(known: Recording, position: int, chance: Random) -> bytes:
    """A block of a recording at a position: some messages, or a pad that mostly fills its term."""
    rest = known.term_length - position % known.term_length
    if chance.random() < 0.25:
        return frame(known, position, PAD, rest if chance.random() < 0.7 else chance.randint(32, rest))
    text = b""
    for _ in range(chance.randint(1, 4)):
        payload = chance.randbytes(chance.choice((0, 1, 8, 31, 32, 100, 400)))
        length = 32 + len(payload)
        if len(text) + aligned(length) > rest:
            break
        text += frame(known, position + len(text), DATA, length, payload).ljust(aligned(length), b"\x00")
    return text or frame(known, position, PAD, rest)


def boundaries(archive: Archive, known: Recording) -> list[int]:
    """The boundaries of a recording up to the first damage."""
    found = [known.start]
    try:
        found += [at + aligned(each.length) for at, each in archive.reader().frames(known, known.start, known.recorded)]
    except Refused:
        pass
    return found


def position(archive: Archive, known: Recording, chance: Random) -> int:
    """A position, mostly a boundary of a recording, else one near a boundary."""
    found = chance.choice([*boundaries(archive, known), known.recorded])
    return found + chance.choice((0,) * 8 + (32, -32, 1, 64))


def line(archive: Archive, chance: Random) -> list[str]:
    """The next line, or two lines that belong together."""
    recordings, sessions = archive.register.listed(), sorted(archive.sessions)
    if not recordings or (len(recordings) < MOST_RECORDINGS and chance.random() < 0.1):
        return [start(chance)]
    known = chance.choice(recordings)
    what = chance.random()
    if what < 0.6 and sessions:
        return blocks(archive, chance.choice(sessions), chance)
    if what < 0.68:
        return [f"stop {known.number} {chance.randint(0, 9_999)}"]
    if what < 0.78:
        return [extension(known, chance)]
    if what < 0.85:
        return [f"truncate {known.number} {position(archive, known, chance)}"]
    if what < 0.91:
        return [f"purge-segments {known.number} {known.base(position(archive, known, chance))}"]
    if what < 0.93:
        return [f"purge {known.number}"]
    asked = f"{chance.choice(('verify', 'positions', 'source'))} {known.number}"
    return [chance.choice(("sweep", "sweep", "sweep", "reopen", "compact", asked, asked, asked))]


def extension(known: Recording, chance: Random) -> str:
    """A line that extends a recording."""
    ids = f"{known.stream_id} {chance.randint(-3, 9)} {known.initial_term}"
    return f"extend {known.number} {ids} {known.term_length} {known.mtu} {known.recorded}"


def blocks(archive: Archive, session: int, chance: Random) -> list[str]:
    """One or two lines that write and settle a block."""
    writer = archive.sessions[session]
    known = archive.known(writer.recording)
    if writer.end >= 2**31 * known.term_length:
        return [f"stop {known.number} 1"]
    text = block(known, writer.end, chance).hex()
    return [f"block {session} {text}"] if chance.random() < 0.7 else [f"write {session} {text}", f"settle {session}"]
