"""Control lines of the rows of docs/CONTROL.md, "Lines", most of them malformed, and a check of their replies."""
from collections.abc import Iterator
from random import Random

from readers.lines import BEFORE, BYTES, LINE_LIMIT, LINES, REST, SHORT, Kind, form_of, is_reply
from lib.tool import Fault, Stream, expect

STREAM = Stream(term_length=65_536, segment_length=65_536)
SHORTS = 0, 1, -1, 7, 42, 1_001, 1_408, 65_536, 2**31 - 1, -(2**31)
LONGS = (0, 0, 0, 1, -1, 2, 3, 32, 64, 65_536, 1_000, 4_096, 2**31, 2**63 - 1, -(2**63))
NO_NUMBERS = (
    b"", b"+1", b"-0", b"00", b"01", b"-01", b"--1", b"1-", b"1.0", b"1e3", b"0x1", b"1_000", b"\xc2\xb9", b"\xef\xbc\x91", b"1\r", b"1\t",
    b"\x001", b"nan", b"9223372036854775808", b"-9223372036854775809", b"99999999999999999999", b"1" * 40, b"-", b"0 ",
)  # fmt: skip
NOT_SHORT = b"2147483648", b"-2147483649", b"9223372036854775807", b"4294967296"
NO_HEX = b"", b"0", b"0g", b"abc", b"0x00", b"00 00", b"zz", b"\xff\xff", b"0 0"
TEXTS = (
    b"c", b" c ", b"  ", b"a b", "äöü".encode(), b"c" * 512, b"c" * 513, b"\t", b"\x00", b"\x7f", "\x80".encode(), "\U0010ffff".encode(),
    "\ufeff".encode(),
)  # fmt: skip
NO_TEXTS = b"", b"\xff", b"\xc0\x80", b"\xed\xa0\x80", b"\xf4\x90\x80\x80", b"a\xe2\x82", b"\xf8\x88\x80\x80\x80"
GARBAGE = (
    b"", b" ", b"\t", b"\x00", b"\r", b"error 22 BadLine", b"\xff", b"LIST 0 1", b"lists 0 1", b"lis 0 1", b"list\t0\t1", b"images",
    b"\xef\xbb\xbflist 0 1",
)  # fmt: skip


def word(kind: Kind, chance: Random) -> bytes:
    """A random word of a kind."""
    if kind is BYTES:
        text = STREAM.message(chance.choice((0, 64, 128)), chance.randbytes(chance.choice((0, 5, 32))))
        text = text if chance.random() < 0.6 else chance.randbytes(chance.randint(1, 80))
        return (text.hex().upper() if chance.random() < 0.2 else text.hex()).encode()
    if kind is REST:
        return chance.choice(TEXTS)
    numbers = SHORTS if kind is SHORT else LONGS
    return str(chance.choice(numbers) if chance.random() < 0.8 else chance.randint(-(2**31), 2**31 - 1)).encode()


def no_words(kind: Kind) -> tuple[bytes, ...]:
    """Words that are mostly not of a kind."""
    if kind is BYTES:
        return NO_HEX
    if kind is REST:
        return NO_TEXTS
    return NO_NUMBERS + NOT_SHORT if kind is SHORT else NO_NUMBERS


def edges(kind: Kind) -> tuple[bytes, ...]:
    """Words of a kind, at the edges of it."""
    if kind is BYTES:
        return b"00", b"fF", b"0" * 64
    return TEXTS if kind is REST else tuple(str(number).encode() for number in (SHORTS if kind is SHORT else LONGS))


def row(first: bytes) -> list[bytes]:
    """A line of a row, by its words."""
    return [first, *(edges(kind)[0] for kind in LINES[first][0])]


def bends(first: bytes) -> Iterator[list[bytes]]:
    """A row with each word bent, at an edge, missing, doubled, or with another blank before it; and with one word more."""
    words = row(first)
    for at, kind in enumerate(LINES[first][0], 1):
        for bent in no_words(kind) + edges(kind):
            yield [*words[:at], bent, *words[at + 1 :]]
    for at, each in enumerate(words):
        yield [*words[:at], *words[at + 1 :]]
        yield [*words[:at], each, *words[at:]]
        yield [*words[:at], b"", *words[at:]]
    yield from ([*words, more] for more in (b"", b"0", b"c"))
    yield from ([bent, *words[1:]] for bent in bent_firsts(first))


def bent_firsts(first: bytes) -> tuple[bytes, ...]:
    """First words that are near one."""
    return first.upper(), first[:-1], first + b"s", first.replace(b"-", b"_"), b" " + first, first + b"\x00"


def start(chance: Random) -> list[bytes]:
    """The words of a line that starts a recording, sometimes no words."""
    return STREAM.start("c").encode().split(b" ") if chance.random() < 0.3 else []


def bent_word(kind: Kind, chance: Random) -> bytes:
    """A word that is mostly not of a kind."""
    return chance.choice(NOT_SHORT if kind is SHORT and chance.random() < 0.3 else NO_NUMBERS if kind is SHORT else no_words(kind))


def turned(line: bytes, chance: Random) -> bytes:
    """A line with one byte changed, added or removed."""
    at = chance.randint(0, len(line))
    return line[:at] + bytes([chance.choice((chance.randrange(256), 0x20, 0x30))] * chance.randint(0, 1)) + line[at + chance.randint(0, 1) :]


def line(chance: Random) -> bytes:
    """A line of one of the rows, mostly malformed."""
    first = chance.choice(sorted(LINES))
    kinds = LINES[first][0]
    words = [first, *(word(kind, chance) for kind in kinds)]
    if first == b"start":
        words = start(chance) or words
    how = chance.randrange(10)
    if how == 0:
        return chance.choice(GARBAGE) if chance.random() < 0.5 else chance.randbytes(chance.randint(0, 60))
    if how in (1, 2) and kinds:
        at = chance.randrange(len(kinds))
        words[at + 1] = bent_word(kinds[at], chance)
    if how == 3:
        del words[chance.randrange(len(words))]
    if how == 4:
        words.insert(chance.randint(0, len(words)), chance.choice((b"", b"0", b"c", first)))
    if how == 5:
        words[0] = chance.choice(bent_firsts(first))
    text = b" ".join(words)
    if how == 6:
        text = chance.choice((text + b" ", text + b"\r", b" " + text, text.replace(b" ", b"  ", 1), text.replace(b" ", b"\t", 1)))
    return turned(text, chance) if how in (7, 8) else text


def long_line(chance: Random) -> bytes:
    """A line that is about as long as the limit."""
    length = LINE_LIMIT + chance.choice((-1, 0, 0, 1, 1, 2, 40_000))
    front = chance.choice((b"find 0 1001 7 ", b"write 0 ", b"merge-live ", b"list ", b""))
    return front + b"a" * (length - len(front))


EACH = [b" ".join(words) for first in sorted(LINES) for words in bends(first)]


def lines(chance: Random, begin: int, end: int) -> list[bytes]:
    """The lines of these numbers, without their ends: first each word of each row bent alone, and then random ones. Only the line before
    the last is `quit`, so the last is not read."""
    found = [STREAM.start("c").encode(), b"merge 42 65536 0"]
    found += [line for line in EACH[begin:end] if form_of(line) != b"quit"]
    while len(found) < end - begin - 2:
        text = (long_line(chance) if chance.random() < 0.004 else line(chance)).replace(b"\n", b"\r")
        if form_of(text) != b"quit":
            found.append(text)
    return [*found, b"quit", b"list 0 1"]


def expect_replies(asked: list[bytes], told: list[str]) -> None:
    """Checks that each line up to `quit` got a reply of its form, and that no other reply follows."""
    at = 0
    for text in asked[:-1]:
        form = form_of(text)
        end = at
        while form in BEFORE and end < len(told) and told[end].startswith(BEFORE[form]):
            end += 1
        if end == len(told) or not is_reply(form, told[at : end + 1]):
            raise Fault(f"{text[:200]!r}: {[each[:100] for each in told[at : end + 1][-2:]]}, of the form {form!r}")
        at = end + 1
    expect("after quit", told[at:], [])
