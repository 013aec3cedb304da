"""Damages the files of archives: what hostile folders and damaged segment files are made by."""
import struct
from collections.abc import Callable
from random import Random

from lib.comparison import Files
from readers.catalogue import BANKS, NEWEST, entry_at
from readers.segments import HEADER, PAD, segment_of

NUMBERS = 0, 1, 2, 31, 32, 33, 64, 65_536, 2**31 - 1, -1, -(2**31)  # values for a field of a header
FIELDS = *[(0, "<i")] * 4, (4, "<b"), (6, "<h"), (8, "<i"), (12, "<i"), (16, "<i"), (20, "<i")  # docs/PROTOCOL.md, "Data and pad header"
LONGS = 0, 1, -1, 32, 65_536, 2**47, 2**63 - 1, -(2**63)  # values for a number of an entry
BLOCKS = 1, 20, 32, 64, 512, 4_096  # bytes of blocks that are swapped; 20 are those of an entry that settles
GROWTHS = 512, 4_096, 65_536, 200_000

Change = Callable[[Files, str, Random], None]  # of one file


def turn_bytes(files: Files, name: str, chance: Random) -> None:
    """Changes one to three bytes of a file."""
    text = bytearray(files[name])
    for _ in range(chance.randint(1, 3) if text else 0):
        at = chance.randrange(len(text))
        text[at] = chance.choice((text[at] ^ (1 << chance.randrange(8)), chance.randrange(256), 0))
    files[name] = bytes(text)


def headers(text: bytes) -> list[int]:
    """The multiples of 32 in a file at which a header may be."""
    return [at for at in range(0, len(text) - HEADER.size + 1, 32) if any(text[at : at + 4])]


def rest_of_term(text: bytes, at: int) -> int:
    """How many bytes there are from a header's term offset to the end of the term."""
    return 65_536 - struct.unpack_from("<i", text, at + 8)[0] % 65_536


def set_field(files: Files, name: str, chance: Random) -> None:
    """Changes a field of a header in a file, mostly the length."""
    text = bytearray(files[name])
    for at in chance.sample(headers(text), min(1, len(headers(text)))):
        offset, form = chance.choice(FIELDS)
        known = struct.unpack_from(form, text, at + offset)[0]
        values = chance.choice(NUMBERS), known + chance.choice((1, -1, 32, -32)), rest_of_term(text, at) + chance.choice((0, 32))
        bits = 8 * struct.calcsize(form)
        struct.pack_into(form, text, at + offset, (chance.choice(values) + 2 ** (bits - 1)) % 2**bits - 2 ** (bits - 1))
    files[name] = bytes(text)


def make_pad(files: Files, name: str, chance: Random) -> None:
    """Changes a frame into a pad, which may go past the recorded position or past its term."""
    text = bytearray(files[name])
    for at in chance.sample(headers(text), min(1, len(headers(text)))):
        rest = rest_of_term(text, at)
        struct.pack_into("<i", text, at, chance.choice((32, 64, 96, rest, rest, rest - 32, rest + 32, rest + 65_536)))
        struct.pack_into("<H", text, at + 6, PAD)
    files[name] = bytes(text)


def cut(files: Files, name: str, chance: Random) -> None:
    """Cuts a file."""
    files[name] = files[name][: chance.randint(0, len(files[name]))]


def grow(files: Files, name: str, chance: Random) -> None:
    """Appends bytes to a file."""
    count = chance.choice((1, 31, 32, 64, 200))
    files[name] += chance.choice((bytes(count), chance.randbytes(count), files[name][:count]))


def swap(files: Files, name: str, chance: Random) -> None:
    """Swaps the bytes of two files."""
    other = chance.choice(sorted(files))
    files[name], files[other] = files[other], files[name]


def move_bytes(files: Files, name: str, chance: Random) -> None:
    """Copies some bytes of a file over others."""
    text = files[name]
    length = min(len(text), 32 * chance.randint(1, 4))
    begin, end = (chance.randint(0, len(text) - length) // 32 * 32 for _ in range(2))
    files[name] = text[:begin] + text[end : end + length] + text[begin + length :]


def copy_ahead(files: Files, name: str, chance: Random) -> None:
    """Copies a segment file to a later base, if it has a base and no file is there."""
    if match := segment_of(name):
        files.setdefault(f"{match[1]}-{int(match[2]) + 65_536 * chance.randint(1, 3)}.rec", files[name])


def lose(files: Files, name: str, chance: Random) -> None:
    """Removes a file."""
    del files[name]


def swap_blocks(files: Files, name: str, chance: Random) -> None:
    """Swaps two blocks of a file."""
    text, length = files[name], chance.choice(BLOCKS)
    count = len(text) // length
    if count < 2:
        return
    one, other = (place * length for place in sorted(chance.sample(range(count), 2)))
    between = text[one + length : other]
    files[name] = text[:one] + text[other : other + length] + between + text[one : one + length] + text[other + length :]


def grow_far(files: Files, name: str, chance: Random) -> None:
    """Appends many zeros or random bytes to a file, also past the end of a segment."""
    count = chance.choice(GROWTHS)
    files[name] += chance.choice((bytes(count), chance.randbytes(count)))


def entries_of(bank: bytes) -> list[bytes]:
    """The entries of a bank, each after its gate, as far as they can be read."""
    found, at = [], 32
    version = min(max(bank[1], 1), NEWEST) if len(bank) > 32 else NEWEST
    while bank[at : at + 1] == b"\x01" and (read := entry_at(bank, at, version)):
        found.append(bank[at : read[1]])
        at = read[1]
    return found


def change_entries(files: Files, name: str, chance: Random) -> None:
    """Swaps two entries of a bank, doubles one, removes one, or sets a number of one. Any other file gets a swap of blocks."""
    entries = entries_of(files[name]) if name in BANKS else []
    if not entries:
        swap_blocks(files, name, chance)
        return
    size = 32 + sum(map(len, entries))
    one, other, how = chance.randrange(len(entries)), chance.randrange(len(entries)), chance.randrange(4)
    if how == 0:
        entries[one], entries[other] = entries[other], entries[one]
    elif how == 1:
        entries.insert(other, entries[one])
    elif how == 2:
        del entries[one]
    else:
        entries[one] = with_number(entries[one], chance)
    files[name] = files[name][:32] + b"".join(entries) + files[name][size:]


def with_number(entry: bytes, chance: Random) -> bytes:
    """An entry with one of its numbers of 8 bytes set or moved a little, if it has one."""
    places = range(4, len(entry) - 7, 8)
    for at in chance.sample(places, min(1, len(places))):
        known = struct.unpack_from("<q", entry, at)[0]
        number = chance.choice((*LONGS, *(min(max(known + step, -(2**63)), 2**63 - 1) for step in (1, -1, 32, -32, 65_536, -65_536))))
        entry = entry[:at] + struct.pack("<q", number) + entry[at + 8 :]
    return entry


DAMAGES: list[Change] = [
    turn_bytes, turn_bytes, set_field, set_field, make_pad, make_pad, cut, grow, swap, move_bytes, copy_ahead, lose
]  # fmt: skip
MUTATIONS: list[Change] = [*DAMAGES, swap_blocks, swap_blocks, grow_far, change_entries, change_entries]
OF_BANKS: list[Change] = [turn_bytes, turn_bytes, cut, grow, grow_far, swap_blocks, move_bytes, *[change_entries] * 6]


def damage(files: Files, names: list[str], chance: Random, changes: list[Change] = DAMAGES) -> None:
    """Damages files of these names, one to three times."""
    for _ in range(chance.randint(1, 3)):
        there = [name for name in names if name in files]
        if there:
            segments = {name: files.pop(name) for name in there}
            chance.choice(changes)(segments, chance.choice(there), chance)
            files.update(segments)
