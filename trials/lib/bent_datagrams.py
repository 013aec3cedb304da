"""Datagrams of a recording's stream, most of them mutated: docs/PROTOCOL.md, "Datagrams"."""
from random import Random

from lib import random_lines
from lib.mutations import cut, grow, make_pad, move_bytes, set_field, turn_bytes
from readers.catalogue import Recording
from readers.segments import DATA, aligned


def messages(known: Recording, position: int, length: int, count: int) -> bytes:
    """Messages of a length, one after another."""
    size = aligned(length)
    each = (random_lines.frame(known, position + size * number, DATA, length, bytes(length - 32)) for number in range(count))
    return b"".join(text.ljust(size, b"\x00") for text in each)


def mutated(known: Recording, at: int, chance: Random) -> bytes:
    """A datagram at a position of a recording's stream, mostly mutated."""
    text = random_lines.block(known, at, chance)
    if chance.random() < 0.05:
        text = messages(known, at, known.mtu + chance.choice((0, 1, 32, 4_000)), chance.randint(1, 3))
    if chance.random() < 0.1:
        text = random_lines.frame(known, at, DATA, 0) + text[: chance.choice((0, 0, 40))]
    if chance.random() < 0.1:
        text += random_lines.block(known, at + aligned(len(text)), chance)
    files = {"": text}
    for _ in range(chance.randint(0, 2)):
        chance.choice((turn_bytes, set_field, set_field, make_pad, cut, grow, move_bytes))(files, "", chance)
    return files[""] or b"\x00"
