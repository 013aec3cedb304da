#!/usr/bin/env python3
"""Closes gates of catalogues, and asks that each command warns if an entry may be hidden, and only then.

The program makes each archive by random lines. In every other one a recording is active at the end. A third is compacted and goes on,
mostly with bank B in use, and a tenth is of catalogue version 1 (`version_1/`). In seven of ten the trial closes the gate of an entry,
mostly a late one. Then it mostly also changes or cuts what stands past the gate, or damages or removes a segment file. In the others it
puts bytes past the last gate: a whole entry, a half one or random bytes. Some of these entries settle blocks that it records. Then:

1. `describe`, `list --read-only`, `verify --read-only` and `export` look at the folder. `list --read-only`, `verify --read-only` and `export` never warn.
2. `verify`, `list`, `run` and `compact` each open a copy.
3. `run` answers random lines in another copy, and the archive is listed and verified again.

`readers/closed_gate.py` says whether the line is due, and names file and offset. It knows docs/STORAGE.md and nothing of the program.
Standard error has to have exactly that line, once, before what is there without it. Standard output and status, the bytes of all files
and the state of the catalogue have to be what `readers/` makes of the open entries.

Usage: trials/closed_gates.py [--seed S] [--folders N] [--jobs J] [--memory MB] [program]. --memory limits each address space; 0 sets no
limit. Of 100 folders or more some have to be warned of for each reason, and some not at all.
"""
import struct
from collections import Counter
from collections.abc import Callable
from pathlib import Path
from random import Random

from lib import random_lines
from lib.comparison import Files, Script, look_only, same_state, try_opening, warning, write
from damaged import go_on, in_folders, made
from hostile import try_description, try_exports
from lib.mutations import damage
from readers.archive import files_of, looked_at, opened
from readers.catalogue import BANKS, CHANNEL_LIMIT, NEXT_ID, NUMBERS, SETTLE, Catalogue, entry_at, read_banks
from readers.closed_gate import OF_SETTLE, OPEN_GATE, shows_hidden
from lib.tool import Stream, conclude, entry, expect, settle_entry

OLD = [Path(__file__).resolve().parent / "version_1" / name / "archive" for name in ("bank_a", "bank_b")]
STEPS = 15
ENOUGH = 100  # folders of which some are warned of for each reason
STREAM = Stream(term_length=65_536, segment_length=65_536)
TEXTS = b"c", b"\xc3\xa4", b"\xff", b""  # of which channels are made


def whole(tool: Path, folder: Path, chance: Random, is_active: bool) -> Files:
    """The files of an archive before the damage."""
    if chance.random() < 0.1:
        return files_of(chance.choice(OLD))
    made(tool, folder, chance, is_active)
    if chance.random() < 0.33:
        script = Script(opened(files_of(folder)))
        script.ask("compact")
        go_on(script, chance)
        add_lines(script, chance)
        if not is_active:
            script.ask("reopen")
        script.try_on(tool, folder, "an archive that is compacted")
    return files_of(folder)


def add_lines(script: Script, chance: Random) -> None:
    """Adds random lines to a script."""
    for _ in range(STEPS):
        for line in random_lines.line(script.archive, chance):
            script.ask(line)


def set_byte(files: Files, name: str, at: int, value: int) -> None:
    """Sets a byte of a file."""
    files[name] = files[name][:at] + bytes([value]) + files[name][at + 1 :]


def closed(chance: Random) -> int:
    """A value of a closed gate."""
    return chance.choice((0, chance.randint(2, 255)))


def close_gate(files: Files, chance: Random) -> None:
    """Closes the gate of an entry, often of one of the last."""
    known = read_banks(files.get)
    offsets = [at for at, _ in known.entries]
    set_byte(files, known.bank, chance.choice(chance.choice((offsets, offsets[-4:], offsets[-1:]))), closed(chance))


# What else is done where a gate was closed.


def change_entry(files: Files, known: Catalogue, chance: Random) -> None:
    """Changes a byte of what stands past the gate, mostly of the first entry there or the gate after it."""
    text = files[known.bank]
    _, end = entry_at(text, known.end, known.version)
    at = min(chance.choice((chance.randint(known.end + 1, end), end, chance.randrange(known.end + 1, len(text)))), len(text) - 1)
    set_byte(files, known.bank, at, chance.choice((0, text[at] ^ 1 << chance.randrange(8), chance.randrange(256))))


def cut_bank(files: Files, known: Catalogue, chance: Random) -> None:
    """Cuts the bank after the gate, mostly near the end of the entry."""
    text = files[known.bank]
    _, end = entry_at(text, known.end, known.version)
    files[known.bank] = text[: chance.choice((end, end + 1, chance.randint(known.end + 1, end), chance.randint(known.end + 1, len(text))))]


def spoil_frames(files: Files, known: Catalogue, chance: Random) -> None:
    """Damages or removes a segment file: that of a hidden Settle, from its first frame on, else another one."""
    hidden, _ = entry_at(files[known.bank], known.end, known.version) or (None, 0)
    settled = known.register.recordings.get(hidden.numbers[0]) if hidden and hidden.kind == SETTLE else None
    name, at = settled.file(settled.recorded) if settled else (chance.choice(segments(files) or [""]), 0)
    if name in files:
        text = files.pop(name)
        tail = {name: text[at:]}
        damage(tail, [name], chance)
        if name in tail:
            files[name] = text[:at] + tail[name]


def lose_segment(files: Files, known: Catalogue, chance: Random) -> None:
    """Removes a segment file."""
    for name in chance.sample(segments(files), min(1, len(segments(files)))):
        del files[name]


MORE: list[Callable[[Files, Catalogue, Random], None]] = [change_entry, change_entry, cut_bank, spoil_frames, spoil_frames, lose_segment]


def segments(files: Files) -> list[str]:
    """The names of the segment files."""
    return sorted(files.keys() - set(BANKS))


# What is put past the last gate.


def recorded(files: Files, known: Catalogue, chance: Random) -> bytes:
    """Records blocks that the bank doesn't settle, mostly of an active recording. Returns their Settle, or one near it."""
    active, listed = known.register.active(), known.register.listed()
    if not listed:
        return settled(files, known, chance)
    archive, number = looked_at(files), chance.choice(active if active and chance.random() < 0.8 else listed).number
    session, ends = archive.begin_session(number), [archive.known(number).recorded]
    for _ in range(chance.randint(1, 6)):
        for line in random_lines.blocks(archive, session, chance) if session in archive.sessions else []:
            archive.answer(line)
        ends.append(archive.known(number).recorded)
    files.update(archive.files)
    if chance.random() < 0.2:
        damage(files, segments(files), chance)
    return settle_entry(number, chance.choice((ends[-1],) * 4 + (ends[0], ends[1], ends[-1] - 32, ends[-1] + 32, ends[-1] + 1)))


def settled(files: Files, known: Catalogue, chance: Random) -> bytes:
    """A Settle of a recording, which is active or not, and mostly a little past its recorded position."""
    each = chance.choice(known.register.listed() or [None])
    number, position = (each.number, each.recorded) if each else (0, 0)
    return settle_entry(number + chance.choice((0, 0, 0, 1)), max(0, position + 32 * chance.randint(-2, 20)))


def copied(files: Files, known: Catalogue, chance: Random) -> bytes:
    """An entry of the bank."""
    text = files[known.bank]
    at, _ = chance.choice(known.entries)
    return text[at + 1 : entry_at(text, at, known.version)[1]]


def numbers(files: Files, known: Catalogue, chance: Random) -> bytes:
    """An entry of any kind, mostly with a body of its kind's length."""
    kind = chance.randint(0, NEXT_ID + 1)
    return entry(kind, bytes(struct.calcsize(NUMBERS.get(kind, "<q")) + chance.choice((0, 0, 0, 0, 1, -1)) % 256))


def begun(files: Files, known: Catalogue, chance: Random) -> bytes:
    """A Start, mostly of the bank's version, whose channel may be too long, empty, or no UTF-8."""
    channel = chance.choice(TEXTS) * chance.choice((1, 9, CHANNEL_LIMIT[1] // 2, CHANNEL_LIMIT[1], CHANNEL_LIMIT[1] + 1))
    return STREAM.start_entry(known.register.next_id, channel, chance.choice((known.version, known.version, 1, 2)))


STALE: list[Callable[[Files, Catalogue, Random], bytes]] = [recorded, recorded, recorded, settled, copied, copied, numbers, begun]


def append(files: Files, chance: Random) -> None:
    """Puts bytes past the last gate: a whole entry with an open gate after it, a closed one or none; a half one; random bytes."""
    known = read_banks(files.get)
    text = chance.choice(STALE)(files, known, chance)
    after = chance.choice((b"\x01", b"\x00", bytes([closed(chance)]), b""))
    what = chance.random()
    if what < 0.1:
        text = text[: chance.randrange(len(text))]
    elif what < 0.2:
        text = chance.randbytes(chance.randint(1, 40))
    files[known.bank] = files[known.bank][: known.end] + bytes([closed(chance)]) + text + after + chance.randbytes(chance.choice((0, 0, 9)))


def spoil(files: Files, chance: Random) -> None:
    """Damages the files of an archive: a gate and what belongs to it, or what stands past the last one."""
    if chance.random() < 0.3:
        append(files, chance)
        return
    close_gate(files, chance)
    known = read_banks(files.get)
    for change in chance.sample(MORE, chance.choice((0, 0, 1, 1, 2))):
        if change in (spoil_frames, lose_segment) or entry_at(files[known.bank], known.end, known.version):
            change(files, known, chance)


def try_openings(tool: Path, folder: Path, files: Files) -> bool:
    """Compares the commands that open an archive, each over a copy. Returns whether it warns again after `list`."""
    is_again = False
    for word in ("verify", "run", "list", "compact"):
        expect(f"whether {word} ends well", try_opening(tool, folder, files, word) or word == "verify", True)
        if word == "compact":
            expect("whether it warns after compact", warning(files_of(folder)), "")
        else:
            is_again = bool(warning(files_of(folder)))
    return is_again


def try_more(tool: Path, folder: Path, files: Files, chance: Random) -> None:
    """Goes on with an archive by random lines, and looks at it again."""
    write(folder, files)
    script = Script(opened(files))
    add_lines(script, chance)
    script.try_on(tool, folder, "the archive goes on")
    same_state(folder, script.archive)
    look_only(tool, folder, files_of(folder), "after it went on")


def tried(tool: Path, folder: Path, seed: int, is_active: bool) -> Counter[str]:
    """Tries one folder. Returns its counts."""
    chance = Random(seed)
    files = whole(tool, folder, chance, is_active)
    spoil(files, chance)
    known = read_banks(files.get)
    why = shows_hidden(known, files.get)
    write(folder, files)
    look_only(tool, folder, files, "a closed gate")
    try_description(tool, folder, files)
    try_exports(tool, folder, files)
    expect("the files after looks", files_of(folder), files)
    is_again = try_openings(tool, folder, files)
    try_more(tool, folder, files, chance)
    return Counter({"folders": 1, why: 1, "again": bool(why) and is_again, known.bank: 1, f"version {known.version}": 1})


def main() -> int:
    counted = in_folders(__doc__, tried)
    for why in (OPEN_GATE, OF_SETTLE, ""):
        expect(f"whether folders are warned of by {why or 'nothing'}", counted[why] > 0 or counted["folders"] < ENOUGH, True)
    reasons = ", ".join(f"{counted[why]} by {why}" for why in (OPEN_GATE, OF_SETTLE))
    folders = f"{counted['folders']} folders, {counted[BANKS[1]]} with bank B in use, {counted['version 1']} of version 1"
    print(f"{folders}: warned of {reasons}, {counted['']} not at all; {counted['again']} again after list. Each answer is the reader's")
    return 0


if __name__ == "__main__":
    conclude(main)
