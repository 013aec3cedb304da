#!/usr/bin/env python3
"""Gives the program hostile banks, folders, lines and datagrams, and compares each answer with that of a reader of the documents.

1. Banks: the bank that docs/STORAGE.md shows byte for byte, cut to each length, with each bit turned, and each byte set to some values.
2. Folders: the files of an archive that random lines made, mutated: bits, header fields, cuts, growth by zeros and by random bytes, blocks
   copied and swapped inside a file, entries swapped, doubled, removed and changed, files swapped, removed, added and taken from another
   archive. Every other archive ends by a checkpoint; some have one that was not finished.
3. Lines: rows of the table of docs/CONTROL.md, mostly malformed, and first each word of each row bent alone. The reply has to be BadLine
   exactly if `readers/lines.py` finds no form. Any other reply has to have the form of its row.
4. Datagrams: blocks of a recording, mostly mutated, by `write`, `block`, `merge-live` and `merge-replay`.

Each bank and folder is listed, verified, described, exported and replayed, and `frames` prints each segment file that changed. Then `list`,
`verify` or `compact` opens a copy, and one in fifty is served. A look and a refused opening have to leave every byte as it was. An opening
that stops a recording adds one Restart to the bank in use.
`readers/` knows docs/STORAGE.md, docs/PROTOCOL.md and docs/CONTROL.md and nothing of the program. No command may crash, or take more
than five minutes.

Usage: trials/hostile.py [--seed S] [--only PART] [--folders N] [--lines N] [--datagrams N] [--jobs J] [--memory MB] [program]. PART is
banks, folders, lines or datagrams. --memory limits each address space; 0 sets no limit.
"""
import json
import os
import shutil
from collections import Counter
from pathlib import Path
from random import Random

from lib import bent_lines
from lib.bent_datagrams import messages
from lib.bent_datagrams import mutated as mutated_datagram
from lib.comparison import (
    Files, Script, after_an_opening, ended, in_parts, look_only, refusal, same_state, try_export, try_opening, warning, write,
)
from damaged import looks, made
from lib.mutations import MUTATIONS, OF_BANKS, damage
from readers.archive import Archive, files_of, looked_at, opened
from readers.catalogue import BANKS, NEWEST, Catalogue, Recording, Refused, Register, read_banks
from readers.lines import form_of
from readers.segments import frames_of_file, segment_of, stale_files
from serving import Server
from lib.tool import Fault, conclude, expect, file_system, program, room, trial_words
from lib.worked_banks import FORMS, WORKED_FILES, worked_bank

TERM = 2**31 - 2  # the initial term id of recordings and merges that get hostile datagrams: it soon wraps
PART = 20  # folders that one worker tries in turn
SERVED = 0.02  # of banks and folders
LINES_OF_PART = 1_000
NEW_NAMES = "0-5.rec", "77-0.rec", "0-00.rec", "note", "1-9223372036854775807.rec", "2-9223372036854775808.rec"
NOT_OPEN = "the archive is not open: lines that need it are Broken until reopen opens it"


def try_run(tool: Path, folder: Path, files: Files, whole: Archive, chance: Random) -> str:
    """Compares all lines that read an archive. Returns the refusal of its opening, or an empty text."""
    try:
        script = Script(opened(files))
    except Refused as refused:
        done = ended(tool, "run", folder, given=b"list 0 1024\nreopen\nverify 0\npurge\n")
        told = done.returncode, done.stdout.decode(), done.stderr.decode()
        right = f"error 16 Broken\n{refused}\nerror 16 Broken\nerror 22 BadLine\n"
        expect("run", told, (0, right, f"{refused}\n{NOT_OPEN}\n"))
        return str(refused)
    looks(script, whole, chance)
    script.ask("reopen")
    script.ask("list 0 1024")
    script.try_on(tool, folder, "run")
    return ""


def try_description(tool: Path, folder: Path, files: Files) -> None:
    """Compares `describe --json`, without dates and without the reasons why files are stale."""
    done = ended(tool, "describe", folder, "--json")
    try:
        known = read_banks(files.get)
    except Refused as refused:
        expect("describe", (done.returncode, done.stdout.decode(), done.stderr.decode()), refusal(refused))
        return
    told = json.loads(done.stdout)
    for each in told["recordings"]:
        del each["started"], each["stopped"]
    told["stale_files"] = [each["file"] for each in told["stale_files"]]
    expect("describe", (done.returncode, told, done.stderr.decode()), (0, description(known, files), warning(files)))


def description(known: Catalogue, files: Files) -> dict[str, object]:
    """The description of an archive: docs/CONTROL.md, "A page for people"."""
    owners = {name: int(match[1]) for name in files if (match := segment_of(name))}
    unknown = sorted(name for name in owners if owners[name] >= known.register.next_id)
    return {
        "recordings": [described(each, [files[name] for name in owners if owners[name] == each.number]) for each in known.register.listed()],
        "stale_files": stale_files(known.register, files),
        "unknown_files": sorted(unknown, key=lambda name: [int(number) for number in segment_of(name).groups()]),
        "disk_bytes": sum(len(files[name]) for name in owners),
        "segment_files": len(owners),
        "history_entries": known.register.counted,
        "history_limit": known.history_limit,
        "catalogue_version": known.version,
    }


def described(known: Recording, segments: list[bytes]) -> dict[str, object]:
    """The part of a description on one recording."""
    return {
        "recording": known.number,
        "active": known.is_active,
        "channel": known.channel.decode(),
        "source_identity": known.source.decode(),
        "stream_id": known.stream_id,
        "session_id": known.session_id,
        "start_timestamp": known.start_timestamp,
        "stop_timestamp": known.stop_timestamp,
        "start_position": known.start,
        "recorded_position": known.recorded,
        "recorded_bytes": known.recorded - known.start,
        "disk_bytes": sum(map(len, segments)),
        "segment_files": len(segments),
        "initial_term_id": known.initial_term,
        "term_length": known.term_length,
        "segment_length": known.segment_length,
        "mtu": known.mtu,
    }


def try_exports(tool: Path, folder: Path, files: Files) -> None:
    """Compares `export` of the first recording."""
    try:
        archive = looked_at(files)
    except Refused:
        return
    for known in archive.register.listed()[:1]:
        try_export(tool, folder, archive, known)


def try_frames(tool: Path, folder: Path, name: str, text: bytes) -> None:
    """Compares `frames` of a segment file."""
    done = ended(tool, "frames", folder / name)
    right = frames_of_file(text)
    told = done.returncode, done.stdout.decode().splitlines()
    expect(f"frames {name}", told, (3 if right[-1].startswith("error") else 0, right))


def try_folder(tool: Path, folder: Path, files: Files, whole: Archive, chance: Random) -> str:
    """Compares every command that reads a folder. Returns the refusal of its opening, or an empty text."""
    write(folder, files)
    look_only(tool, folder, files, "mutated")
    try_description(tool, folder, files)
    try_exports(tool, folder, files)
    expect("the files after looks", files_of(folder), files)
    refused = try_run(tool, folder, files, whole, chance)
    expect("the files after an opening", files_of(folder), after_an_opening(files))
    try_opening(tool, folder, files, chance.choice(("list", "verify", "compact")))
    if chance.random() < SERVED:
        try_served(tool, folder, files)
    return refused


def try_served(tool: Path, folder: Path, files: Files) -> None:
    """Compares what a server over a copy answers and prints."""
    write(folder, files)
    try:
        right, why = opened(files).answer("list 0 1024"), warning(files)
    except Refused as refused:
        right, why = ["error 16 Broken"], f"the archive is not open: {refused}; lines that need it are Broken, and nothing is recorded\n"
    server = Server(tool, folder, "--quiet")
    told = server.ask("list 0 1024")
    server.quit()
    *errors, last = server.errors().splitlines()
    expect("serve", (told, errors, last[:7]), (right, why.splitlines(), "ended: "))
    expect("the files after serve", files_of(folder), after_an_opening(files))


def try_banks(tool: Path, work: Path, seed: int, begin: int, end: int) -> Counter[str]:
    """Tries some forms of the worked banks."""
    whole, counted, chance = opened(WORKED_FILES), Counter[str](), Random(seed)
    for number in range(begin, end):
        folder = work / f"bank-{number}"
        try:
            refused = try_folder(tool, folder, {**WORKED_FILES, BANKS[0]: worked_bank(number)}, whole, chance)
        except Fault as fault:
            raise Fault(f"form {number} of the worked banks, {folder}: {fault}") from fault
        counted["banks"] += 1
        counted["refused banks"] += bool(refused)
        shutil.rmtree(folder)
    return counted


def has_archive(files: Files) -> bool:
    """Whether a folder has a file of an archive. If it has none, `run` makes a new archive in it."""
    return any(name in BANKS or segment_of(name) for name in files)


def unfinished(bank: bytes, chance: Random) -> bytes:
    """A bank as a compaction or a checkpoint may leave it that stopped before its gate was opened."""
    return b"\x00" + bank[1 : chance.randint(1, len(bank))]


def mutated(files: Files, others: Files, chance: Random) -> Files:
    """The files of an archive, some of them mutated or taken from another archive."""
    before, files, in_use = files, dict(files), read_banks(files.get).bank
    while files == before or not has_archive(files):
        if chance.random() < 0.2:
            name = chance.choice(sorted(files | others))
            files[name] = chance.choice((others.get(name, b""), files.get(name, b""), others[chance.choice(sorted(others))]))
        if chance.random() < 0.1:
            files[chance.choice(NEW_NAMES)] = b"x" * 40
        if chance.random() < 0.1:
            files[in_use] = unfinished(files[in_use], chance)
        if chance.random() < 0.6:
            damage(files, sorted(files), chance, MUTATIONS)
        else:
            damage(files, [in_use], chance, OF_BANKS)
    return files


def try_folders(tool: Path, work: Path, seed: int, begin: int, end: int) -> Counter[str]:
    """Tries some of the folders, which are mutations of one archive."""
    counted, chance = Counter[str](), Random(f"{seed} {begin}")
    folder = work / f"folder-{begin}"
    folder.mkdir()
    made(tool, folder, chance, True)
    others = files_of(folder)
    write(folder, {})
    whole = made(tool, folder, chance, chance.random() < 0.5)
    good = files_of(folder)
    for number in range(begin, end):
        files = mutated(good, others, chance)
        try:
            counted["refused folders"] += bool(try_folder(tool, folder, files, whole, chance))
            for name in sorted(files.keys() - set(BANKS)):
                if files[name] != good.get(name):
                    try_frames(tool, folder, name, files[name])
                    counted["segment files"] += 1
        except Fault as fault:
            raise Fault(f"folder {number} of seed {seed}, {folder}: {fault}") from fault
        counted["folders"] += 1
    shutil.rmtree(folder)
    return counted


def try_lines(tool: Path, work: Path, seed: int, begin: int, end: int) -> Counter[str]:
    """Tries some of the lines in one process, over memory or over a folder."""
    chance = Random(f"{seed} {begin}")
    lines = bent_lines.lines(chance, begin, end)
    folder = work / f"lines-{begin}"
    folder.mkdir()
    over = [folder] if chance.random() < 0.5 else []
    done = ended(tool, "run", *over, given=b"".join(line + b"\n" for line in lines))
    try:
        bent_lines.expect_replies(lines, done.stdout.decode().splitlines())
    except Fault as fault:
        (work / f"lines-{begin}.txt").write_bytes(b"\n".join(lines) + b"\n")
        raise Fault(f"lines {begin} of seed {seed}, {work}/lines-{begin}.txt: {fault}") from fault
    shutil.rmtree(folder)
    return Counter({"lines": end - begin, "lines with a form": sum(form_of(line) is not None for line in lines)})


def datagram(archive: Archive, chance: Random) -> bytes:
    """A datagram of the first recording, at its next position or near the cursor of the merge, mostly mutated."""
    next_one, cursor = archive.sessions[0].end, archive.merge.cursor
    at = chance.choice((next_one, next_one, cursor, cursor, cursor + 32 * chance.randint(-2, 8), chance.randint(0, 99) * 32))
    return mutated_datagram(archive.known(0), max(0, at), chance)


def try_datagrams(tool: Path, work: Path, seed: int, begin: int, end: int) -> Counter[str]:
    """Writes and merges some datagrams in one process."""
    chance = Random(f"{seed} datagrams {begin}")
    script = Script(Archive({}, Register(NEWEST)))
    term_length = chance.choice((65_536, 131_072))
    script.ask(f"start 1001 7 {TERM} {term_length} 1408 {chance.choice((131_072, 262_144))} 0 1000 c")
    for count in (47, 46):  # 47 messages of the MTU's length cover more than a block may
        script.ask(f"block 0 {messages(script.archive.known(0), 0, 1_408, count).hex()}")
    for number in range(end - begin):
        if number % 50 == 0:
            script.ask(f"merge {TERM} {term_length} {chance.choice((0, 64, script.archive.sessions[0].end))}")
        text = datagram(script.archive, chance).hex()
        words = chance.choice((["write 0"], ["block 0"], ["block 0"], ["merge-live"], ["merge-replay"], ["merge-replay", "merge-live"]))
        for word in words:
            script.ask(f"{word} {text}")
        if chance.random() < 0.4:
            script.ask(chance.choice(("settle 0", "merge-take", "merge-take", "merge-state")))
    folder = work / f"datagrams-{begin}"
    folder.mkdir()
    try:
        script.try_on(tool, folder, "datagrams")
        same_state(folder, script.archive)
    except Fault as fault:
        raise Fault(f"datagrams {begin} of seed {seed}, {folder}: {fault}") from fault
    shutil.rmtree(folder)
    refused = sum(answers[0].startswith("error") for _, answers in script.asked)
    return Counter({"datagrams": end - begin, "refusals": refused})


def ranges(count: int, part: int) -> list[tuple[int, int]]:
    """The ranges of a part each that make up a count."""
    return [(begin, min(begin + part, count)) for begin in range(0, count, part)]


def main() -> int:
    words = trial_words(__doc__)
    words.add_argument("--folders", type=int, default=1_000)
    words.add_argument("--lines", type=int, default=10_000)
    words.add_argument("--datagrams", type=int, default=10_000)
    words.add_argument("--jobs", type=int, default=os.cpu_count())
    words.add_argument("--memory", type=int, default=512)
    words.add_argument("--only", help="one part alone, by its name")
    asked = words.parse_args()
    tool = program(asked.program)
    works = {
        "banks": (try_banks, ranges(FORMS, 100)),
        "folders": (try_folders, ranges(asked.folders, PART)),
        "lines": (try_lines, ranges(asked.lines, LINES_OF_PART)),
        "datagrams": (try_datagrams, ranges(asked.datagrams, LINES_OF_PART)),
    }
    with room("/dev/shm") as work:
        print(f"seed {asked.seed}, on {file_system(work)}", flush=True)
        for name, (each, parts) in works.items():
            if asked.only in (None, name):
                counted = in_parts(each, [(tool, work, asked.seed, *part) for part in parts], asked.jobs, asked.memory)
                print(", ".join(f"{count} {what}" for what, count in counted.items()), flush=True)
    print("each answer is the reader's")
    return 0


if __name__ == "__main__":
    conclude(main)
