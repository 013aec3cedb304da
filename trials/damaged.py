#!/usr/bin/env python3
"""Damages the segment files of archives, and compares each answer of the program with that of a reader of the documents.

The program makes each archive by random lines. In every other one a recording is active at the end. The trial damages one to three
segment files: it changes bytes and header fields, cuts, grows, swaps and removes files. The catalogue stays whole. Then:

1. `list` and `verify` look at the folder with `--read-only`, and `export` writes a damaged recording from a boundary that it had. In half
   of the folders `verify` also opens it.
2. `run` reads each recording, and replays it from boundaries that it had, in each term. Where a recording was active, one is again, and
   blocks are recorded in between. Then it answers 20 commands.
3. A second `run` lists, verifies and replays the recordings again. In every fourth folder `compact` comes before it.

The trial fails at the first line that differs from the answer of `readers/`, which knows docs/STORAGE.md, docs/PROTOCOL.md and
docs/CONTROL.md and nothing of the program. After the commands it also compares the bytes of all segment files, and the state that
the catalogue's entries make.

Usage: trials/damaged.py [--seed S] [--folders N] [--jobs J] [--memory MB] [program]. --memory limits each address space; 0 sets no limit.
"""
import os
import shutil
from collections import Counter
from collections.abc import Callable
from pathlib import Path
from random import Random

from lib import random_lines
from lib.comparison import Script, ended, in_parts, look_only, same_state, try_export, verification, write
from lib.mutations import damage
from readers.archive import Archive, files_of, looked_at, opened
from readers.catalogue import BANKS, NEWEST, Recording, Register
from lib.tool import Fault, conclude, expect, file_system, program, room, trial_words

Trial = Callable[[Path, Path, int, bool], Counter[str]]  # of one folder, by its seed and whether a recording is active at the end

STEPS, COMMANDS = 30, 20
PART = 10  # folders that one worker tries in turn


def made(tool: Path, folder: Path, chance: Random, is_active: bool) -> Archive:
    """An archive that the program made, as the reader sees it. A recording of it is active, or none is. Every other one ends by a checkpoint."""
    archive = Archive({}, Register(NEWEST))
    script = Script(archive)
    for _ in range(STEPS):
        for line in random_lines.line(archive, chance):
            script.ask(line)
    if not is_active:
        script.ask("reopen")
    elif not archive.register.active():
        script.ask(random_lines.start(chance))
        for line in random_lines.blocks(archive, archive.next_session - 1, chance):
            script.ask(line)
    if chance.random() < 0.5:
        script.checkpoint()
    script.try_on(tool, folder, "a whole archive", "--checkpoints")
    return archive


def asked_positions(whole: Archive, known: Recording, chance: Random) -> list[int]:
    """Boundaries that a recording had before the damage, some of each of its last terms, and positions near some."""
    found = random_lines.boundaries(whole, known)
    terms: dict[int, list[int]] = {}
    for at in found:
        terms.setdefault(at // known.term_length, []).append(at)
    chosen = [at for each in list(terms.values())[-4:] for at in chance.sample(each, min(2, len(each)))]
    others = [at + chance.choice((1, 32, -32)) for at in found[:: max(1, len(found) // 2)]]
    return [*found[-3:], *chosen, *(at for at in others if at >= 0)]


def looks(script: Script, whole: Archive, chance: Random) -> None:
    """Reads each recording, also from the boundaries that it had before the damage and from positions near them. Sessions that are open
    record blocks in between."""
    script.ask("list 0 1024")
    for number in sorted(script.archive.register.recordings):
        for session in sorted(script.archive.sessions):
            for line in random_lines.blocks(script.archive, session, chance):
                script.ask(line)
        known = whole.register.recordings.get(number)
        script.look(asked_positions(whole, known, chance) if known else [], number, chance)


def go_on(script: Script, chance: Random) -> None:
    """Makes a recording active: one that is extended, or a new one."""
    stopped = [known for known in script.archive.register.listed() if known.recorded < 2**31 * known.term_length]
    goes_on = stopped and chance.random() < 0.8
    script.ask(random_lines.extension(chance.choice(stopped), chance) if goes_on else random_lines.start(chance))


def export(tool: Path, folder: Path, archive: Archive, whole: Archive, chance: Random) -> bool:
    """Compares `export` of a recording, a damaged one if there is one, from a boundary that it had on, mostly one past the damage.
    Returns whether it exports past damage."""
    recordings = archive.register.listed()
    damaged = [each for each in recordings if not archive.reader().verify(each).startswith("verified")]
    for known in chance.sample(damaged or recordings, min(1, len(recordings))):
        found = random_lines.boundaries(whole, known)
        begin = chance.choice(found[-6:])
        end = chance.choice([None, None, *(at for at in found if at >= begin)])
        is_past = bool(damaged) and begin > int(archive.reader().verify(known).split()[-1])
        return try_export(tool, folder, archive, known, begin, end) and is_past
    return False


def past_damage(script: Script) -> int:
    """How many replays were opened past the first damage of their recording."""
    damage: dict[str, float] = {}
    opened = 0
    for line, told in script.asked:
        words = line.split(" ")
        if words[0] == "verify":
            damage[words[1]] = int(told[0].split()[-1]) if "Damaged" in told[0] else float("inf")
        elif words[0] == "replay" and told[0].startswith("replay"):
            opened += int(words[2]) > damage.get(words[1], float("inf"))
    return opened


def truncation(script: Script, whole: Archive, chance: Random) -> list[str]:
    """A line that truncates a stopped recording to a boundary that it had before the damage, if there is one."""
    active = {known.number for known in script.archive.register.active()}
    stopped = [known for known in whole.register.listed() if known.number not in active]
    chosen = chance.sample(stopped, min(1, len(stopped)))
    return [f"truncate {known.number} {chance.choice(random_lines.boundaries(whole, known))}" for known in chosen]


def commands(script: Script, whole: Archive, chance: Random) -> None:
    """Adds commands: a truncation, an extension, and then what chance gives."""
    steps = truncation(script, whole, chance)
    stopped = [known for known in script.archive.register.listed() if known.recorded < 2**31 * known.term_length]
    if stopped:
        steps.append(random_lines.extension(chance.choice(stopped), chance))
    for line in steps:
        script.ask(line)
    for _ in range(COMMANDS):
        steps = truncation(script, whole, chance) if chance.random() < 0.15 else []
        for line in steps or random_lines.line(script.archive, chance):
            script.ask(line)


def tried(tool: Path, folder: Path, seed: int, is_active: bool) -> Counter[str]:
    """Tries one folder. Returns its counts."""
    chance = Random(seed)
    whole = made(tool, folder, chance, is_active)
    files = files_of(folder)
    damage(files, sorted(files.keys() - set(BANKS)), chance)
    write(folder, files)
    look_only(tool, folder, files, "damaged")
    exported = export(tool, folder, looked_at(files), whole, chance)
    if chance.random() < 0.5:
        done = ended(tool, "verify", folder)
        expect("verify", (done.returncode, done.stdout.decode(), done.stderr.decode()), verification(opened(files)))
    script = Script(opened(files))
    if is_active:
        go_on(script, chance)
    looks(script, whole, chance)
    commands(script, whole, chance)
    script.try_on(tool, folder, "damaged")
    same_state(folder, script.archive)
    again = Script(script.archive)
    if chance.random() < 0.25:
        done = ended(tool, "compact", folder)
        expect("compact", (done.returncode, done.stdout, done.stderr, again.archive.compact()), (0, b"compacted\n", b"", "compacted"))
    again.archive.reopen()
    looks(again, whole, chance)
    again.try_on(tool, folder, "a second process")
    told = [told for _, answers in script.asked + again.asked for told in answers]
    past = past_damage(script) + past_damage(again)
    counts = {"lines": len(script.asked + again.asked), "damaged": sum("Damaged" in each for each in told), "past": past}
    return Counter(folders=1, exported=exported, **counts)


def part(trial: Trial, tool: Path, work: Path, seed: int, begin: int, end: int) -> Counter[str]:
    """Tries some of the folders."""
    counted: Counter[str] = Counter()
    folder = work / str(begin)
    for number in range(begin, end):
        folder.mkdir()
        try:
            counted += trial(tool, folder, seed * 1_000_003 + number, number % 2 == 0)
        except Fault as fault:
            raise Fault(f"folder {number} of seed {seed}, {folder}: {fault}") from fault
        shutil.rmtree(folder)
    return counted


def in_folders(doc: str | None, trial: Trial) -> Counter[str]:
    """Runs a trial of a folder in as many as are asked for. Returns the counts."""
    words = trial_words(doc)
    words.add_argument("--folders", type=int, default=1_000)
    words.add_argument("--jobs", type=int, default=os.cpu_count())
    words.add_argument("--memory", type=int, default=512)
    asked = words.parse_args()
    tool = program(asked.program)
    with room("/dev/shm") as work:
        print(f"seed {asked.seed}, on {file_system(work)}", flush=True)
        ranges = [(begin, min(begin + PART, asked.folders)) for begin in range(0, asked.folders, PART)]
        return in_parts(part, [(trial, tool, work, asked.seed, *each) for each in ranges], asked.jobs, asked.memory)


def main() -> int:
    counted = in_folders(__doc__, tried)
    told = f"{counted['folders']} folders, {counted['lines']} lines, {counted['damaged']} of them answered by Damaged"
    past = f"{counted['past']} replays and {counted['exported']} exports begun past damage"
    print(f"{told}, {past}: each answer is the reader's")
    return 0


if __name__ == "__main__":
    conclude(main)
