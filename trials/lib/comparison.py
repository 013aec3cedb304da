"""Compares the program with the readers of the documents, over many folders in parallel."""
import resource
import shutil
import struct
import subprocess
from collections import Counter
from collections.abc import Callable, Iterable
from concurrent.futures import ProcessPoolExecutor
from dataclasses import dataclass, field
from pathlib import Path
from random import Random

from readers.archive import Archive, files_of, looked_at, opened
from readers.blocks import BAD_POSITION
from readers.catalogue import Recording, Refused, asks, asks_to_compact, damaged, read_banks
from readers.closed_gate import shows_hidden
from readers.segments import PAD, aligned
from lib.tool import Fault, expect, hides, is_calm

MOST_POLLS = 6  # of a replay
HANGS = 300  # seconds after which a command counts as hung
OF_COMMAND = 64  # megabytes of address space that a command has, where there is a limit at all
LONGEST_MESSAGE = 65_504  # bytes of a message in a datagram
RESTART = b"\x01\x08\x00\x00\x00"  # its open gate, kind and length, and the next gate
NO_SPARE = "there is no catalogue, or no other bank that a compaction may write\n"  # docs/CONTROL.md, "Standard error"

Files = dict[str, bytes]


@dataclass
class Script:
    """Lines for an archive, each with the reply that the documents ask for."""

    archive: Archive
    asked: list[tuple[str, list[str]]] = field(default_factory=list)

    def ask(self, line: str) -> list[str]:
        """Adds a line. Returns its reply."""
        told = self.archive.answer(line)
        self.asked.append((line, told))
        return told

    def replay(self, number: int, position: int, length: int, most: int) -> None:
        """Adds a replay from a position: its opening, some polls and its closing."""
        told = self.ask(f"replay {number} {position} {length}")[0]
        if not told.startswith("replay "):
            return
        opened = told.split()[1]
        for _ in range(MOST_POLLS):
            if not self.ask(f"poll {opened} {most}")[-1].startswith("more"):
                break
        self.ask(f"close {opened}")

    def look(self, positions: Iterable[int], number: int, chance: Random) -> None:
        """Adds all lines that read a recording. Replays begin at its start and at some positions."""
        self.ask(f"positions {number}")
        self.ask(f"verify {number}")
        self.replay(number, -1, -1, 4_096)
        self.replay(number, -1, -1, 1)
        for position in positions:
            self.replay(number, position, chance.choice((-1, 64, 65_536)), chance.choice((1, 3, 4_096)))

    def checkpoint(self) -> None:
        """Adds a checkpoint, which changes no later reply."""
        self.asked.append(("checkpoint", ["checkpointed"]))

    def try_on(self, tool: Path, folder: Path, what: str, *options: str) -> None:
        """Runs the lines by the program with some options, and compares the replies."""
        told = told_by(tool, folder, [line for line, _ in self.asked], *options)
        at = 0
        for line, right in self.asked:
            expect(f"{what}: {line[:100]}", told[at : at + len(right)], right)
            at += len(right)
        expect(f"{what}: after the last line", told[at:], [])


def ended(tool: Path, *words: str | Path, given: bytes = b"") -> subprocess.CompletedProcess[bytes]:
    """Runs a command. Raises Fault if it crashes or hangs."""
    pipe = subprocess.PIPE
    with subprocess.Popen([tool, *words], stdin=pipe, stdout=pipe, stderr=pipe) as process:
        try:
            if resource.getrlimit(resource.RLIMIT_AS)[0] != resource.RLIM_INFINITY:
                resource.prlimit(process.pid, resource.RLIMIT_AS, (OF_COMMAND << 20, OF_COMMAND << 20))
            out, error = process.communicate(given, timeout=HANGS)
        except ProcessLookupError:
            out, error = process.communicate()
        except subprocess.TimeoutExpired as hung:
            process.kill()
            raise Fault(f"{' '.join(map(str, words))} didn't end") from hung
    if process.returncode not in (0, 1, 3):
        raise Fault(f"{' '.join(map(str, words))} ended with status {process.returncode}: {error[-1_000:].decode(errors='replace')}")
    return subprocess.CompletedProcess([tool, *words], process.returncode, out, error)


def told_by(tool: Path, folder: Path, lines: Iterable[str], *options: str) -> list[str]:
    """The replies of `run` with some options to some lines. Raises Fault if it reports a failure, or warns of a closed gate without a reason."""
    warned = warning(files_of(folder))
    done = ended(tool, "run", folder, *options, given="".join(f"{line}\n" for line in lines).encode())
    error = done.stderr.decode()
    expect("run: its status, and its first line of standard error", (done.returncode, error[: len(warned)]), (0, warned))
    expect("run: whether the rest of standard error is calm", (is_calm(error[len(warned) :]), error), (True, error))
    return done.stdout.decode().splitlines()


def warning(files: Files) -> str:
    """The line of standard error that warns of an entry past the closed gate. An empty text if none is due."""
    try:
        known = read_banks(files.get)
    except Refused:
        return ""
    return hides(known.bank, known.end) if shows_hidden(known, files.get) else ""


def verification(archive: Archive, warned: str = "") -> tuple[int, str, str]:
    """Exit status, standard output and standard error of `verify`: docs/CONTROL.md, "The program" and "Standard error"."""
    out, error = "", warned
    frames = size = damaged = 0
    for known in archive.register.listed():
        told = archive.reader().verify(known)
        out += f"{told}\n"
        if told.startswith("verified"):
            frames, size = frames + int(told.split()[1]), size + known.recorded - known.start
        else:
            name, offset = known.file(int(told.split()[-1]))
            error += f"{name}: damaged at offset {offset}\n"
            damaged += 1
    error += f"recordings {len(archive.register.recordings)}, frames {frames}, bytes {size}, damaged {damaged}, not read 0\n"
    return (3 if damaged else 0), out, error


def refusal(refused: Refused, warned: str = "") -> tuple[int, str, str]:
    """Exit status, standard output and standard error of a command that a folder's archive refuses."""
    return (3 if " 15 " in str(refused) else 1), "", f"{warned}{refused}\n"


def answer_of(word: str, files: Files) -> tuple[int, str, str]:
    """Exit status, standard output and standard error of a command that opens an archive. `run` is asked `list 0 1024`."""
    warned = warning(files)
    try:
        archive = opened(files)
        if word == "compact":
            asks_to_compact(read_banks(files.get), files.get)
    except Refused as refused:
        status, out, error = refusal(refused, warned)
        return status, out, error + NO_SPARE * (word == "compact" and "NotCatalogue" in error)
    if word == "verify":
        return verification(archive, warned)
    listed = "".join(f"{line}\n" for line in archive.answer("list 0 1024"))
    return 0, "compacted\n" if word == "compact" else listed, warned


def try_opening(tool: Path, folder: Path, files: Files, word: str) -> bool:
    """Compares a command that opens an archive, over a copy, and the files after it. Returns whether it ends with status 0."""
    write(folder, files)
    done = ended(tool, word, folder, given=b"list 0 1024\n" if word == "run" else b"")
    right = answer_of(word, files)
    expect(word, (done.returncode, done.stdout.decode(), done.stderr.decode()), right)
    if word == "compact" and right[0] == 0:
        archive = opened(files)
        archive.compact()
        same_state(folder, archive)
    else:
        expect(f"the files after {word}", files_of(folder), after_an_opening(files))
    return right[0] == 0


def same_state(folder: Path, archive: Archive) -> None:
    """Compares the files of a folder with those of an archive."""
    found = looked_at(files_of(folder))
    expect("the segment files after the commands", sorted(found.files), sorted(archive.files))
    for name, text in archive.files.items():
        expect(f"{name} after the commands", found.files[name].hex(), text.hex())
    expect("the state that the entries make after the commands", state(found), state(archive))


def state(archive: Archive) -> tuple[dict[int, Recording], int, int]:
    """The recordings, the next id and the count of the history."""
    return archive.register.recordings, archive.register.next_id, archive.register.counted


def look_only(tool: Path, folder: Path, files: Files, what: str) -> None:
    """Compares `list --read-only` and `verify --read-only` of a folder."""
    told = [ended(tool, word, folder, "--read-only") for word in ("list", "verify")]
    told = [(done.returncode, done.stdout.decode(), done.stderr.decode()) for done in told]
    try:
        archive = looked_at(files)
        right = [(0, "".join(f"{line}\n" for line in archive.answer("list 0 1024")), ""), verification(archive)]
    except Refused as refused:
        right = [refusal(refused)] * 2
    expect(f"{what}: list --read-only", told[0], right[0])
    expect(f"{what}: verify --read-only", told[1], right[1])


def try_export(tool: Path, folder: Path, archive: Archive, known: Recording, begin: int | None = None, end: int | None = None) -> bool:
    """Compares `export` of a recording, between two positions where they are given. Returns whether it exports."""
    capture = folder.with_suffix(".pcap")
    given = ("--from", begin), ("--to", end)
    words = [text for word, position in given if position is not None for text in (word, str(position))]
    done = ended(tool, "export", folder, str(known.number), *words, "--pcap", capture)
    told = done.returncode, done.stdout.decode(), done.stderr.decode(), capture.exists()
    what = " ".join(["export", str(known.number), *words])
    try:
        right = sent(archive, known, known.start if begin is None else begin, known.recorded if end is None else end)
    except Refused as refused:
        expect(what, told, (*refusal(refused), False))
        return False
    expect(what, told, (0, "exported\n", "", True))
    expect(f"{what}: its packets", packets(capture.read_bytes()), right)
    capture.unlink()
    return True


def sent(archive: Archive, known: Recording, begin: int, end: int) -> list[bytes]:
    """What a capture holds of each frame between two positions: docs/PROTOCOL.md, "Captures"; docs/CONTROL.md, "Exporting frames"."""
    asks(known.start <= begin <= end <= known.recorded, BAD_POSITION)
    asks(archive.reader().is_boundary(known, begin), BAD_POSITION)
    found, last = [], begin
    for at, frame in archive.reader().frames(known, begin, end):
        asks(frame.kind == PAD or frame.length <= LONGEST_MESSAGE, damaged(known.number, at))
        text = frame.encoding()
        found.append(text if frame.kind == PAD else text.ljust(aligned(len(text)), b"\x00"))
        last = at + aligned(frame.length)
    asks(last == end, BAD_POSITION)
    return found


def packets(text: bytes) -> list[bytes]:
    """The frames in the packets of a capture file."""
    found, at = [], 24
    while at < len(text):
        length = struct.unpack_from("<I", text, at + 8)[0]
        found.append(text[at + 16 + 28 : at + 16 + length])
        at += 16 + length
    return found


def after_an_opening(files: Files) -> Files:
    """The files of an archive after an opening: a Restart is added if a recording was active, and nothing else changes."""
    try:
        known = read_banks(files.get)
    except Refused:
        return files
    if not known.register.active():
        return files
    text = files[known.bank]
    return {**files, known.bank: text[: known.end] + RESTART + text[known.end + len(RESTART) :]}


def write(folder: Path, files: Files) -> None:
    """Makes a folder with these files."""
    shutil.rmtree(folder, ignore_errors=True)
    folder.mkdir()
    for name, text in files.items():
        (folder / name).write_bytes(text)


def limit(memory: int) -> None:
    """Limits the address space of this process and of its children, in megabytes. 0 sets no limit."""
    if memory:
        resource.setrlimit(resource.RLIMIT_AS, (memory << 20, memory << 20))


def in_parts(work: Callable[..., Counter[str]], parts: Iterable[tuple[object, ...]], jobs: int, memory: int) -> Counter[str]:
    """Runs the parts of some work in parallel, and adds up their counts. The first fault ends it."""
    counted: Counter[str] = Counter()
    with ProcessPoolExecutor(jobs, initializer=limit, initargs=(memory,)) as pool:
        runs = [pool.submit(work, *part) for part in parts]
        try:
            for one in runs:
                counted += one.result()
        except BaseException:
            pool.shutdown(cancel_futures=True)
            raise
    return counted
