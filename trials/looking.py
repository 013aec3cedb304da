#!/usr/bin/env python3
"""Looks at archives by the commands that only read: nothing of the folder may change, and what is told is a state that stood.

1. Over archives with active and stopped recordings, stale and unknown files, and damage, each of `list --read-only`,
   `verify --read-only`, `describe` and `describe --json` leaves all files as they were: their bytes, lengths, modes and times of
   change. The same over a folder that may not be written, where its file system can be mounted read-only (else skipped).
2. Beside a `run` that settles block after block, and beside a `serve` that is sent frame after frame, looks: each listing is
   one of those that stood, or a refusal that a moving catalogue explains; `verify` counts the frames of a position that was
   settled.
3. `export` writes what a replay gives: each packet of the capture file is read here by pcap's format, RFC 791 and RFC 768, its
   checksum summed, and its frame compared; where `tshark` is there, its Aeron dissector reads the same frames. Refused, or
   on a full disk, it leaves no file, and one that had the name stays, as one does that has the name of its new file. On a
   terminal it shows how far it has come.
4. An archive of many segment files is listed in a moment where an opening syncs each of them.

Usage: trials/looking.py [--seed S] [--looks N] [--frames N] [--segments N] [program].
"""
import hashlib
import json
import os
import pty
import random
import re
import shutil
import struct
import subprocess
import threading
import time
from pathlib import Path

from lib.mounts import Skipped, make_ext4, mounted
from serving import IN_FLIGHT, Sender, Server, served, start_line
from lib.captures import dissected, told_of_frame
from lib.tool import (
    SESSION_ID, Fault, Session, Stream, aligned, conclude, expect, program, replayed, room, run, trial_words,
)

STREAM = Stream(term_length=65_536, segment_length=65_536)
TERMS = 1_600  # of 2,048 frames each, which take more than a second to read on a fast machine that is idle
LOOKS = [("list", "--read-only"), ("verify", "--read-only"), ("describe",), ("describe", "--json")]


def state(folder: Path) -> dict[str, tuple[object, ...]]:
    """What a folder holds: of each file its bytes, length, mode, owner and times of change, and the folder's own times."""
    told: dict[str, tuple[object, ...]] = {}
    for path in [folder, *sorted(folder.iterdir())]:
        known = os.stat(path)
        digest = hashlib.sha256(path.read_bytes()).hexdigest() if path.is_file() else ""
        told[path.name] = (digest, known.st_size, known.st_mode, known.st_uid, known.st_ino, known.st_mtime_ns, known.st_ctime_ns)
    return told


def look(tool: Path, folder: Path, *words: str) -> tuple[int, str, str]:
    """Status, standard output and standard error of a command that only reads."""
    ended = subprocess.run([tool, words[0], folder, *words[1:]], capture_output=True, text=True)
    return ended.returncode, ended.stdout, ended.stderr


def blocks(recording: int, begin: int, frames: int, payload: bytes) -> list[str]:
    """Lines that record frames of a payload one behind another, from a position on."""
    size = aligned(32 + len(payload))
    return [f"block {recording} {STREAM.message(begin + size * i, payload).hex()}" for i in range(frames)]


def archive(tool: Path, folder: Path) -> None:
    """An archive with a stopped recording, an active one, a purged one, and files that no recording has."""
    run([tool, "create", folder])
    session = Session(tool, folder)
    lines = [STREAM.start("c"), STREAM.start("d"), STREAM.start("e"), *blocks(0, 0, 20, b"hello"), *blocks(1, 0, 9, bytes(1_300)), *blocks(2, 0, 3, b"gone")]
    for line in [*lines, "stop 0 2000", "stop 2 2000", "purge 2"]:
        session.ask(line)
    session.process.kill()
    session.process.wait()
    (folder / "0-65536.rec").write_bytes(bytes(100))
    (folder / "7-0.rec").write_bytes(b"x")
    (folder / "note.txt").write_text("no file of the archive's\n")


def unchanged(tool: Path, folder: Path, what: str) -> list[tuple[int, str, str]]:
    """Looks at a folder in each way, and asks that nothing of it has changed."""
    before = state(folder)
    told = []
    for words in LOOKS:
        told.append(look(tool, folder, *words))
        expect(f"{what}: the folder behind {' '.join(words)}", state(folder), before)
    return told


def try_unchanged(tool: Path, path: Path) -> None:
    """Whole and damaged archives, and no archive."""
    folder = path / "whole"
    archive(tool, folder)
    told = unchanged(tool, folder, "a whole archive")
    expect("statuses", [status for status, _, _ in told], [0, 0, 0, 0])
    expect("listed", [line.split()[3] for line in told[0][1].splitlines()[:-1]], ["2000", "-1"])
    expect("verified", told[1][1], "verified 20\nverified 9\n")
    expect("unknown", json.loads(told[3][1])["unknown_files"], ["7-0.rec"])
    with open(folder / "1-0.rec", "r+b") as file:
        file.seek(4)
        file.write(b"\x09")
    told = unchanged(tool, folder, "a damaged archive")
    expect("damage", (told[1][0], told[1][1]), (3, "verified 20\nerror 15 Damaged 1 0\n"))
    empty = path / "empty"
    empty.mkdir()
    for status, out, _ in unchanged(tool, empty, "an empty folder"):
        expect("an empty folder", (status != 0, out), (True, ""))
    print("unchanged: whole, damaged and empty folders")


def try_mounted(tool: Path, path: Path) -> None:
    """The same on a file system that is mounted read-only."""
    image = path / "image"
    try:
        make_ext4(image, 32 << 20)
        with mounted(path / "disk", "-o", "loop", image) as disk:
            archive(tool, disk / "archive")
        with mounted(path / "disk", "-o", "loop,ro,noatime", image) as disk:
            told = unchanged(tool, disk / "archive", "a read-only mount")
            expect("statuses on a read-only mount", [status for status, _, _ in told], [0, 0, 0, 0])
        print("unchanged: a file system that is mounted read-only")
    except Skipped as why:
        print(f"a read-only mount: skipped, {why}")


class Writer(threading.Thread):
    """Records blocks into a recording until it is told to end, and keeps the positions that were settled."""

    def __init__(self, tool: Path, folder: Path) -> None:
        super().__init__()
        run([tool, "create", folder])
        self.session = Session(tool, folder)
        self.session.ask(STREAM.start("c"))
        # Positions are settled after they are asked for, and told after they are settled.
        self.asked = self.settled = 0
        self.stop = threading.Event()

    def run(self) -> None:
        position = 0
        while not self.stop.is_set():
            self.asked = position + 64
            self.session.ask(f"block 0 {STREAM.message(position, b'looked at').hex()}")
            self.settled = position = position + 64
            time.sleep(0.01)
        self.session.end()


class Fed(threading.Thread):
    """Sends frames of 64 bytes to a served archive until it is told to end, and keeps the positions that were recorded."""

    def __init__(self, server: Server, chance: random.Random) -> None:
        super().__init__()
        self.client = server.client()
        expect("start", list(self.client.ask(start_line(SESSION_ID))), ["started 0 0"])
        self.sender = Sender(server, SESSION_ID, chance)
        self.sender.send(self.sender.publication.setup())
        self.settled = 0
        self.stop = threading.Event()

    @property
    def asked(self) -> int:
        return self.sender.publication.position

    def run(self) -> None:
        while not self.stop.is_set():
            self.sender.message(64)
            self.settled = self.sender.until(self.client, 0, IN_FLIGHT)
            time.sleep(0.005)
        self.sender.until(self.client, 0, 0)
        self.client.close()


def look_beside(tool: Path, folder: Path, writer: Writer | Fed, looks: int, chance: random.Random) -> str:
    """Looks beside a writer of frames of 64 bytes. What is told lies between what was settled before the look and what was asked
    for behind it."""
    verified = moving = 0
    for number in range(looks):
        before = writer.settled
        words = chance.choice(LOOKS)
        status, out, error = look(tool, folder, *words)
        after = writer.asked
        if status == 3 and "being written" in error:
            moving += 1
            continue
        expect(f"look {number}, {' '.join(words)}", status, 0)
        if words[0] == "verify":
            frames = int(out.split()[1])
            expect(f"look {number}: {frames} frames stood", before // 64 <= frames <= after // 64, True)
            verified += 1
        elif words == ("describe", "--json"):
            told = json.loads(out)["recordings"][0]
            expect(f"look {number}: the position stood", before <= told["recorded_position"] <= after, True)
            expect(f"look {number}: it is active", told["active"], True)
        elif words[0] == "list":
            expect(f"look {number}: listed as active", out.split()[3], "-1")
    return f"{looks} looks, {verified} of them verifications, {moving} told of a moving catalogue, {writer.settled // 64} frames"


def try_beside(tool: Path, path: Path, looks: int, chance: random.Random) -> None:
    """Looks beside a `run` that settles block after block, and beside a server that is sent frame after frame."""
    writer = Writer(tool, path / "written")
    writer.start()
    try:
        told = look_beside(tool, path / "written", writer, looks, chance)
    finally:
        writer.stop.set()
        writer.join()
    print(f"beside a writer: {told}")
    with served(tool) as (server, folder):
        fed = Fed(server, chance)
        fed.start()
        try:
            told = look_beside(tool, folder, fed, looks, chance)
        finally:
            fed.stop.set()
            fed.join()
        server.quit()
    print(f"beside a server: {told}")


def packets(capture: bytes) -> list[tuple[str, int, bytes]]:
    """Address, port and datagram of each packet of a capture file. Each has to be as docs/PROTOCOL.md says."""
    magic, major, minor, zone, digits, most, link = struct.unpack_from("<IHHiIII", capture)
    expect("the capture's header", (magic, major, minor, zone, digits, most, link), (0xA1B2C3D4, 2, 4, 0, 0, 65_535, 101))
    told, at = [], 24
    while at < len(capture):
        seconds, micros, kept, length = struct.unpack_from("<IIII", capture, at)
        packet = capture[at + 16 : at + 16 + kept]
        expect("a record", (seconds, micros, length, len(packet)), (0, 0, kept, kept))
        words = struct.unpack_from(">10H", packet)
        total = sum(words)
        expect("the checksum", (total & 0xFFFF) + (total >> 16), 0xFFFF)
        expect("the header of IPv4", (words[0], words[1], words[2:5], packet[12:16]), (0x4500, kept, (0, 0, 0x4011), bytes((127, 0, 0, 1))))
        source, port, size, unsummed = struct.unpack_from(">4H", packet, 20)
        expect("the header of UDP", (source, size, unsummed), (port, kept - 20, 0))
        told.append((".".join(map(str, packet[16:20])), port, packet[28:]))
        at += 16 + kept
    return told


class Recorded:
    """Lines that record frames, as many to a block as it may have."""

    def __init__(self) -> None:
        self.lines: list[str] = []
        self.block = b""

    def add(self, frame: bytes, size: int) -> None:
        """A frame, which takes so many bytes of the stream."""
        self.block = self.block.ljust(aligned(len(self.block)), b"\0")
        if len(self.block) + size > 65_536:
            self.end_block()
        self.block += frame

    def end_block(self) -> None:
        if self.block:
            self.lines.append(f"block 0 {self.block.hex()}")
        self.block = b""


def try_export(tool: Path, path: Path, frames: int) -> None:
    """Exports a recording of frames of many lengths, with pads between terms, whole and in part, and compares it with a replay."""
    folder, capture = path / "exported", path / "frames.pcap"
    run([tool, "create", folder])
    payloads = [bytes([number % 251]) * (1 + number % 1_300) for number in range(frames)]
    recorded, position, ends = Recorded(), 0, [0]
    for payload in payloads:
        size = aligned(32 + len(payload))
        if position // 65_536 != (position + size - 1) // 65_536:
            rest = 65_536 - position % 65_536
            recorded.end_block()
            recorded.add(STREAM.header(position, rest, 0), rest)
            recorded.end_block()
            position += rest
            ends.append(position)
        if position % 65_536 == 0:
            recorded.end_block()
        recorded.add(STREAM.message(position, payload), size)
        position += size
        ends.append(position)
    recorded.end_block()
    lines = [STREAM.start("aeron:udp?endpoint=224.0.1.1:40456|mtu=1408"), *recorded.lines]
    run([tool, "run", folder], [*lines, "stop 0 2000"])
    begun = time.monotonic()
    expect("exported", look(tool, folder, "export", "0", "--pcap", str(capture)), (0, "exported\n", ""))
    took = time.monotonic() - begun
    told = [bytes.fromhex(line.split()[2]) for line in replayed(tool, folder, 0, 0, len(ends))]
    sent = [frame if frame[6] == 0 else frame.ljust(aligned(len(frame)), b"\0") for frame in told]
    expect("the frames", packets(capture.read_bytes()) == [("224.0.1.1", 40_456, frame) for frame in sent], True)
    if shutil.which("tshark"):
        differences = sum(one != other for one, other in zip(dissected(capture, port=40_456), map(told_of_frame, told), strict=True))
        expect("differences between what was recorded and what tshark reads", differences, 0)
        print(f"{len(told)} frames, as tshark reads them")
    else:
        print("tshark: skipped, it is not there")
    middle = len(ends) // 2
    expect("a part", look(tool, folder, "export", "0", "--from", str(ends[1]), "--to", str(ends[middle]), "--pcap", str(capture))[0], 0)
    part = capture.read_bytes()
    expect("the part's frames", [frame for _, _, frame in packets(part)] == sent[1:middle], True)
    for words, status in ((("1",), 1), (("0", "--from", "32"), 1), (("0", "--to", str(position + 32)), 1)):
        expect(f"export {words}", look(tool, folder, "export", *words, "--pcap", str(capture))[0], status)
        expect("the file of before", capture.read_bytes() == part, True)
        expect("no part is left", sorted(name.name for name in path.glob("frames.pcap*")), ["frames.pcap"])
    try_parts(tool, path, folder)
    print(f"{len(sent)} frames exported in {took:.1f} s, as replayed")


def try_parts(tool: Path, path: Path, folder: Path) -> None:
    """Files that have the name of an export's new file, as one does that a killed export left: no export touches them."""
    kept = {path / name: name.encode() for name in ("kept.pcap.part", "kept.pcap.part1")}
    for name, text in kept.items():
        name.write_bytes(text)
    for recording, status in (("0", 0), ("1", 1)):
        expect("export beside them", look(tool, folder, "export", recording, "--pcap", str(path / "kept.pcap"))[0], status)
        expect("they stay", {name: name.read_bytes() for name in path.glob("kept.pcap.*")}, kept)


def try_full(tool: Path, path: Path) -> None:
    """An export onto a disk that is full: why, and no file."""
    try:
        with mounted(path / "small", "-t", "tmpfs", "-o", "size=16k", "tmpfs") as disk:
            told = look(tool, path / "exported", "export", "0", "--pcap", str(disk / "frames.pcap"))
            right = 3, "", "error 17 DeviceFault\nthe capture file cannot be written: No space left on device\n"
            expect("a full disk", told, right)
            expect("what is left on it", list(disk.iterdir()), [])
        print("a full disk: told, and nothing is left")
    except Skipped as why:
        print(f"a full disk: skipped, {why}")


def on_terminal(words: list[str | Path]) -> tuple[int, str]:
    """Status of a command, and what it writes on a terminal as its standard error."""
    terminal, end = pty.openpty()
    ended = subprocess.Popen(words, stdout=subprocess.DEVNULL, stderr=end)
    os.close(end)
    told = b""
    try:
        while part := os.read(terminal, 65_536):
            told += part
    except OSError:  # its other end was closed
        pass
    os.close(terminal)
    return ended.wait(), told.decode()


def try_terminal(tool: Path, path: Path) -> None:
    """Commands that last tell on a terminal how far they are: hundredths that rise, in a line that goes at the end."""
    folder = path / "long"
    run([tool, "create", folder])
    block = lambda begin: b"".join(STREAM.header(begin + offset, 32, 1) for offset in range(0, 65_536, 32))
    run([tool, "run", folder], [STREAM.start("c"), *(f"block 0 {block(begin).hex()}" for begin in range(0, TERMS * 65_536, 65_536))])
    export = ["export", folder, "0", "--pcap", path / "long.pcap"]
    for words in (["verify", folder, "--read-only"], export, [*export, "--from", str(TERMS // 4 * 65_536)]):
        status, told = on_terminal([tool, *words])
        line = re.compile(r"\rrecording 0 +(\d+) % +\d+ MB/s\x1b\[K")
        shown = [int(percent) for percent in line.findall(told)]
        expect(f"{words[0]}: hundredths", (status, shown == sorted(shown), len(shown) > 1), (0, True, True))
        rest = line.sub("", told).removeprefix("\r\x1b[K").replace("\r\n", "\n")
        expect(f"{words[0]}: beside them", rest, summary(TERMS * 2_048) if words[0] == "verify" else "")
    print("progress: told on a terminal")


def summary(frames: int) -> str:
    """What `verify` found in all, in a recording of frames without a payload."""
    return f"recordings 1, frames {frames}, bytes {32 * frames}, damaged 0, not read 0\n"


def try_many(tool: Path, path: Path, segments: int) -> None:
    """Lists an archive of many segment files by both commands."""
    folder = path / "many"
    run([tool, "create", folder])
    run([tool, "run", folder], [STREAM.start("c"), *blocks(0, 0, 1, b"first"), "stop 0 2000"])
    for number in range(segments):
        (folder / f"0-{(number + 1) * 65_536}.rec").write_bytes(bytes(64))
    times = []
    for words in (("list", "--read-only"), ("list",)):
        begun = time.monotonic()
        expect("listed", look(tool, folder, *words)[0], 0)
        times.append(time.monotonic() - begun)
    print(f"{segments} segment files: looked at in {times[0]:.2f} s, opened in {times[1]:.2f} s")
    if times[0] > 1:
        raise Fault(f"a look at {segments} segment files took {times[0]:.2f} s")


def main() -> int:
    words = trial_words(__doc__)
    words.add_argument("--looks", type=int, default=1_000)
    words.add_argument("--frames", type=int, default=20_000)
    words.add_argument("--segments", type=int, default=20_000)
    asked = words.parse_args()
    tool = program(asked.program)
    chance = random.Random(asked.seed)
    with room() as path:
        try_unchanged(tool, path)
        try_mounted(tool, path)
        try_beside(tool, path, asked.looks, chance)
        try_export(tool, path, asked.frames)
        try_full(tool, path)
        try_terminal(tool, path)
        try_many(tool, path, asked.segments)
    print(f"seed {asked.seed}: as it has to be")
    return 0


if __name__ == "__main__":
    conclude(main)
