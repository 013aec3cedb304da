#!/usr/bin/env python3
"""Lets the file system of a folder run full under an archive, and asks what is there afterwards.

Usage: trials/full_disks.py [program]. It mounts a tmpfs of 4 MiB and an ext4 of 8 MiB; what may not be mounted here is skipped,
and said to be.

The disk runs full under the writing of a block, of an entry of the catalogue, of the entry by which an opening stops the
recordings that were active, and of what a compaction writes. Each time the line that meets it is DeviceFault, further changes are Broken, what was settled is
read, and `reopen` within the process works once there is room (docs/STORAGE.md, "Folders"). The next process finds what was
settled, and with room again it goes on. Ends with status 1 where anything is wrong.
"""
import os
import shutil
import subprocess
import sys
from pathlib import Path

from lib.mounts import Skipped, make_ext4, mounted
from standard_error import CLOSED
from lib.tool import TIMESTAMP, Fault, Session, Stream, expect, program, room, run

STREAM = Stream(term_length=2**30, segment_length=2**30)
LENGTH = 1_408  # bytes of a frame
BLOCK = 46 * LENGTH  # bytes of a block
POLLED = 4_096  # frames of a poll
BROKEN, DEVICE_FAULT = ["error 16 Broken"], ["error 17 DeviceFault"]
CHANGES = [STREAM.start("late"), f"stop 0 {TIMESTAMP}", "write 0 00", "truncate 0 0", "purge 0"]


def frames(begin: int) -> list[tuple[int, bytes]]:
    """The frames of the block that begins at a position, each with its position."""
    places = range(begin, begin + BLOCK, LENGTH)
    return [(place, STREAM.message(place, place.to_bytes(8, "little") * ((LENGTH - 32) // 8))) for place in places]


def block(session: int, begin: int) -> str:
    """The line that records the block of a position."""
    return f"block {session} " + "".join(text.hex() for _, text in frames(begin))


class Archive:
    """An archive on a file system that runs full, beside files that take the rest of the room."""

    def __init__(self, tool: Path, disk: Path) -> None:
        self.tool, self.folder, self.ballast = tool, disk / "archive", disk / "ballast"
        self.folder.mkdir()
        expect("create", run([self.tool, "create", self.folder]), ["created"])

    def session(self) -> Session:
        return Session(self.tool, self.folder)

    def begun(self) -> Session:
        """A session that has started recording 0."""
        session = self.session()
        expect("start", session.ask(STREAM.start("c")), ["started 0 0"])
        return session

    def extended(self, when: str, position: int) -> Session:
        """A session that goes on with recording 0 from a position."""
        session = self.session()
        expect(f"extend, {when}", session.ask(STREAM.extend(0, position)), ["extended 0"])
        return session

    def fill(self, most: int) -> None:
        """Takes so many bytes of the file system, or all that are left."""
        with open(self.ballast, "ab", buffering=0) as file:
            size = 65_536
            while most >= size > 0:
                try:
                    most -= file.write(bytes(size))
                except OSError:
                    size //= 2
            os.fsync(file.fileno())

    def make_room(self) -> None:
        self.ballast.unlink()

    def expect_broken(self, session: Session) -> None:
        """Behind a fault each change is Broken."""
        for line in CHANGES:
            expect(f"{line}, behind the fault", session.ask(line), BROKEN)

    def expect_ended(self, session: Session) -> None:
        expect("quit", session.ask("quit"), ["bye"])
        expect("the status", session.end(), 0)

    def expect_reopened(self, session: Session, active: int, position: int) -> None:
        """With room the same process opens the archive again, and goes on with recording 0 from a position."""
        self.make_room()
        expect("reopen, with room", session.ask("reopen"), [f"reopened {active}"])
        expect("extend, reopened", session.ask(STREAM.extend(0, position)), ["extended 0"])
        expect("block, reopened", session.ask(block(0, position)), [f"settled {position + BLOCK}"])
        self.expect_ended(session)
        self.expect_recorded("reopened", position + BLOCK)

    def expect_recorded(self, what: str, position: int) -> None:
        """The next process replays recording 0 up to a position, and verifies it."""
        sent = [line for begin in range(0, position, BLOCK) for line in frames(begin)]
        polls = [f"poll 0 {POLLED}"] * (len(sent) // POLLED + 1)
        told = run([self.tool, "run", self.folder], ["positions 0", "verify 0", "replay 0 0 -1", *polls])
        told = [line for line in told if line != "done" and not line.startswith("more ")]
        right = [f"positions 0 {position} {position}", f"verified {len(sent)}", "replay 0"]
        right += [f"frame {place} {text.hex()}" for place, text in sent]
        expect(f"{what}, in the next process", told, right)

    def expect_extended(self, position: int) -> None:
        """The next process goes on with recording 0 from a position."""
        session = self.extended("with room", position)
        expect("block, with room", session.ask(block(0, position)), [f"settled {position + BLOCK}"])
        expect("the status, with room", session.end(), 0)
        self.expect_recorded("with room", position + BLOCK)

    def end(self) -> None:
        shutil.rmtree(self.folder)


def full_in_a_segment(archive: Archive) -> str:
    """The write of a block meets the full disk."""
    archive.fill(2**20)
    session, position = archive.begun(), 0
    while (told := session.ask(block(0, position))) == [f"settled {position + BLOCK}"]:
        position += BLOCK
    expect("the block that met the full disk", told, DEVICE_FAULT)
    expect("what is recorded", session.ask("positions 0"), [f"positions 0 {position} -1"])
    expect("verify 0, of the file whose write has failed", session.ask("verify 0"), [f"verified {position // LENGTH}"])
    archive.expect_broken(session)
    archive.expect_ended(session)
    archive.expect_recorded("still full", position)
    session = archive.extended("still full", position)
    expect("block, still full", session.ask(block(0, position)), DEVICE_FAULT)
    archive.expect_broken(session)
    archive.expect_reopened(session, 1, position)
    archive.expect_extended(position + BLOCK)
    return f"full in a segment: {position // LENGTH} frames were settled and are there"


def full_in_the_catalogue(archive: Archive) -> str:
    """The entry of a start meets the full disk, while the segment files have what they need."""
    session = archive.begun()
    expect("block", session.ask(block(0, 0)), [f"settled {BLOCK}"])
    archive.fill(sys.maxsize)
    channel, count = "d" * 512, 1
    while (told := session.ask(STREAM.start(channel))) == [f"started {count} {count}"]:
        count += 1
    expect("the start that met the full disk", told, DEVICE_FAULT)
    expect("verify 0, behind the fault", session.ask("verify 0"), ["verified 46"])
    archive.expect_broken(session)
    archive.expect_ended(session)
    right = [STREAM.descriptor(0, -1, BLOCK, "c")] + [STREAM.descriptor(number, -1, 0, channel) for number in range(1, count)]
    right.append(f"end {count}")
    expect("list, still full", run([archive.tool, "list", archive.folder]), right)
    archive.expect_recorded("still full", BLOCK)
    session = archive.session()
    expect("the start, still full", session.ask(STREAM.start(channel)), DEVICE_FAULT)
    archive.expect_reopened(session, 0, BLOCK)
    archive.expect_extended(2 * BLOCK)
    return f"full in the catalogue: {count} recordings were started and are there"


def full_at_an_opening(archive: Archive) -> str:
    """The entry by which an opening stops recordings has no room in the catalogue's last page."""
    session = archive.begun()
    for number, length in enumerate([445] * 7 + [442], start=1):
        expect("start", session.ask(STREAM.start("d" * length)), [f"started {number} {number}"])
    expect("bytes of the catalogue", (archive.folder / "catalogue-a.bank").stat().st_size, 4_095)
    expect("the status", session.end(), 0)
    archive.fill(sys.maxsize)
    ended = subprocess.run([archive.tool, "list", archive.folder], capture_output=True, text=True)
    why = "catalogue-a.bank: write: No space left on device"
    right = 3, "", [*DEVICE_FAULT, why]
    expect("list, still full", (ended.returncode, ended.stdout, ended.stderr.splitlines()), right)
    told = run([archive.tool, "run", archive.folder], ["list 0 1", "reopen", "quit"], [why, *DEVICE_FAULT, CLOSED.strip()])
    expect("run, still full", told, [*BROKEN, *DEVICE_FAULT, "bye"])
    archive.make_room()
    archive.expect_recorded("with room", 0)
    archive.expect_extended(0)
    return "full at an opening: it is refused until there is room, and then nothing is lost"


def full_in_a_compaction(archive: Archive) -> str:
    """What a compaction writes into the other bank meets the full disk: nothing is lost, and with room it is compacted."""
    session, channel, count = archive.begun(), "d" * 512, 20
    expect("block", session.ask(block(0, 0)), [f"settled {BLOCK}"])
    for number in range(1, count):
        expect("start", session.ask(STREAM.start(channel)), [f"started {number} {number}"])
    expect("the status", session.end(), 0)
    right = [STREAM.descriptor(0, -1, BLOCK, "c")] + [STREAM.descriptor(number, -1, 0, channel) for number in range(1, count)]
    right.append(f"end {count}")
    expect("list", run([archive.tool, "list", archive.folder]), right)
    archive.fill(sys.maxsize)
    ended = subprocess.run([archive.tool, "compact", archive.folder], capture_output=True, text=True)
    why = [*DEVICE_FAULT, "catalogue-b.bank: write: No space left on device"]
    expect("compact, still full", (ended.returncode, ended.stdout, ended.stderr.splitlines()), (3, "", why))
    expect("list, still full", run([archive.tool, "list", archive.folder]), right)
    archive.expect_recorded("still full", BLOCK)
    session = archive.session()
    expect("compact in a script, still full", session.ask("compact"), DEVICE_FAULT)
    expect("behind it", session.ask("positions 0"), BROKEN)
    expect("reopen, still full", session.ask("reopen"), ["reopened 0"])
    expect("verify 0, reopened", session.ask("verify 0"), ["verified 46"])
    archive.make_room()
    expect("compact, with room", session.ask("compact"), ["compacted"])
    archive.expect_ended(session)
    expect("compact, in the next process", run([archive.tool, "compact", archive.folder]), ["compacted"])
    expect("list, with room", run([archive.tool, "list", archive.folder]), right)
    archive.expect_recorded("compacted", BLOCK)
    archive.expect_extended(BLOCK)
    return f"full in a compaction: {count} recordings are there, before it and behind it"


PARTS = full_in_a_segment, full_in_the_catalogue, full_at_an_opening, full_in_a_compaction


def try_all(tool: Path, work: Path, disk: Path) -> None:
    """Each part on a small file system. An archive of which something was found wrong is copied out of it."""
    for part in PARTS:
        archive = Archive(tool, disk)
        try:
            print(f"{disk.name}, {part(archive)}")
        except Fault as fault:
            shutil.copytree(archive.folder, work / "archive")
            raise Fault(f"{disk.name}, {part.__name__}: {fault}") from fault
        archive.end()


def main() -> int:
    tool = program(sys.argv[1] if len(sys.argv) > 1 else None)
    with room() as work:
        try:
            with mounted(work / "tmpfs", "-t", "tmpfs", "-o", "size=4m", "tmpfs") as disk:
                try_all(tool, work, disk)
        except Skipped as why:
            print(f"tmpfs: skipped, {why}")
        try:
            make_ext4(work / "image", 8 * 2**20)
            with mounted(work / "ext4", "-o", "loop", work / "image") as disk:
                try_all(tool, work, disk)
        except Skipped as why:
            print(f"ext4: skipped, {why}")
    return 0


if __name__ == "__main__":
    sys.exit(main())
