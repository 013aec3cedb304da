#!/usr/bin/env python3
"""Lets `archive_tool` meet file systems that are read-only or whose device fails, names that are no files, and a limit of
open files. Needs the right to mount; what may not be mounted here is skipped, and said to be. (A full disk is tried by
trials/full_disks.py.)

Usage: trials/small_disks.py [program]. Ends with status 1 where anything is wrong.
"""
import os
import random
import resource
import shutil
import subprocess
import sys
from collections.abc import Callable
from pathlib import Path

from lib.mounts import Skipped, make_ext4, mount, mounted
from power_cuts import script_of, shown
from standard_error import CLOSED
from lib.tool import Fault, Stream, expect, program, room, run

BROKEN, DEVICE_FAULT = "error 16 Broken", "error 17 DeviceFault"
STREAM = Stream(term_length=65_536, segment_length=131_072)
BIG = Stream(term_length=2**30, segment_length=2**30)
LINES = script_of(random.Random(7))
COUNT = sum(line.startswith("start ") for line in LINES)


def recorded(tool: Path, folder: Path) -> list[str]:
    """Makes an archive that has answered the script, and gives what has to be there."""
    run([tool, "create", folder])
    expect("the script", run([tool, "run", folder], LINES), run([tool, "run"], LINES))
    return shown(tool, None, LINES, COUNT)


def refused(tool: Path, folder: Path, *reasons: str) -> None:
    """A command that needs the archive is refused by one line, and by one of these reasons, and ends soon."""
    ended = subprocess.run([tool, "list", folder], capture_output=True, text=True, timeout=60)
    told = ended.stderr.splitlines()
    why = told[1] if len(told) == 2 and told[1] in reasons else reasons[0]
    expect("list", (ended.returncode, ended.stdout, told), (3, "", [DEVICE_FAULT, why]))
    told = run([tool, "run", folder], ["list 0 1", "reopen", "quit"], [why, DEVICE_FAULT, CLOSED.strip()])
    expect("run", told, [BROKEN, DEVICE_FAULT, "bye"])


def read_only(tool: Path, work: Path) -> str:
    """A file system that is mounted read-only: refused, and as it was once it may be written."""
    with mounted(work / "disk", "-t", "tmpfs", "-o", "size=16m", "tmpfs") as disk:
        right = recorded(tool, disk / "archive")
        mount("-o", "remount,ro", disk)
        refused(tool, disk / "archive", *(f"{name}.rec: sync: Read-only file system" for name in ("0-0", "1-0")))  # whichever is synced first
        mount("-o", "remount,rw", disk)
        expect("once it may be written", shown(tool, disk / "archive", [], COUNT), right)
    return "read-only: refused, and nothing was lost"


def mount_point_without_its_mount(tool: Path, work: Path) -> str:
    """An archive in a folder below the mount point is not there without the mount, and nothing is made in its place."""
    with mounted(work / "disk", "-t", "tmpfs", "-o", "size=16m", "tmpfs") as disk:
        recorded(tool, disk / "archive")
    for command in ("run", "list", "verify"):
        ended = subprocess.run([tool, command, work / "disk/archive"], input="", capture_output=True, text=True)
        right = 3, "", f"{DEVICE_FAULT}\nthe folder is not there\n"
        expect(f"{command} without the mount", (ended.returncode, ended.stdout, ended.stderr), right)
    expect("what was made", list((work / "disk").iterdir()), [])
    return "a mount point without its mount: an archive in a folder below it is refused, and nothing is made"


def recorded_to_a_fault(tool: Path, folder: Path) -> tuple[int, int]:
    """Records blocks until one meets a device that fails: how many were settled, and where they end."""
    run([tool, "create", folder])
    given = "".join(line + "\n" for line in [BIG.start("c"), *blocks(400)])
    ended = subprocess.run([tool, "run", folder], input=given, capture_output=True, text=True)
    told = ended.stdout.splitlines()
    if DEVICE_FAULT not in told:
        raise Skipped("the device took everything")
    met = told.index(DEVICE_FAULT)
    for line in told[met + 1 :]:
        expect("behind the fault", line, BROKEN)
    return met - 1, int(told[met - 1].split()[1]) if met > 1 else 0


def device_without_room(tool: Path, work: Path) -> str:
    """A device that fails: the loop device's own file finds no room, which is EIO at a sync, until it is taken away."""
    image, disk = work / "image", work / "disk"
    with mounted(work / "thin", "-t", "tmpfs", "-o", "size=12m", "tmpfs") as thin:
        make_ext4(thin / "image", 64 * 2**20)
        with mounted(disk, "-o", "loop", thin / "image"):
            count, settled = recorded_to_a_fault(tool, disk / "archive")
        shutil.copyfile(thin / "image", image)
    subprocess.run(["e2fsck", "-f", "-y", image], capture_output=True)
    with mounted(disk, "-o", "loop", image):
        found = run([tool, "run", disk / "archive"], ["positions 0", "verify 0"], is_stopped=True)
        recorded_to = int(found[0].split()[2])
        expect("what is recorded", recorded_to in (settled, settled + BLOCK), True)
        expect("verify", found[1], f"verified {recorded_to // LENGTH}")
    return f"a device that fails: {count} blocks were settled and are there"


LENGTH, FRAMES = 1_408, 46
BLOCK = LENGTH * FRAMES


def blocks(count: int) -> list[str]:
    """Lines of blocks of recording 0, each of so many frames of the same length."""
    lines, position = [], 0
    for _ in range(count):
        text = b"".join(BIG.message(position + n * LENGTH, b"x" * (LENGTH - 32)) for n in range(FRAMES))
        lines.append(f"block 0 {text.hex()}")
        position += BLOCK
    return lines


def names_that_are_no_files(tool: Path, work: Path) -> str:
    """A folder, a link, a pipe and a file that may not be read, each under a file's name: one refusal, nothing removed."""
    folder = work / "archive"
    right = recorded(tool, folder)
    in_the_way = folder / "9-0.rec"

    def unreadable(path: Path) -> None:
        path.write_bytes(b"x")
        path.chmod(0)

    unsupported = "the folder: list: unsupported"
    makers: list[tuple[Callable[[Path], None], str]] = [
        (Path.mkdir, unsupported),
        (lambda path: path.symlink_to("catalogue-a.bank"), unsupported),
        (os.mkfifo, unsupported),
    ]
    if os.geteuid() != 0:
        makers.append((unreadable, "9-0.rec: sync: Permission denied"))
    for make, why in makers:
        make(in_the_way)
        was = in_the_way.lstat()
        refused(tool, folder, why)
        expect("what is there", (in_the_way.lstat().st_ino, in_the_way.lstat().st_mode), (was.st_ino, was.st_mode))
        if in_the_way.is_dir() and not in_the_way.is_symlink():
            in_the_way.rmdir()
        else:
            in_the_way.unlink()
        expect("once it is gone", shown(tool, folder, [], COUNT), right)
    run([tool, "run", folder], ["sweep"] * 16)
    for name in ("0--64.rec", "00-0.rec", "-1-0.rec", "+1-0.rec", "1-0.rec ", "note"):
        (folder / name).write_bytes(b"x")
        expect(f"beside {name}", run([tool, "run", folder], ["sweep"]), ["swept 0"])
        expect(f"beside {name}", (folder / name).read_bytes(), b"x")
        (folder / name).unlink()
    return "names that are no files: refused or passed over, and nothing was removed"


def limit_of_open_files(tool: Path, work: Path) -> str:
    """More files than the limit of open files: the line that meets it is a device fault, and nothing settled is lost."""
    folder = work / "many"
    run([tool, "create", folder])
    frame = STREAM.message(0, b"x").ljust(64, b"\x00").hex()
    lines = [line for n in range(40) for line in (STREAM.start(f"c{n}"), f"block {n} {frame}")]
    given = "".join(line + "\n" for line in lines)
    limit = lambda: resource.setrlimit(resource.RLIMIT_NOFILE, (16, 16))  # noqa: E731
    ended = subprocess.run([tool, "run", folder], input=given, capture_output=True, text=True, preexec_fn=limit)
    told = ended.stdout.splitlines()
    met = told.index(DEVICE_FAULT)
    for line in told[met + 1 :]:
        expect("behind the fault", line, BROKEN)
    right = shown(tool, None, lines[:met], 40)
    expect("in the next process", shown(tool, folder, [], 40) in (right, shown(tool, None, lines[: met + 1], 40)), True)
    return f"a limit of open files: met by line {met}, and nothing was lost"


PARTS = names_that_are_no_files, limit_of_open_files, read_only, mount_point_without_its_mount, device_without_room


def main() -> int:
    tool = program(sys.argv[1] if len(sys.argv) > 1 else None)
    for part in PARTS:
        with room() as work:
            try:
                print(part(tool, work), flush=True)
            except Skipped as why:
                print(f"{part.__name__}: skipped, {why}")
            except Fault as fault:
                raise Fault(f"{part.__name__}: {fault}") from fault
    return 0


if __name__ == "__main__":
    sys.exit(main())
