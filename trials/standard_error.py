#!/usr/bin/env python3
"""Asks what the program tells on standard error, text for text: docs/CONTROL.md, "Standard error". Beside it the status and
what stands on standard output. Then that the name of a new folder is synced before `created` is told.

Usage: trials/standard_error.py [program]. Some rows need the right to mount, or another user than root; what may not be
tried here is skipped, and said to be. Ends with status 1 where anything is wrong.
"""
import os
import re
import resource
import shutil
import socket
import subprocess
import sys
from collections.abc import Callable, Iterator
from contextlib import contextmanager
from dataclasses import dataclass, field
from functools import partial
from pathlib import Path

from lib.mounts import Skipped, mount, mounted
from lib.tool import Session, Stream, bank, expect, free_port, hides, program, room

STREAM = Stream(term_length=65_536, segment_length=131_072)
START = STREAM.start("c")
BLOCK = f"block 0 {STREAM.message(0, b'hello').hex()}"
NEXT = f"block 0 {STREAM.message(64, b'hello').hex()}"
LONG = f"block 0 {STREAM.message(0, bytes(1_000)).hex()}"
RECORDED = [START, BLOCK]
FILLING = [START, "stop 0 1", *["truncate 0 0"] * 97]  # 99 entries
WRONG = "start 1 1 1 65536 1407 65536 0 0 c"
NOBODY = 65_534

MADE = "a new archive was made, as the folder had none\n"
CLOSED = "the archive is not open: lines that need it are Broken until reopen opens it\n"
FULL = (
    "the history is full: nothing is recorded until compact makes room, which stops all recordings\n"
)
FAULT = "error 17 DeviceFault\n"
NO_SPARE = "error 19 NotCatalogue\nthere is no catalogue, or no other bank that a compaction may write\n"
BROKEN = "error 16 Broken\n"
BAD_LINE = "error 22 BadLine\n"
BAD_PARAMETER = "error 10 BadParameter\n"
HIDDEN = partial(hides, "catalogue-a.bank")

LISTED = "recording 0 1000 -1 0 64 42 131072 65536 1408 7 1001 c\nend 1\n"

Make = Callable[[Path], None]


@dataclass(frozen=True)
class Row:
    """What a command tells in a folder that was made so."""

    what: str
    words: list[str]  # `.` stands for the folder
    status: int
    output: str
    error: str
    make: list[Make] = field(default_factory=list)
    lines: list[str] = field(default_factory=list)
    into: str = "pipe"  # a pipe, a pipe that nobody reads, nothing at all, or a file
    is_ended: bool = True  # whether the last line has its line feed
    nobody: bool = False
    file_size: int | None = None


class Program:
    """The program, where every user may run it."""

    def __init__(self, tool: Path, work: Path) -> None:
        self.path = work / "archive_tool"
        shutil.copy(tool, self.path)
        self.path.chmod(0o755)
        work.chmod(0o755)

    def run(self, folder: Path, row: Row) -> tuple[int, str, str]:
        """The status, standard output and standard error of a row's command."""
        words = [str(folder) + word[1:] if word.startswith(".") else word for word in row.words]

        def prepare() -> None:
            if row.file_size is not None:
                resource.setrlimit(resource.RLIMIT_FSIZE, (row.file_size, row.file_size))
            if row.into == "nothing":
                os.close(1)

        given = "".join(line + "\n" for line in row.lines)
        with outputs(row.into) as output:
            ended = subprocess.run(
                [self.path, *words],
                input=(given if row.is_ended else given[:-1]).encode(),
                stdout=output,
                stderr=subprocess.PIPE,
                preexec_fn=prepare,
                restore_signals=False,
                user=NOBODY if row.nobody else None,
            )
        return ended.returncode, (ended.stdout or b"").decode(), ended.stderr.decode()

    def script(self, folder: Path, *lines: str) -> None:
        """Runs a script over a folder."""
        given = "".join(line + "\n" for line in lines).encode()
        subprocess.run([self.path, "run", folder], input=given, capture_output=True, check=True)


@contextmanager
def outputs(into: str) -> Iterator[int]:
    """Where a command writes: to a pipe that is read, to one that nobody reads, or to a file."""
    if into in ("pipe", "nothing"):
        yield subprocess.PIPE
    elif into == "unread":
        reader, writer = os.pipe()
        os.close(reader)
        yield writer
        os.close(writer)
    else:
        with open(into, "wb") as file:
            yield file.fileno()


def overwrite(name: str, offset: int, text: bytes) -> Make:
    """Writes over some bytes of a file."""

    def make(folder: Path) -> None:
        with open(folder / name, "r+b") as file:
            file.seek(offset)
            file.write(text)

    return make


def write(name: str, text: bytes) -> Make:
    return lambda folder: (folder / name).write_bytes(text)


def mode(name: str, bits: int) -> Make:
    return lambda folder: (folder / name).chmod(bits)


def make_folder(name: str) -> Make:
    return lambda folder: (folder / name).mkdir()


def wrong_starts() -> list[tuple[str, str, str]]:
    """A word that a start may have wrong, its rule, and a line: the word is the first one that is wrong."""
    return [
        ("<source>", "at most 128 bytes of UTF-8, without blanks and control characters",
         f"start-from {'s' * 129} 1 1 1 1 1 1 1 -1 c"),
        ("<term length>", "a power of two from 65536 to 1073741824", "start 1 1 1 65535 1 1 1 -1 c"),
        ("<mtu>", "a multiple of 32, from 64 to 65504", "start 1 1 1 65536 1407 1 1 -1 c"),
        ("<segment length>", "a power of two from the term length to 1073741824", "start 1 1 1 131072 1408 65536 1 -1 c"),
        ("<start position>", "a multiple of 32 from 0, less than 2147483648 term lengths", "start 1 1 1 65536 1408 65536 1 -1 c"),
        ("<timestamp>", "0 or more", f"start 1 1 1 65536 1408 65536 0 -1 {'c' * 1_025}"),
        ("<channel>", "1 to 1024 bytes of UTF-8, without control characters", f"start 1 1 1 65536 1408 65536 0 0 {'c' * 1_025}"),
    ]


def rows(tool: Program) -> list[Row]:
    """The table."""
    recorded: Make = lambda folder: tool.script(folder, *RECORDED)
    short: Make = lambda folder: subprocess.run(
        [tool.path, "create", folder, "--history", "2"], check=True, capture_output=True
    )
    hundred: Make = lambda folder: subprocess.run(
        [tool.path, "create", folder, "--history", "100"], check=True, capture_output=True
    )
    used = lambda n: f"{n} of the 100 entries of the history are used, {100 - n} are left\n"
    two: Make = lambda folder: tool.script(folder, *RECORDED, NEXT, STREAM.start("d"))
    big = f"{START}\nblock 0 {STREAM.header(0, 65_536, 0).hex()}".splitlines()
    two_files: Make = lambda folder: tool.script(
        folder, *big, f"block 0 {STREAM.header(65_536, 65_536, 0).hex()}", f"block 0 {STREAM.message(131_072, b'x').hex()}"
    )
    long: Make = lambda folder: tool.script(folder, START, LONG)
    export = ["export", ".", "0", "--pcap", "./../frames.pcap"]
    summary = "recordings {}, frames {}, bytes {}, damaged {}, not read {}\n".format
    return [
        # ask
        Row("ask where nobody listens", ["ask", "1", "sweep"], 3, "", FAULT + "no server on port 1: Connection refused\n"),
        # run
        Row("run in an empty folder", ["run", "."], 0, "started 0 0\nsettled 64\n", MADE, lines=RECORDED),
        Row("run on an archive", ["run", "."], 0, "verified 1\n", "", [recorded], ["verify 0"]),
        Row("run in memory", ["run"], 0, "started 0 0\n", "", lines=[START]),
        *(
            Row(
                f"run of a start with a wrong {word}", ["run", "."], 0, f"{BAD_PARAMETER}end 0\n" * 2,
                MADE + f"start is BadParameter: {word} has to be {rule}\n" * 2,
                lines=[line, "list 0 1", line, "list 0 1"],
            )
            for word, rule, line in wrong_starts()
        ),
        *(
            Row(
                f"run of such a start {where}", ["run", "."], 0, BAD_LINE * len(before) + BAD_PARAMETER,
                MADE + "start is BadParameter: <mtu> has to be a multiple of 32, from 64 to 65504\n",
                lines=[*before, WRONG], is_ended=is_ended,
            )
            for where, before, is_ended in (
                ("behind blank lines", ["", ""], True),
                ("behind a line that is too long", [f"{WRONG}{'c' * 262_144}"], True),
                ("as the last line, without its line feed", [], False),
            )
        ),
        Row(
            "run in memory of such a start", ["run"], 0, BAD_PARAMETER,
            "start is BadParameter: <timestamp> has to be 0 or more\n", lines=["start 1 1 1 65536 1408 65536 0 -1 c"],
        ),
        Row(
            "run on a damaged catalogue", ["run", "."], 0, BROKEN + "error 15 Damaged -1 32\nbye\n",
            "error 15 Damaged -1 32\n" + CLOSED, [write("catalogue-a.bank", bank(3, [])[:32])],
            ["list 0 1", "reopen", "quit"],
        ),
        Row(
            "run on what is no catalogue", ["run", "."], 0, BROKEN, "error 19 NotCatalogue\n" + CLOSED,
            [write("catalogue-a.bank", b"")], ["list 0 1"],
        ),
        Row(
            "run beside a folder of a file's name", ["run", "."], 0, BROKEN,
            "the folder: list: unsupported\n" + FAULT + CLOSED, [recorded, make_folder("1-0.rec")], ["list 0 1"],
        ),
        Row(
            "run where no more fits into a file", ["run", "."], 0, "started 0 0\n" + FAULT + BROKEN + "reopened 1\n",
            MADE + "0-0.rec: write: File too large\n",
            lines=[START, LONG, BLOCK, "reopen"], file_size=512,
        ),
        Row(
            "run where that is met twice", ["run", "."], 0, "started 0 0\n" + FAULT + "reopened 1\nextended 0\n" + FAULT,
            MADE + "0-0.rec: write: File too large\n",
            lines=[START, LONG, "reopen", STREAM.extend(0, 0), LONG], file_size=512,
        ),
        Row(
            "run with a history that runs full", ["run", "."], 0,
            "started 0 0\nsettled 64\nerror 11 HistoryFull\nerror 11 HistoryFull\n", FULL, [short],
            [*RECORDED, START, "stop 0 1"],
        ),
        Row(
            "run with a history that fills up", ["run", "."], 0, "started 0 0\nstopped 0\n" + "truncated 0\n" * 97,
            used(90) + used(95) + used(99), [hundred], FILLING,
        ),
        Row(
            "run on a history that is nearly full", ["run", "."], 0, "truncated 0\n", used(99),
            [hundred, lambda folder: tool.script(folder, *FILLING)], ["truncate 0 0"],
        ),
        # compact
        Row("compact", ["compact", "."], 0, "compacted\n", "", [recorded]),
        Row("compact without an archive", ["compact", "."], 1, "", NO_SPARE),
        Row("compact without another bank", ["compact", "."], 1, "", NO_SPARE, [recorded, lambda folder: (folder / "catalogue-b.bank").unlink()]),
        Row("compact of a damaged catalogue", ["compact", "."], 3, "", "error 15 Damaged -1 32\n", [write("catalogue-a.bank", bank(3, [])[:32])]),
        # create
        Row("create", ["create", "./new"], 0, "created\n", ""),
        Row(
            "create where an archive is", ["create", "."], 1, "",
            BAD_PARAMETER + "the folder has an archive, or files of one\n", [recorded],
        ),
        Row(
            "create with no history", ["create", ".", "--history", "0"], 1, "",
            BAD_PARAMETER + "a history has 1 to 16777216 entries, and not 0\n",
        ),
        Row(
            "create with too long a history", ["create", ".", "--history", "16777217"], 1, "",
            BAD_PARAMETER + "a history has 1 to 16777216 entries, and not 16777217\n", [recorded],
        ),
        Row(
            "create below nothing", ["create", "./gone/new"], 3, "",
            FAULT + "the folder cannot be made: No such file or directory\n",
        ),
        Row(
            "create without permission", ["create", "./new"], 3, "",
            FAULT + "the folder cannot be made: Permission denied\n", nobody=True,
        ),
        Row(
            "create in a file's place", ["create", "./file"], 3, "", FAULT + "what has this name is no folder\n",
            [write("file", b"")],
        ),
        # folders and files
        *(
            row
            for command in ("run", "list", "verify")
            for row in (
                Row(f"{command} of nothing", [command, "./gone"], 3, "", FAULT + "the folder is not there\n"),
                Row(
                    f"{command} of a file", [command, "./file"], 3, "", FAULT + "what has this name is no folder\n",
                    [write("file", b"")],
                ),
                Row(
                    f"{command} of a pipe", [command, "./pipe"], 3, "", FAULT + "what has this name is no folder\n",
                    [lambda folder: os.mkfifo(folder / "pipe")],
                ),
                Row(
                    f"{command} without permission", [command, "."], 3, "",
                    FAULT + "no permission to open the folder\n", [mode(".", 0o700)], nobody=True,
                ),
            )
        ),
        *(
            Row(
                f"{command} of a file without permission", [command, "."], 3, "",
                FAULT + "catalogue-a.bank: sync: Permission denied\n",
                [lambda folder: (folder / "catalogue-a.bank").write_bytes(bank(3, [])), mode("catalogue-a.bank", 0o600)],
                nobody=True,
            )
            for command in ("list", "verify")
        ),
        Row("list without an archive", ["list", "."], 1, "", "error 19 NotCatalogue\n"),
        Row(
            "frames of nothing", ["frames", "./gone"], 3, "",
            FAULT + "the file cannot be opened: No such file or directory\n",
        ),
        Row("frames of a folder", ["frames", "."], 3, "", FAULT + "the file cannot be read on\n"),
        # verify
        Row("verify", ["verify", "."], 0, "verified 2\nverified 0\n", summary(2, 2, 128, 0, 0), [two]),
        Row("verify of no recording", ["verify", "."], 0, "", summary(0, 0, 0, 0, 0), [short]),
        Row(
            "verify of a damaged frame", ["verify", "."], 3, "error 15 Damaged 0 64\nverified 0\n",
            "0-0.rec: damaged at offset 64\n" + summary(2, 0, 0, 1, 0), [two, overwrite("0-0.rec", 64, b"\0")],
        ),
        Row(
            "verify of a damaged frame in a later file", ["verify", "."], 3, "error 15 Damaged 0 131072\n",
            "0-131072.rec: damaged at offset 0\n" + summary(1, 0, 0, 1, 0),
            [two_files, overwrite("0-131072.rec", 0, b"\0")],
        ),
        Row(
            "verify where a folder took a file's place", ["verify", "."], 3, "", FAULT + "the folder: list: unsupported\n",
            [recorded, lambda folder: (folder / "0-0.rec").unlink(), make_folder("0-0.rec")],
        ),
        Row(
            "verify of a damaged frame, only read", ["verify", ".", "--read-only"], 3, "error 15 Damaged 0 64\nverified 0\n",
            "0-0.rec: damaged at offset 64\n" + summary(2, 0, 0, 1, 0), [two, overwrite("0-0.rec", 64, b"\0")],
        ),
        Row(
            "verify of a file without permission, only read", ["verify", ".", "--read-only"], 3, FAULT,
            "0-0.rec: read: Permission denied\n" + summary(1, 0, 0, 0, 1), [recorded, mode("0-0.rec", 0o600)],
            nobody=True,
        ),
        # a gate that closed: in two, Settles have theirs at 89 and 109, and the second Start at 129
        *(
            Row(f"{' '.join(words)} of a closed gate", words, 0, output, HIDDEN(109) + error, [two, overwrite("catalogue-a.bank", 109, b"\0")])
            for words, output, error in (
                (["verify", "."], "verified 1\n", summary(1, 1, 64, 0, 0)),
                (["list", "."], LISTED, ""),
                (["compact", "."], "compacted\n", ""),
            )
        ),
        Row("run over a closed gate", ["run", "."], 0, LISTED, HIDDEN(109), [two, overwrite("catalogue-a.bank", 109, b"\0")], ["list 0 9"]),
        Row("list of a Start whose gate is closed, with nothing after it", ["list", "."], 0, "end 0\n", "",
            [lambda folder: tool.script(folder, START), overwrite("catalogue-a.bank", 32, b"\0")]),
        Row("list of a last Settle whose gate is closed", ["list", "."], 0, LISTED.replace(" 64 42", " 0 42"), HIDDEN(89),
            [recorded, overwrite("catalogue-a.bank", 89, b"\0")]),
        Row("the same without its frames", ["list", "."], 0, LISTED.replace(" 64 42", " 0 42"), "",
            [recorded, overwrite("catalogue-a.bank", 89, b"\0"), overwrite("0-0.rec", 0, b"\0")]),
        Row(
            "verify of a closed gate, only read", ["verify", ".", "--read-only"], 0, "verified 1\n", summary(1, 1, 64, 0, 0),
            [two, overwrite("catalogue-a.bank", 109, b"\0")],
        ),
        # export
        Row("export", export, 0, "exported\n", "", [recorded]),
        Row("export of nothing", ["export", "./gone", *export[2:]], 3, "", FAULT + "the folder is not there\n"),
        Row("export of no recording", ["export", ".", "1", *export[3:]], 1, "", "error 1 UnknownRecording\n", [recorded]),
        Row("export from inside a frame", [*export, "--from", "32"], 1, "", "error 5 BadPosition\n", [recorded]),
        Row(
            "export to where no folder is", [*export[:-1], "./gone/frames.pcap"], 3, "",
            FAULT + "the capture file cannot be written: No such file or directory\n", [recorded],
        ),
        Row(
            "export in a folder's place", [*export[:-1], "./below/taken"], 3, "",
            FAULT + "the capture file cannot be written: Is a directory\n",
            [recorded, make_folder("below"), make_folder("below/taken")],
        ),
        *(
            Row(
                f"export into the archive, as {place}", [*export[:-1], place], 1, "",
                "error 10 BadParameter\nthe capture file would lie in the archive's folder\n", [recorded],
            )
            for place in ("./0-0.rec", "./frames.pcap")
        ),
        Row(
            "export where no more fits into a file", export, 3, "",
            FAULT + "the capture file cannot be written: File too large\n", [long], file_size=512,
        ),
        *(
            Row(
                f"{words[0]} of a catalogue without permission, only read", words, 3, "",
                FAULT + "catalogue-a.bank: read: Permission denied\n", [recorded, mode(".", 0o777), mode("catalogue-a.bank", 0o600)],
                nobody=True,
            )
            for words in (["list", ".", "--read-only"], ["verify", ".", "--read-only"], ["describe", "."], export)
        ),
        # standard output
        *(
            Row(f"{words[0]}, {how}", words, 3, "", FAULT + told, [recorded], into=into)
            for words in (["list", "."], ["frames", "./0-0.rec"], ["create", "./new"], ["--help"])
            for how, into, told in (
                ("unread", "unread", "standard output was closed\n"),
                ("into a full device", "/dev/full", "standard output: No space left on device\n"),
            )
        ),
        Row(
            "verify, unread", ["verify", "."], 3, "", summary(1, 1, 64, 0, 0) + FAULT + "standard output was closed\n",
            [recorded], into="unread",
        ),
        Row(
            "run, unread", ["run", "."], 3, "", FAULT + "standard output was closed\n", [recorded], ["list 0 1"],
            into="unread",
        ),
        Row("list into nothing", ["list", "."], 3, "", FAULT + "standard output was closed\n", [recorded], into="nothing"),
    ]


def rows_of_times() -> list[Row]:
    """The rows of `when`, and of a line that `ask` doesn't send."""
    times = write("0-1.times", b"100 64\n")
    when: Callable[[str], list[str]] = lambda time: ["when", ".", "0", time]
    file = FAULT + "the file cannot be opened: {}\n"
    return [
        Row("when", when("100"), 0, "position 64 from 100 to -1\n", "", [times]),
        Row("when, before the first line", when("99"), 1, "none before 99\n", "", [times]),
        Row("when, of a recording without a file", when("5"), 1, "", "error 1 UnknownRecording\n", [write("1-1.times", b"1 2\n")]),
        Row(
            "when, at no time", when("14:31:07"), 2, "",
            "a time is a date with its offset, as 2026-11-29T08:41:36.123Z, or milliseconds since 1970\n", [times],
        ),
        Row(
            "when, of no folder", ["when", "./gone", "0", "5"], 3, "",
            FAULT + "the folder of times cannot be read: No such file or directory\n",
        ),
        Row("when, of a folder in the file's place", when("5"), 3, "", file.format("unsupported"), [make_folder("0-1.times")]),
        Row("when, of a link", when("5"), 3, "", file.format("unsupported"), [lambda folder: (folder / "0-1.times").symlink_to("/etc/hosts")]),
        Row("when, without permission", when("5"), 3, "", file.format("Permission denied"), [times, mode("0-1.times", 0o600)], nobody=True),
        Row(
            "when, of a file without a line for long", when("5"), 3, "",
            FAULT + "the file has no whole line within 524288 bytes from offset 1500000 on\n", [write("0-1.times", bytes(3_000_000))],
        ),
        Row("ask, follow", ["ask", "1", "sweep", "follow 0 0 64"], 2, "", "follow is answered by bytes, and not by lines alone\n"),
    ]


def try_row(tool: Program, row: Row) -> None:
    """Makes a folder for a row, and asks what its command tells."""
    with room() as folder:
        folder.chmod(0o755)
        for make in row.make:
            make(folder)
        expect(row.what, tool.run(folder, row), (row.status, row.output, row.error))


def try_use(tool: Program) -> None:
    """A folder that another process has open."""
    with room() as folder:
        tool.script(folder, *RECORDED)
        first = Session(tool.path, folder)
        expect("the first process", first.ask("positions 0"), ["positions 0 64 64"])
        for command in ("create", "run", "list", "verify"):
            row = Row("", [command, "."], 3, "", FAULT + "the folder is in use\n")
            expect(f"{command} in use", tool.run(folder, row), (row.status, row.output, row.error))
        expect("its status", first.end(), 0)


def try_read_only(tool: Program, work: Path) -> None:
    """A file system that is mounted read-only."""
    line = "catalogue-a.bank: sync: Read-only file system\n"
    with mounted(work / "disk", "-t", "tmpfs", "-o", "size=16m", "tmpfs") as disk:
        folder = disk / "archive"
        folder.mkdir()
        tool.script(folder)
        mount("-o", "remount,ro", disk)
        for command in ("list", "verify"):
            row = Row("", [command, "."], 3, "", FAULT + line)
            expect(f"{command}, read-only", tool.run(folder, row), (row.status, row.output, row.error))
        row = Row("", ["run", "."], 0, BROKEN, line + FAULT + CLOSED, lines=["list 0 1"])
        expect("run, read-only", tool.run(folder, row), (row.status, row.output, row.error))
        row = Row("", ["create", "./new"], 3, "", FAULT + "the folder cannot be made: Read-only file system\n")
        expect("create, read-only", tool.run(folder, row), (row.status, row.output, row.error))


def try_ports(tool: Program) -> None:
    """A port that another socket has, of control lines and of datagrams. Nothing is made in the folder."""
    for kind, option, other in ((socket.SOCK_STREAM, "--control", "--receive"), (socket.SOCK_DGRAM, "--receive", "--control")):
        with room() as folder, socket.socket(socket.AF_INET, kind) as taken:
            taken.bind(("127.0.0.1", 0))
            port = str(taken.getsockname()[1])
            words = ["serve", ".", option, port, other, str(free_port(socket.SOCK_DGRAM if other == "--receive" else socket.SOCK_STREAM))]
            row = Row("", words, 3, "", FAULT + f"the port {port} cannot be bound: Address already in use\n")
            expect(f"{option}, taken", tool.run(folder, row), (row.status, row.output, row.error))
            expect(f"{option}, taken: files", list(folder.iterdir()), [])


def try_operation(tool: Program) -> None:
    """An id that isn't there, a server that makes no archive, and one that has a bad name."""
    with room() as folder:
        ports = ["--control", str(free_port(socket.SOCK_STREAM)), "--receive", str(free_port(socket.SOCK_DGRAM))]
        row = Row("", ["serve", ".", *ports, "--no-create"], 1, "", "error 19 NotCatalogue\nthe folder has no archive, and none is made with --no-create\n")
        expect("serve, no archive", tool.run(folder, row), (row.status, row.output, row.error))
        expect("serve, no archive: files", list(folder.iterdir()), [])
        row = Row("", ["serve", ".", *ports, "--name", "a b"], 2, "", "--name wants 1 to 64 of the characters A-Z, a-z, 0-9, _, . and -\n")
        expect("serve, a bad name", tool.run(folder, row), (row.status, row.output, row.error))
        tool.script(folder, *RECORDED)
        for words in (["verify", ".", "7"], ["verify", ".", "7", "--read-only"], ["describe", ".", "7"], ["describe", ".", "7", "--json"]):
            row = Row("", words, 1, "", "error 1 UnknownRecording\n")
            expect(f"{words}", tool.run(folder, row), (row.status, row.output, row.error))


def try_several_times(tool: Program) -> None:
    """Two files of times that fit a recording: their names are printed, in the folder's order."""
    with room() as folder:
        folder.chmod(0o755)
        for name in ("0-1.times", "0-2.times"):
            (folder / name).write_bytes(b"1 64\n")
        status, output, error = tool.run(folder, Row("", ["when", ".", "0", "5"], 1, "", ""))
        names, rest = error.splitlines()[:2], error.splitlines()[2:]
        expect("when, of two files", (status, output, sorted(names)), (1, "", ["0-1.times", "0-2.times"]))
        expect("when, of two files: why", rest, ["error 10 BadParameter", "several files of times fit the recording"])


def try_unread_input(tool: Program) -> None:
    """Standard input that is a folder."""
    with room() as folder:
        given = os.open(folder, os.O_RDONLY)
        ended = subprocess.run([tool.path, "run"], stdin=given, capture_output=True, text=True)
        os.close(given)
        told = (ended.returncode, ended.stdout, ended.stderr)
        expect("run, of a folder as its input", told, (3, "", FAULT + "standard input cannot be read on\n"))


def try_new_folder(tool: Program, work: Path) -> None:
    """`create` syncs the name of its folder before it tells that an archive was made, also in a folder that is there."""
    for what in ("a new folder", "a folder that a creation left which was stopped"):
        with room() as above:
            folder = above / "new"
            if what != "a new folder":
                folder.mkdir()
            calls = above / "calls"
            words = ["strace", "-f", "-y", "-o", calls, "-e", "trace=fsync,write", tool.path, "create", folder]
            subprocess.run(words, check=True, capture_output=True)
            made = [re.sub(r"^\d+ +", "", line) for line in calls.read_text().splitlines()]
            synced = [n for n, line in enumerate(made) if re.match(rf"fsync\(\d+<{re.escape(str(above))}>\) += 0", line)]
            told = [n for n, line in enumerate(made) if '"created\\n"' in line]
            expect(f"{what}: its name is synced before that is told", bool(synced and told and synced[0] < told[0]), True)


def main() -> int:
    named = program(sys.argv[1] if len(sys.argv) > 1 else None)
    with room() as work:
        tool = Program(named, work)
        table = rows(tool) + rows_of_times()
        for row in table:
            if row.nobody and os.geteuid() != 0:
                print(f"{row.what}: skipped, it takes a second user")
                continue
            try_row(tool, row)
        print(f"{len(table)} commands tell what they have to")
        try_use(tool)
        try_ports(tool)
        try_operation(tool)
        try_several_times(tool)
        try_unread_input(tool)
        if shutil.which("strace"):
            try_new_folder(tool, work)
        else:
            print("the name of a new folder: skipped, there is no strace")
        try:
            try_read_only(tool, work)
        except Skipped as why:
            print(f"read-only: skipped, {why}")
    return 0


if __name__ == "__main__":
    sys.exit(main())
