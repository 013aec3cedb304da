"""The followers of examples/, and a small server that they are checked against: docs/PROTOCOL.md, "Following a recording"."""
import shutil
import socket
import struct
import subprocess
import sys
import threading
import time
from collections.abc import Callable, Iterator
from dataclasses import dataclass, replace
from pathlib import Path

from lib.tool import aligned

EXAMPLES = Path(__file__).resolve().parents[2] / "examples"
PAD, DATA = 0, 1
HEARTBEAT, END_OF_STREAM, FAULT = 0xC0, 0xE0, 0xE1  # flags of a heartbeat
PATIENCE = 60  # seconds that a follower may take

Command = Callable[[int, int, int, int], list[str]]  # of a port, a recording, a position and a length


def followers(work: Path) -> dict[str, Command]:
    """The followers of examples/ by their languages. It prints which ones can't be run here."""
    found: dict[str, Command] = {
        "Python": lambda port, *words: [sys.executable, "-B", str(EXAMPLES / "follow.py"), f"127.0.0.1:{port}", *map(str, words)]
    }
    if compiler := shutil.which("cc"):
        binary = work / "follow"
        subprocess.run([compiler, "-Wall", "-Wextra", "-Werror", "-O2", "-o", binary, EXAMPLES / "follow.c"], check=True)
        found["C"] = lambda port, *words: [str(binary), "127.0.0.1", str(port), *map(str, words)]
    else:
        print("examples/follow.c: skipped, there is no cc", flush=True)
    if java := shutil.which("java"):
        found["Java"] = lambda port, *words: [java, str(EXAMPLES / "Follow.java"), f"127.0.0.1:{port}", *map(str, words)]
    else:
        print("examples/Follow.java: skipped, there is no java", flush=True)
    return found


def frame(kind: int, length: int, flags: int = HEARTBEAT, offset: int = 0) -> bytes:
    """A frame as a follower gets it: a data frame with zeros up to its aligned length, any other frame's header alone."""
    header = struct.pack("<iBBHiiiiq", length, 0, flags, kind, offset, 7, 1001, 42, 0)
    payload = bytes(at % 251 + 1 for at in range(length - 32)) if kind == DATA else b""
    return header + payload.ljust(aligned(length) - 32 if kind == DATA and length else 0, b"\x00")


@dataclass(frozen=True)
class Answer:
    """What the small server sends, and what a follower has to make of it."""

    name: str
    line: str
    sent: bytes
    taken: bytes
    status: int
    errors: str
    resets: bool = False


def answers() -> Iterator[Answer]:
    """Answers from position 96 on: whole ones, refused ones, and ones that break off."""
    begin = "following 96\n"
    first, pad, empty, longest = frame(DATA, 37), frame(PAD, 65_344), frame(DATA, 32), frame(DATA, 65_504)
    beat, ends, faulty = (frame(DATA, 0, flags) for flags in (HEARTBEAT, END_OF_STREAM, FAULT))
    frames, end = first + pad + empty + longest, 96 + 64 + 65_344 + 32 + 65_504
    whole = beat + first + beat + beat + pad + empty + longest + beat
    yield Answer("ends", begin, whole + ends, frames, 0, f"{begin}go on from {end}\n")
    yield Answer("has no frame", begin, ends, b"", 0, f"{begin}go on from 96\n")
    yield Answer("can't be read on", begin, first + faulty, first, 3, f"{begin}go on from 160\n")
    yield Answer("is refused", "error 5 BadPosition\n", b"", b"", 1, "error 5 BadPosition\n")
    for at in (0, 31, 64, 64 + 33, 64 + 1_000):
        kept = first if at >= 64 else b""
        broken = Answer(f"breaks off at {at}", begin, (first + longest)[:at], kept, 1, f"{begin}go on from {96 + len(kept)}\n")
        yield from (broken, replace(broken, name=f"{broken.name} by a reset", resets=True))


def serve_once(listener: socket.socket, answer: Answer, asked: list[str]) -> None:
    """Answers one connection, at first a byte at a time."""
    connection, _ = listener.accept()
    with connection:
        connection.setsockopt(socket.IPPROTO_TCP, socket.TCP_NODELAY, 1)
        with connection.makefile("r", newline="\n") as lines:
            asked.append(lines.readline())
        text = answer.line.encode() + answer.sent
        for at in range(min(len(text), 150)):
            connection.sendall(text[at : at + 1])
        for at in range(150, len(text), 4_093):
            connection.sendall(text[at : at + 4_093])
        if answer.resets:
            time.sleep(0.2)  # a reset takes what was not read
            connection.setsockopt(socket.SOL_SOCKET, socket.SO_LINGER, struct.pack("ii", 1, 0))


def differences(name: str, command: Command) -> Iterator[str]:
    """What a follower makes otherwise of what the small server sends."""
    for answer in answers():
        with socket.create_server(("127.0.0.1", 0)) as listener:
            asked: list[str] = []
            server = threading.Thread(target=serve_once, args=(listener, answer, asked))
            server.start()
            words = command(listener.getsockname()[1], 3, 96, -1)
            ran = subprocess.run(words, capture_output=True, timeout=PATIENCE)
            server.join()
        found = asked, ran.returncode, ran.stderr.decode()
        right = ["follow 3 96 -1\n"], answer.status, answer.errors
        if found != right:
            yield f"the follower in {name}, where a stream {answer.name}: {found}, and not {right}"
        if ran.stdout != answer.taken:
            yield f"the follower in {name}, where a stream {answer.name}: {len(ran.stdout)} bytes, and not the {len(answer.taken)} of its frames"
