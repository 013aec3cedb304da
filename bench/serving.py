#!/usr/bin/env python3
"""Measures a served archive: frames of 1,408 bytes from a sender on this machine into a folder.

Usage: bench/serving.py [--frames N] [--runs N] [--beside | --terms] [program], on the file system of TRIAL_ROOM, else that of TMPDIR. First:
cd crates/trial_lock && rt run -- memory 1 1

Four kinds of run come in turn:
- a sender with flow control (sender.rs --flow-control) to `serve --aeron`, with the system's default receive buffer;
- a sender that is at most 768 KiB ahead of what `positions` shows (sender.rs), to `serve` with a receive buffer of 8 MiB;
- the same beside a late consumer: a client that replays the recording from its beginning, again and again, 4,096 frames a poll;
- what one thread settles there by the library, in batches of 16 blocks of 46 frames.

With --beside these come instead: the sender with flow control alone, beside 1 and 4 clients that poll 64, 256 and 4,096 frames without
a pause, beside 1, 4 and 10 followers, and beside 64 consumers that send `list 0 1024` and `follow` without a pause.
With --terms these: the sender with flow control, with terms of 1 GiB, whose five sixteenths never hold it back, of 16 MiB, 1 MiB and
64 KiB. With terms of 16 MiB it is to have 0.9 of the first rate.
A sender sends again what is asked for, and is done when every byte is recorded. Only root may enlarge the buffer (docs/SERVING.md):
while a server starts, `net.core.rmem_default` of the machine is 8 MiB. If it can't be set, the first two kinds are not compared.
"""
import argparse
import os
import socket
import statistics
import subprocess
import sys
import threading
import time
from collections.abc import Iterator
from contextlib import contextmanager
from dataclasses import dataclass
from pathlib import Path

from measure import RECEIVE_BUFFER, compiled, large_buffer, receive_buffer
from lib.tool import ROOT, Fault, conclude, expect, file_system, free_port, program, room, run, stop_positions

sys.path.insert(0, str(ROOT / "trials"))
from serving import Server, settles  # noqa: E402

LIBRARY = ROOT / "crates/trial_lock/out/trial_lock"
FRAME = 1_408
BLOCK = 46 * FRAME
BATCH = 16
LEAST, GOAL, BESIDE_POLLS = 0.5, 0.8, 0.9


@dataclass(frozen=True)
class Kind:
    """A sender and its server: their options, how large the server's receive buffer is, if it isn't the system's default, how many
    clients poll meanwhile, and how many frames a poll, how many follow, and how many consumers ask without a pause."""

    name: str
    sender: tuple[str, ...]
    server: tuple[str, ...]
    buffer: int | None
    polls: int = 0
    frames: int = 4_096
    follows: int = 0
    asks: int = 0
    goal: float | None = None  # of frames a second in ratio to none of these


@dataclass(frozen=True)
class Found:
    """What a run showed: frames and entries a second, microseconds of a processor for each datagram, and the rest in words."""

    rate: float
    entries: float
    processor: float
    rest: str


def started(tool: Path, folder: Path, kind: Kind) -> Server:
    """A server whose socket has its receive buffer."""
    run([tool, "create", folder, "--history", "16777216"])
    with receive_buffer(kind.buffer):
        consumers = free_port(socket.SOCK_STREAM) if kind.asks else 0
        server = Server(tool, folder, *kind.server, *(["--consumers", str(consumers)] if consumers else []))
        server.consumers = consumers
        until = time.monotonic() + 10
        while not server.socket_words() and time.monotonic() < until:
            time.sleep(0.01)
    return server


class LateConsumer(threading.Thread):
    """A client that replays a server's first recording from its beginning, and begins again where it comes to what is recorded."""

    def __init__(self, server: Server, frames: int) -> None:
        super().__init__()
        self.client, self.is_over, self.bytes, self.frames = server.client(), False, 0, frames

    def run(self) -> None:
        try:
            while not self.is_over:
                self.replay()
        except OSError:
            pass  # the server has ended
        finally:
            self.client.close()

    def replay(self) -> None:
        words = next(self.client.ask("replay 0 0 -1"), "").split()
        if words[:1] != ["replay"]:
            time.sleep(0.02)  # nothing is recorded yet
            return
        replay, last = int(words[1]), b""
        while not self.is_over:
            reply = self.poll(replay)
            if reply == last or not reply.startswith(b"more "):
                break
            last = reply
        list(self.client.ask(f"close {replay}"))

    def poll(self, replay: int) -> bytes:
        """The last line of a poll's reply."""
        self.client.socket.sendall(b"poll %d %d\n" % (replay, self.frames))
        held = last = b""
        while not held.endswith(b"\n") or last.startswith(b"frame "):
            came = self.client.socket.recv(1_048_576)
            if not came:
                raise ConnectionError
            self.bytes += len(came)
            held = (held + came)[-4_096:]  # more than a frame's line
            last = held.rstrip(b"\n").rpartition(b"\n")[2]
        return last


class FollowingConsumer(threading.Thread):
    """A client that follows a server's first recording from its beginning, and counts the bytes that come."""

    def __init__(self, server: Server) -> None:
        super().__init__()
        self.server, self.is_over, self.bytes = server, False, 0

    def run(self) -> None:
        taken = bytearray(1_048_576)
        while not self.is_over:
            try:
                with socket.create_connection(("127.0.0.1", self.server.control), timeout=1) as connection:
                    connection.sendall(b"follow 0 0 -1\n")
                    while count := connection.recv_into(taken):
                        self.bytes += count
                        if taken[:6] == b"error ":
                            break  # nothing is recorded yet
            except OSError:
                pass
            time.sleep(0.02)


class AskingConsumer(threading.Thread):
    """A client at the port of consumers that lists and follows without a pause, each follow for as long as its answer takes."""

    def __init__(self, server: Server) -> None:
        super().__init__()
        self.server, self.is_over, self.bytes = server, False, 0

    def run(self) -> None:
        while not self.is_over:
            try:
                with socket.create_connection(("127.0.0.1", self.server.consumers), timeout=1) as connection:
                    connection.sendall(b"list 0 1024\n" * 16 + b"follow 0 0 -1\n")
                    while b"follow" not in (came := connection.recv(65_536)) and came:
                        self.bytes += len(came)
                    self.bytes += len(came)
            except OSError:
                pass


@contextmanager
def consumed(server: Server, kind: Kind) -> Iterator[list[LateConsumer | FollowingConsumer | AskingConsumer]]:
    """Has so many clients poll, follow and ask meanwhile."""
    consumers = [LateConsumer(server, kind.frames) for _ in range(kind.polls)]
    consumers += [FollowingConsumer(server) for _ in range(kind.follows)]
    consumers += [AskingConsumer(server) for _ in range(kind.asks)]
    for consumer in consumers:
        consumer.start()
    try:
        yield consumers
    finally:
        for consumer in consumers:
            consumer.is_over = True
        for consumer in consumers:
            consumer.join()


def processor_seconds(pid: int) -> float:
    words = Path(f"/proc/{pid}/stat").read_text().rpartition(")")[2].split()
    return (int(words[11]) + int(words[12])) / os.sysconf("SC_CLK_TCK")


def served(tool: Path, sender: Path, folder: Path, frames: int, kind: Kind) -> Found:
    """One run of a sender against its server."""
    server = started(tool, folder, kind)
    began = processor_seconds(server.process.pid)
    words = [sender, str(server.control), str(server.receive), str(frames), str(FRAME), *kind.sender]
    process = subprocess.Popen(words, stdout=subprocess.PIPE, text=True)
    lost, spent = 0, began
    with consumed(server, kind) as consumers:
        while process.poll() is None:
            try:
                lost, spent = max(lost, server.dropped()), processor_seconds(server.process.pid)
            except OSError:
                pass
            time.sleep(0.02)
    numbers = process.stdout.read().split()
    if process.returncode or len(numbers) != 5:
        raise Fault(f"the sender ended with status {process.returncode}: {numbers}; {server.errors()}")
    expect("the server's status", server.process.wait(60), 0)
    microseconds, naks, repeats, position, status_messages = map(int, numbers)
    entries = settles(folder)
    expect("what is recorded", stop_positions(tool, folder), [position])
    counts = server.counts()
    seconds = microseconds / 1e6
    expect("whether each consumer was given frames", all(consumer.bytes > 0 for consumer in consumers), True)
    read = f"{sum(it.bytes for it in consumers) / seconds / 1e6:,.0f} MB a second read by {len(consumers)}, " if consumers else ""
    rest = (f"{read}dropped by the system {lost}, NAKs {naks}, sent again {repeats}, status messages {status_messages}; the server counted "
            + ", ".join(f"{name} {count}" for name, count in counts.items()))
    return Found(frames / seconds, entries / seconds, (spent - began) / counts["datagrams"] * 1e6, rest)


def library(folder: Path, frames: int) -> float:
    """Frames a second that one thread settles by the library."""
    folder.mkdir()
    blocks = frames // 46 // BATCH * BATCH
    told = subprocess.run([LIBRARY, "speed", "engine", folder, "large", str(blocks), str(BATCH)],
                          capture_output=True, text=True, check=True).stdout
    return blocks * 46 / int(told) * 1e6


def kinds() -> list[Kind]:
    """The kinds of run with a server: with flow control, and with a sender that paces itself, alone and beside a late consumer."""
    large = large_buffer()
    print(f"the system's default receive buffer has {RECEIVE_BUFFER.read_text().strip()} bytes"
          + ("" if large else "; it can't be enlarged here"), flush=True)
    return [Kind("with flow control", ("--flow-control",), ("--aeron",), None), Kind("paced by `positions`", (), (), large),
            Kind("paced, beside polls", (), ("--clients", "2"), large, polls=1)]


def kinds_beside() -> list[Kind]:
    """The kinds of run of a sender with flow control alone and beside clients, with their goals of its rate."""
    flow, server = ("--flow-control",), ("--aeron", "--clients", "16")
    polls = [Kind(f"beside {count} that poll {frames}", flow, server, None, polls=count, frames=frames,
                  goal=0.3 if (count, frames) == (4, 4_096) else None)
             for count in (1, 4) for frames in (64, 256, 4_096)]
    follows = [Kind(f"beside {count} that follow", flow, server, None, follows=count, goal=goal)
               for count, goal in ((1, 0.9), (4, 0.9 if (os.cpu_count() or 1) >= 10 else 0.5), (10, None))]
    asks = Kind("beside 64 consumers that ask", flow, server, None, asks=64, goal=0.5)
    return [Kind("alone", flow, server, None), *polls, *follows, asks]


def kinds_of_terms() -> list[Kind]:
    """The kinds of run of a sender with flow control by the lengths of its terms, the longest ones first."""
    return [Kind(f"terms of {length} bytes", ("--flow-control", "--term-length", str(length)), ("--aeron",), None,
                 goal=0.9 if length == 2**24 else None) for length in (2**30, 2**24, 2**20, 2**16)]


def medians(found: list[Found]) -> Found:
    """The medians of some runs."""
    return Found(*(statistics.median(getattr(it, name) for it in found) for name in ("rate", "entries", "processor")), "")


def conclusion(served_by: dict[Kind, list[Found]], theirs: list[float]) -> int:
    """Prints medians and ratios; the status."""
    found_by, by_library = [medians(found) for found in served_by.values()], statistics.median(theirs)
    for kind, found in zip(served_by, found_by, strict=True):
        print(f"medians {kind.name}: {found.rate:,.0f} frames and {found.entries:,.0f} entries a second, {found.processor:.2f} "
              "microseconds of a processor for each datagram")
    flow, paced, beside_polls = found_by
    to_paced, to_library, to_unpolled = flow.rate / paced.rate, paced.rate / by_library, beside_polls.rate / paced.rate
    is_compared = all(kind.buffer or "--aeron" in kind.server for kind in served_by)
    print(f"with flow control {to_paced:.2f} of the paced sender" + (f" (goal {GOAL})" if is_compared else ", of the same buffer: no goal")
          + f"; paced {to_library:.2f} of the library's {by_library:,.0f} frames a second (goal {GOAL}, at least {LEAST})"
          + f"; beside polls {to_unpolled:.2f} of paced (goal {BESIDE_POLLS})", flush=True)
    return 0 if to_library >= LEAST and (to_paced >= GOAL or not is_compared) else 1


def conclusion_to_first(served_by: dict[Kind, list[Found]]) -> int:
    """Prints the ratio of each kind to the first one; the status."""
    found = {kind: medians(runs) for kind, runs in served_by.items()}
    alone = next(iter(found.values())).rate
    print(f"the first {alone:,.0f} frames a second, {os.cpu_count()} processors")
    for kind, median in found.items():
        print(f"{kind.name}: {median.rate / alone:.2f}" + (f" (goal {kind.goal})" if kind.goal else ""), flush=True)
    return 0 if all(median.rate >= (kind.goal or 0) * alone for kind, median in found.items()) else 1


def main() -> int:
    words = argparse.ArgumentParser(description=__doc__, formatter_class=argparse.RawDescriptionHelpFormatter)
    words.add_argument("program", nargs="?", help="else that of ARCHIVE_TOOL, else the built one")
    words.add_argument("--frames", type=int, default=400_000)
    words.add_argument("--runs", type=int, default=5)
    words.add_argument("--beside", action="store_true", help="alone, and beside clients that poll, follow and ask")
    words.add_argument("--terms", action="store_true", help="by the length of terms")
    asked = words.parse_args()
    tool = program(asked.program)
    with room() as work:
        sender = compiled("sender.rs", work)
        alone = subprocess.run([sender, "alone", str(asked.frames), str(FRAME)], capture_output=True, text=True, check=True)
        print(f"the sender alone: {asked.frames / int(alone.stdout.split()[0]) * 1e6:,.0f} frames a second", flush=True)
        print(f"over {file_system(work)}, {asked.frames} frames of {FRAME} bytes", flush=True)
        to_first = kinds_beside() if asked.beside else kinds_of_terms() if asked.terms else []
        ours: dict[Kind, list[Found]] = {kind: [] for kind in to_first or kinds()}
        theirs = []
        for index in range(asked.runs):
            for number, kind in enumerate(ours):
                found = served(tool, sender, work / f"served-{number}-{index}", asked.frames, kind)
                ours[kind].append(found)
                print(f"{kind.name}: {found.rate:,.0f} frames and {found.entries:,.0f} entries a second, {found.processor:.2f} "
                      f"microseconds of a processor for each datagram; {found.rest}", flush=True)
            if not to_first:
                theirs.append(library(work / f"library-{index}", asked.frames))
                print(f"by the library: {theirs[-1]:,.0f} frames a second", flush=True)
        return conclusion_to_first(ours) if to_first else conclusion(ours, theirs)


if __name__ == "__main__":
    conclude(main)
