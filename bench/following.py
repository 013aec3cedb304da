#!/usr/bin/env python3
"""Measures followers of a served archive: how fast a recording comes, and how soon a frame does.

Usage: bench/following.py [--frames N] [--runs N] [--seconds N] [program], on the file system of TRIAL_ROOM, else that of TMPDIR.

A recording of so many frames of 1,408 bytes, and one of 64, are read from their beginning over TCP of this machine, in turn:
- by `follow`;
- by `sendfile` of the same segment files, by this program;
- by `poll` lines of 64 frames, one after another.
Then a stream of 1,000 messages a second is recorded for some seconds. A follower and a client that asks `positions` without a pause
note when each message came, or was shown as recorded.
"""
import argparse
import os
import random
import socket
import statistics
import subprocess
import sys
import threading
import time
from collections.abc import Callable
from pathlib import Path

from measure import compiled
from lib.tool import ROOT, Fault, conclude, expect, file_system, program, room, run

sys.path.insert(0, str(ROOT / "trials"))
from following import Looking  # noqa: E402
from lib.followers import HEARTBEAT  # noqa: E402
from serving import Sender, Server, killed_at_last, start_line  # noqa: E402

OF_SENDFILE, OF_POLLS = 0.3, 1.4  # goals, of frames of 1,408 bytes
LATER = 0.010  # seconds that a follower may come after `positions`, at the 99th percentile
TERM_LENGTH, PAD_LENGTH = 16_777_216, 32  # sender.rs's term; what comes of the pad that fills its rest, one of the frames
OPTIONS = "--clients", "4"


def received(connection: socket.socket) -> int:
    """How many bytes come, until the other side closes."""
    taken, count = bytearray(1_048_576), 0
    while came := connection.recv_into(taken):
        count += came
    return count


def by_follow(server: Server, archive: Path) -> int:
    with socket.create_connection(("127.0.0.1", server.control)) as connection:
        connection.sendall(b"follow 0 0 -1\n")
        return received(connection)


def by_sendfile(server: Server, archive: Path) -> int:
    """The same files, by `sendfile` of a thread."""
    files = sorted(archive.glob("0-*.rec"), key=lambda path: int(path.stem.split("-")[1]))
    with socket.create_server(("127.0.0.1", 0)) as listener:
        def send() -> None:
            connection, _ = listener.accept()
            with connection:
                for path in files:
                    with open(path, "rb") as text:
                        connection.sendfile(text)

        sender = threading.Thread(target=send)
        sender.start()
        with socket.create_connection(listener.getsockname()) as connection:
            count = received(connection)
        sender.join()
    return count


def by_polls(server: Server, archive: Path) -> int:
    """Bytes of frames, by `poll` lines."""
    client = server.client()
    replay = next(client.ask("replay 0 0 -1")).split()[1]
    count = 0
    while True:
        last = ""
        for last in client.ask(f"poll {replay} 64"):
            count += (len(last) - last.rfind(" ") - 1) // 2 if last.startswith("frame ") else 0
        if not last.startswith("more "):
            break
    client.close()
    return count


def least_bytes(frames: int, size: int) -> int:
    """How many bytes come at least of so many frames, the pads of whole terms among them."""
    messages, rest = divmod(TERM_LENGTH, size)
    pads = frames // (messages + 1) if rest else 0
    return (frames - pads) * size + pads * PAD_LENGTH


def rates(tool: Path, sender: Path, folder: Path, frames: int, size: int, runs: int) -> dict[str, float]:
    """Frames a second of each way, medians."""
    run([tool, "create", folder, "--history", "16777216"])
    with killed_at_last(Server(tool, folder, "--aeron")) as server:
        words = [sender, str(server.control), str(server.receive), str(frames), str(size), "--flow-control"]
        subprocess.run(words, stdout=subprocess.DEVNULL, check=True)
        expect("the server's status", server.process.wait(60), 0)
    ways: dict[str, Callable[[Server, Path], int]] = {"follow": by_follow, "sendfile": by_sendfile, "polls of 64": by_polls}
    found: dict[str, list[float]] = {name: [] for name in ways}
    with killed_at_last(Server(tool, folder, *OPTIONS)) as server:
        for _ in range(runs):
            for name, way in ways.items():
                begun = time.monotonic()
                count = way(server, folder)
                found[name].append(frames / (time.monotonic() - begun))
                if count < least_bytes(frames, size):
                    raise Fault(f"{name}: {count} bytes of {frames} frames of {size}")
        server.quit()
    return {name: statistics.median(each) for name, each in found.items()}


class Times:
    """When each position was reached, by one way."""

    def __init__(self) -> None:
        self.reached: list[tuple[float, int]] = []
        self.is_over = False

    def note(self, position: int) -> None:
        self.reached.append((time.monotonic(), position))

    def follow(self, server: Server) -> None:
        looking = Looking(server.control, 0, 0)
        while True:
            length, flags, _ = looking.header()
            if length < 0 or (length == 0 and flags != HEARTBEAT):
                break
            if length:
                self.note(looking.position)
        looking.close()

    def ask(self, server: Server) -> None:
        client, last = server.client(), 0
        while not self.is_over:
            shown = int(next(client.ask("positions 0")).split()[2])
            if shown > last:
                self.note(shown)
                last = shown
        client.close()

    def late(self, sent: list[tuple[float, int]]) -> float:
        """Seconds from a message's sending until its end was reached, at the 99th percentile."""
        found, at = [], 0
        for begun, end in sent:
            while at < len(self.reached) and self.reached[at][1] < end:
                at += 1
            if at == len(self.reached):
                break
            found.append(self.reached[at][0] - begun)
        expect("messages that came", len(found), len(sent))
        return sorted(found)[len(found) * 99 // 100]


def delays(tool: Path, folder: Path, seconds: float) -> tuple[float, float]:
    """How late messages come by a follower and by `positions`, at the 99th percentile."""
    run([tool, "create", folder, "--history", "16777216"])
    server = Server(tool, folder, *OPTIONS)
    expect("start", server.ask(start_line(7)), ["started 0 0"])
    sender = Sender(server, 7, random.Random(1))
    sender.send(sender.publication.setup())
    followed, asked = Times(), Times()
    threads = [threading.Thread(target=followed.follow, args=[server]), threading.Thread(target=asked.ask, args=[server])]
    for thread in threads:
        thread.start()
    sent: list[tuple[float, int]] = []
    until = time.monotonic() + seconds
    while time.monotonic() < until:
        sender.message(256)
        sent.append((time.monotonic(), sender.publication.position))
        sender.repeat()
        time.sleep(0.001)
    client = server.client()
    sender.until(client, 0, 0)
    time.sleep(0.5)
    asked.is_over = True
    expect("stop", list(client.ask("stop 0 1"))[0].split()[0], "stopped")
    client.close()
    for thread in threads:
        thread.join()
    server.quit()
    return followed.late(sent), asked.late(sent)


def main() -> int:
    words = argparse.ArgumentParser(description=__doc__, formatter_class=argparse.RawDescriptionHelpFormatter)
    words.add_argument("program", nargs="?", help="else that of ARCHIVE_TOOL, else the built one")
    words.add_argument("--frames", type=int, default=400_000)
    words.add_argument("--runs", type=int, default=5)
    words.add_argument("--seconds", type=float, default=20)
    asked = words.parse_args()
    tool = program(asked.program)
    with room() as work:
        sender = compiled("sender.rs", work)
        print(f"over {file_system(work)}, {os.cpu_count()} processors", flush=True)
        met = True
        for size in (1_408, 64):
            found = rates(tool, sender, work / f"rates-{size}", asked.frames, size, asked.runs)
            of_sendfile, of_polls = found["follow"] / found["sendfile"], found["follow"] / found["polls of 64"]
            goals = f" (goals {OF_SENDFILE} and {OF_POLLS})" if size == 1_408 else ""
            print(f"frames of {size}: " + ", ".join(f"{name} {rate:,.0f} a second" for name, rate in found.items())
                  + f"; follow is {of_sendfile:.2f} of sendfile and {of_polls:.2f} of polls{goals}", flush=True)
            met = met and (size != 1_408 or (of_sendfile >= OF_SENDFILE and of_polls >= OF_POLLS))
        followed, shown = delays(tool, work / "delays", asked.seconds)
        print(f"a message came after {followed * 1e3:.1f} milliseconds, and was shown as recorded after {shown * 1e3:.1f}, at the 99th "
              f"percentile (goal {LATER * 1e3:.0f} more)", flush=True)
    return 0 if met and followed <= shown + LATER else 1


if __name__ == "__main__":
    conclude(main)
