#!/usr/bin/env python3
"""Measures recordings that a served archive sends.

Usage: bench/sending.py [--frames N] [--runs N] [program], on the file system of TRIAL_ROOM, else that of TMPDIR.

Frames of 1,408 bytes go to the same receiver (subscriber.rs) over UDP of this machine, in turn:
- from a recording, by `send`;
- from `sender.rs --flow-control`.
Then a stream is recorded as fast as it goes, in turn alone, while one sending follows its recording, and while four do.
"""
import argparse
import socket
import statistics
import subprocess
import sys
import threading
import time
from pathlib import Path

from measure import compiled, large_buffer, receive_buffer
from lib.tool import ROOT, Fault, await_that, conclude, file_system, free_port, program, room, run

sys.path.insert(0, str(ROOT / "trials"))
from serving import Server, served, socket_words  # noqa: E402

LENGTH, TERM = 1_408, 16_777_216
OF_SENDER, BESIDE_ONE, BESIDE_FOUR = 0.8, 0.9, 0.5  # goals
OPTIONS = "--aeron", "--clients", "4", "--send-to", "127.0.0.0/8"


def covered(frames: int) -> int:
    """How many bytes of the stream so many frames cover, of which each term has a pad as its last."""
    in_term = TERM // LENGTH + 1
    return frames // in_term * TERM + frames % in_term * LENGTH


def subscriber(binary: Path, frames: int, *words: str) -> tuple[int, "subprocess.Popen[str]"]:
    """A receiver of so many frames: its port, and itself. If the system lets it, its socket holds 8 MiB, since a sender with flow control
    sends a window at once."""
    port = free_port(socket.SOCK_DGRAM)
    command = [str(binary), str(port), str(covered(frames)), *words]
    with receive_buffer(large_buffer()):
        receiver = subprocess.Popen(command, stdout=subprocess.PIPE, text=True)
        await_that("a receiver", lambda: socket_words(port), pause=0.005)
    return port, receiver


def rate(receiver: "subprocess.Popen[str]", frames: int) -> float:
    """Frames a second, as a receiver prints them."""
    out, _ = receiver.communicate(timeout=600)
    micros, naks, datagrams, late = map(int, out.split())
    print(f"  {frames / micros * 1e6:,.0f} frames a second, {naks} NAKs, {datagrams} datagrams, {late} past a gap")
    return frames / micros * 1e6


def recorded(server: Server, sender: Path, frames: int) -> float:
    """Records so many frames, and how many a second."""
    words = [str(sender), str(server.control), str(server.receive), str(frames), str(LENGTH), "--flow-control"]
    out = subprocess.run(words, capture_output=True, text=True, check=True).stdout
    return frames / int(out.split()[0]) * 1e6


def by_send(server: Server, binary: Path, frames: int) -> float:
    port, receiver = subscriber(binary, frames)
    answer = server.ask(f"send 0 0 -1 127.0.0.1:{port}")[0]
    found = rate(receiver, frames)
    server.ask(f"stop-sending {answer.split()[1]}")
    return found


def by_sender(sender: Path, binary: Path, frames: int) -> float:
    control = free_port(socket.SOCK_STREAM)
    port, receiver = subscriber(binary, frames, str(control))
    time.sleep(0.2)
    subprocess.run([sender, str(control), str(port), str(frames), str(LENGTH), "--flow-control"], check=True, capture_output=True)
    return rate(receiver, frames)


def beside(tool: Path, sender: Path, binary: Path, count: int, frames: int) -> float:
    """The rate of a recorder while so many sendings follow the recording."""
    with served(tool, *OPTIONS) as (server, _):
        receivers = [subscriber(binary, frames) for _ in range(count)]
        begun = threading.Thread(target=send_to, args=(server, [port for port, _ in receivers]))
        begun.start()
        found = recorded(server, sender, frames)
        begun.join()
        for _, receiver in receivers:
            receiver.kill()
        server.process.wait(60)
        return found


def send_to(server: Server, ports: list[int]) -> None:
    """Sends the first recording to each port, as soon as it is there."""
    client = server.client()
    for port in ports:
        await_that("a sending", lambda: next(client.ask(f"send 0 0 -1 127.0.0.1:{port}")).startswith("sending "), pause=0.005)
    client.close()


def main() -> int:
    words = argparse.ArgumentParser(description=__doc__, formatter_class=argparse.RawDescriptionHelpFormatter)
    words.add_argument("program", nargs="?")
    words.add_argument("--frames", type=int, default=500_000)
    words.add_argument("--runs", type=int, default=3)
    asked = words.parse_args()
    tool, frames = program(asked.program), asked.frames
    with room() as folder:
        sender, binary = compiled("sender.rs", folder), compiled("subscriber.rs", folder)
        archive = folder / "archive"
        run([tool, "create", archive, "--history", "16777216"])
        first = Server(tool, archive, *OPTIONS)
        print(f"{frames} frames of {LENGTH} bytes on {file_system(folder)}; recorded at {recorded(first, sender, frames):,.0f} a second")
        first.process.wait(60)
        server = Server(tool, archive, *OPTIONS)
        pairs = [(by_send(server, binary, frames), by_sender(sender, binary, frames)) for _ in range(asked.runs)]
        ratio = statistics.median(one / other for one, other in pairs)
        print(f"a sending has {ratio:.2f} of the sender's rate (goal {OF_SENDER})")
        server.quit()
        runs = [[beside(tool, sender, binary, count, frames) for count in (0, 1, 4)] for _ in range(asked.runs)]
        one, four = (statistics.median(it[at] / it[0] for it in runs) for at in (1, 2))
        print(f"a recorder has {one:.2f} of its rate next to one sending (goal {BESIDE_ONE}), {four:.2f} next to four (goal {BESIDE_FOUR})")
        if ratio < OF_SENDER or one < BESIDE_ONE or four < BESIDE_FOUR:
            raise Fault("a goal is missed")
    return 0


if __name__ == "__main__":
    conclude(main)
