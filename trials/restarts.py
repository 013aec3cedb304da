#!/usr/bin/env python3
"""A server that records without being asked is restarted under senders that live: how many bytes are in no recording.

Usage: trials/restarts.py [--seed S] [--only TRIAL] [--restarts N] [--streams N] [program]

The senders are those of `examples/sender.py --flow-control`, which keep a driver's rules: the limit, repeats from half a term back,
none of a range twice in 60 milliseconds, a setup frame if asked, a pad if its header is inside the window. Some datagrams are lost.
- quits: the server is ended by `quit`, each second time with `compact` after it, in terms of 64 KiB, 1 MiB and 16 MiB.
- kills: it is killed, in the same terms.
- silences: the senders are stopped for eleven seconds. The server goes on.
  After these three each publication has one recording, with each frame that was sent. At most an MTU before its first is missing.
- unanswered: senders that answer no NAK. The holes between recordings are those that the server printed, byte for byte, and those
  that the next one prints at its beginning. The metrics have their bytes by publication.
- places: 64 publications that nobody records have all places. One that is to be recorded is connected within a second.
- floods: 10,000 setup frames make no recording and no entry. Each with a frame after it: at most 64 recordings in 15 seconds.
- full: on a full disk 20 senders have at most 20 recordings after ten turns of a strict server. It mounts a tmpfs of 4 MiB.
"""
import os
import random
import re
import signal
import socket
import sys
import time
from collections.abc import Callable, Iterable
from contextlib import AbstractContextManager
from itertools import pairwise
from pathlib import Path

from serving import PATIENCE, Server, compare, killed_at_last, payload
from lib.mounts import mounted
from lib.tool import INITIAL_TERM, ROOT, STREAM_ID, Fault, conclude, expect, free_port, program, room, run, run_trials, trial_words

sys.path.insert(0, str(ROOT / "examples"))
from sender import HEADER_LENGTH, IDLE_SECONDS, NAK, PAD, UNFRAGMENTED, FlowControlled, Publication, kind_of  # noqa: E402

MTU = 1_408
TERM_LENGTHS = 65_536, 1_048_576, 16_777_216
LOSSES = 0.0, 0.01, 0.05
AT_ONCE = 8  # frames of a stream, before the next stream has its turn
SILENT_SECONDS = 11
STANDING = re.compile(r"(\d+) holes? stands? between recordings of one publication: (\d+) bytes")
HOLE = re.compile(r"hole: (\d+) bytes of stream -?\d+, session id (-?\d+), from (\d+) to (\d+), are in no recording")


class Driver(FlowControlled):
    """A sender that loses a share of its datagrams, and may answer no NAK."""

    def __init__(self, port: int, session_id: int, term_length: int, loss: float, chance: random.Random, answers: bool = True) -> None:
        super().__init__(Publication(session_id, STREAM_ID, INITIAL_TERM, term_length, MTU), ("127.0.0.1", port))
        self.loss, self.chance, self.answers = loss, chance, answers

    def send(self, datagram: bytes) -> None:
        if self.chance.random() >= self.loss:
            super().send(datagram)

    def take(self, datagram: bytes) -> None:
        if self.answers or kind_of(datagram) != NAK:
            super().take(datagram)

    def add(self) -> None:
        """A message more, or now and then the pad before one that does not fit: up to an eighth of a term."""
        stream = self.publication
        left = stream.term_length - stream.position % stream.term_length
        if HEADER_LENGTH < left <= stream.term_length // 8 and self.chance.random() < 0.05:
            stream.keep(stream.header(PAD, UNFRAGMENTED, left), left)
        else:
            list(stream.add(payload(stream.position, self.chance.choice((40, 200, MTU)))))

    def turn(self, is_adding: bool) -> None:
        """Sends some frames, as far as the receiver has room, and what is due."""
        for _ in range(AT_ONCE):
            if is_adding and self.position == self.publication.position:
                self.add()
            if self.position == self.publication.position or not self.send_next():
                break
        self.tend(0.0)


def go_on(drivers: Iterable[Driver], seconds: float, is_adding: bool = True) -> None:
    """All senders go on for so many seconds."""
    until = time.monotonic() + seconds
    while time.monotonic() < until:
        for driver in drivers:
            driver.turn(is_adding)
        time.sleep(0.001)


def await_all(drivers: list[Driver], what: str, holds: Callable[[Driver], bool]) -> None:
    until = time.monotonic() + PATIENCE
    while not all(map(holds, drivers)):
        if time.monotonic() > until:
            driver = next(it for it in drivers if not holds(it))
            raise Fault(f"{what}: sent up to {driver.position}, limit {driver.limit}, consumed {driver.consumed}")
        go_on(drivers, IDLE_SECONDS, is_adding=False)


def recordings(tool: Path, archive: Path) -> dict[int, list[tuple[int, int, int]]]:
    """By session id the recordings of each publication: id, start and stop position, by rising id."""
    found: dict[int, list[tuple[int, int, int]]] = {}
    for fields in (line.split() for line in run([tool, "list", archive]) if line.startswith("recording ")):
        recording, start, stop, session_id = int(fields[1]), int(fields[4]), int(fields[5]), int(fields[10])
        found.setdefault(session_id, []).append((recording, start, stop))
    return found


def end(tool: Path, server: Server, archive: Path, how: str) -> str:
    """Ends a server; what it printed."""
    if how == "kill":
        server.kill(signal.SIGKILL)
    else:
        server.quit()
    if how == "compact":
        run([tool, "compact", archive])
    return server.errors()


def recorder(tool: Path, archive: Path, port: int, *options: str) -> AbstractContextManager[Server]:
    """A server that records each publication. It is killed at the end, if it has not ended."""
    return killed_at_last(Server(tool, archive, "--aeron", "--record", str(STREAM_ID), *options, receive=port))


def restarted(tool: Path, drivers: list[Driver], port: int, archive: Path, ends: list[str], chance: random.Random) -> str:
    """Restarts a server so often under its senders, which all send at last what they have; what the servers printed."""
    run([tool, "create", archive, "--history", "16777216"])
    printed = ""
    for how in ends:
        with recorder(tool, archive, port) as server:
            await_all(drivers, "a receiver", lambda driver: driver.is_connected)
            go_on(drivers, chance.uniform(0.1, 1.0))
            printed += end(tool, server, archive, how)
        go_on(drivers, chance.uniform(0, 0.4))
    with recorder(tool, archive, port) as server:
        await_all(drivers, "the end", lambda it: it.consumed == it.publication.position)
        printed += end(tool, server, archive, "quit")
    return printed


def is_whole(tool: Path, archive: Path, drivers: list[Driver], printed: str) -> int:
    """Each publication has one recording, with each frame from its first MTU on; how many frames."""
    expect("holes", HOLE.findall(printed), [])
    found, frames = recordings(tool, archive), 0
    for driver in drivers:
        mine = found.get(driver.publication.session_id, [])
        expect(f"recordings of session {driver.publication.session_id}", len(mine), 1)
        recording, start, stop = mine[0]
        if start > MTU or stop != driver.publication.position:
            raise Fault(f"recording {recording}: from {start} to {stop}, and sent up to {driver.publication.position}")
        frames += compare(tool, archive, recording, driver.publication, start)
    return frames


def whole(tool: Path, chance: random.Random, ends: list[str], streams: int, term_length: int, loss: float) -> None:
    with room() as folder:
        archive, port = folder / "archive", free_port(socket.SOCK_DGRAM)
        drivers = [Driver(port, number + 1, term_length, loss, chance) for number in range(streams)]
        printed = restarted(tool, drivers, port, archive, ends, chance)
        frames = is_whole(tool, archive, drivers, printed)
        resumed = printed.count(" resumes stream ")
        print(f"{len(ends)} restarts ({ends[0]}..) under {streams} senders, terms of {term_length}, {loss:.0%} lost: {frames} frames in "
              f"one recording each, {resumed} times resumed, nothing in no recording", flush=True)


def quits(tool: Path, chance: random.Random, restarts: int, streams: int) -> None:
    for term_length in TERM_LENGTHS:
        for loss in LOSSES:
            ends = [chance.choice(("quit", "compact")) for _ in range(restarts)]
            whole(tool, chance, ends, streams, term_length, loss)


def kills(tool: Path, chance: random.Random, restarts: int, streams: int) -> None:
    for term_length in TERM_LENGTHS:
        for loss in LOSSES:
            whole(tool, chance, ["kill"] * restarts, streams, term_length, loss)


def silences(tool: Path, chance: random.Random, streams: int) -> None:
    """The senders fall silent, and their images leave: each goes on in its recording."""
    with room() as folder:
        archive, port = folder / "archive", free_port(socket.SOCK_DGRAM)
        run([tool, "create", archive, "--history", "16777216"])
        drivers = [Driver(port, number + 1, TERM_LENGTHS[0], 0.01, chance) for number in range(streams)]
        with recorder(tool, archive, port) as server:
            for _ in range(3):
                go_on(drivers, 1)
                time.sleep(SILENT_SECONDS)
            await_all(drivers, "the end", lambda it: it.consumed == it.publication.position)
            printed = end(tool, server, archive, "quit")
        frames = is_whole(tool, archive, drivers, printed)
        print(f"three silences of {streams} senders: {frames} frames in one recording each", flush=True)


def holes_of(printed: str) -> list[tuple[int, int, int]]:
    """The holes that servers printed: session id, and from where to where."""
    return [(int(session_id), int(begin), int(stop)) for _, session_id, begin, stop in HOLE.findall(printed)]


def summed(holes: list[tuple[int, int, int]]) -> list[tuple[str, str]]:
    """What a server prints of so many holes at its beginning: how many, and their bytes."""
    return [(str(len(holes)), str(sum(stop - begin for _, begin, stop in holes)))] if holes else []


def by_session(holes: list[tuple[int, int, int]], drivers: list[Driver]) -> dict[int, int]:
    """Bytes of holes by the senders' session ids."""
    found = dict.fromkeys((driver.publication.session_id for driver in drivers), 0)
    for session_id, begin, stop in holes:
        found[session_id] += stop - begin
    return found


def hole_bytes(text: str) -> dict[int, int]:
    """Bytes of holes by session id, as a text of metrics has them."""
    found = re.findall(r'^aeron_recorder_publication_hole_bytes\{.*,session="(-?\d+)"\} (\d+)$', text, re.MULTILINE)
    return {int(session_id): int(count) for session_id, count in found}


def unanswered(tool: Path, chance: random.Random, restarts: int) -> None:
    """Senders that answer no NAK lose what lies between: the printed holes are those between their recordings."""
    with room() as folder:
        archive, port = folder / "archive", free_port(socket.SOCK_DGRAM)
        drivers = [Driver(port, number + 1, TERM_LENGTHS[1], 0.0, chance, answers=False) for number in range(4)]
        run([tool, "create", archive, "--history", "16777216"])
        printed, metrics = "", folder / "recorder.prom"
        for _ in range(restarts + 1):
            standing = holes_of(printed)
            with recorder(tool, archive, port, "--metrics", str(metrics)) as server:
                go_on(drivers, 10)  # an image is given up after 5 seconds, and metrics are written each second
                measured = hole_bytes(metrics.read_text())
                lines = end(tool, server, archive, "quit")
            expect("the holes at its beginning", STANDING.findall(lines), summed(standing))
            expect("the bytes of holes", measured, by_session(holes_of(lines), drivers))
            printed += lines
            go_on(drivers, chance.uniform(0, 0.4))
        right = sorted(
            (session_id, before[2], after[1])
            for session_id, mine in recordings(tool, archive).items()
            for before, after in pairwise(mine)
            if before[2] < after[1]
        )
        expect("the holes", sorted(holes_of(printed)), right)
        print(f"{restarts} restarts under 4 senders that answer no NAK: {len(right)} holes, each printed", flush=True)


def entries(tool: Path, archive: Path) -> str:
    """What `describe` says of the history of an archive."""
    return next(line for line in run([tool, "describe", archive]) if "entries" in line)


def places(tool: Path, chance: random.Random) -> None:
    """64 publications of another stream send setup frames, and the one that is wanted waits for none of them."""
    with room() as folder, socket.socket(socket.AF_INET, socket.SOCK_DGRAM) as other:
        archive, port = folder / "archive", free_port(socket.SOCK_DGRAM)
        run([tool, "create", archive])
        with recorder(tool, archive, port) as server:
            for session_id in range(100, 164):
                other.sendto(Publication(session_id, STREAM_ID + 1, INITIAL_TERM, TERM_LENGTHS[0], MTU).setup(), ("127.0.0.1", port))
            until = time.monotonic() + PATIENCE
            while server.ask("images")[-1] != "end 64":
                if time.monotonic() > until:
                    raise Fault(f"places that are taken: {server.ask('images')[-1]}")
            driver, begun = Driver(port, 1, TERM_LENGTHS[0], 0.0, chance), time.monotonic()
            await_all([driver], "a place", lambda it: it.is_connected)
            if time.monotonic() - begun > 1:
                raise Fault(f"connected after {time.monotonic() - begun:.1f} s")
            go_on([driver], 1)
            await_all([driver], "the end", lambda it: it.consumed == it.publication.position)
            printed = end(tool, server, archive, "quit")
        expect("images that yielded", printed.count(" yields its place to stream "), 1)
        print("a publication that is to be recorded got a place of 64", flush=True)


def floods(tool: Path) -> None:
    """10,000 publications set up: alone they begin nothing, and with a frame each 64 recordings at most in 15 seconds."""
    for has_frame, most in ((False, 0), (True, 64)):
        with room() as folder, socket.socket(socket.AF_INET, socket.SOCK_DGRAM) as flood:
            archive, port = folder / "archive", free_port(socket.SOCK_DGRAM)
            run([tool, "create", archive])
            before = entries(tool, archive)
            with recorder(tool, archive, port) as server:
                until = time.monotonic() + 12
                for session_id in range(10_000):
                    stream = Publication(session_id, STREAM_ID, INITIAL_TERM, TERM_LENGTHS[0], MTU)
                    flood.sendto(stream.setup(), ("127.0.0.1", port))
                    if has_frame:
                        for frame in stream.add(b"first"):
                            flood.sendto(frame, ("127.0.0.1", port))
                    time.sleep(max(0.0, (until - time.monotonic()) / (10_001 - session_id)))
                end(tool, server, archive, "quit")
            made = sum(map(len, recordings(tool, archive).values()))
            if made > most:
                raise Fault(f"{made} recordings of 10,000 publications")
            if not has_frame:
                expect("the history", entries(tool, archive), before)
            print(f"10,000 setup frames{', each with a frame' if has_frame else ''}: {made} recordings", flush=True)


def full(tool: Path, chance: random.Random) -> None:
    """A strict server over a full disk is started ten times under 20 senders."""
    with room() as folder, mounted(folder / "disk", "-t", "tmpfs", "-o", "size=4m", "tmpfs") as disk:
        archive, port = disk / "archive", free_port(socket.SOCK_DGRAM)
        archive.mkdir()
        run([tool, "create", archive])
        ballast = disk / "ballast"
        drivers = [Driver(port, number + 1, TERM_LENGTHS[0], 0.0, chance) for number in range(20)]
        for _ in range(10):
            free = os.statvfs(disk)
            ballast.write_bytes(bytes(max(0, free.f_bavail * free.f_frsize - 65_536)))
            server = Server(tool, archive, "--aeron", "--strict", "--record", str(STREAM_ID), receive=port)
            with killed_at_last(server):
                go_on(drivers, 2)
            ballast.unlink(missing_ok=True)
        made = sum(map(len, recordings(tool, archive).values()))
        if made > len(drivers):
            raise Fault(f"{made} recordings of {len(drivers)} publications")
        print(f"ten turns over a full disk under {len(drivers)} senders: {made} recordings", flush=True)


def main() -> int:
    words = trial_words(__doc__)
    words.add_argument("--restarts", type=int, default=5, help="of each server")
    words.add_argument("--streams", type=int, default=8)
    words.add_argument("--only", help="one trial alone, by its name")
    asked = words.parse_args()
    tool, chance = program(asked.program), random.Random(asked.seed)
    print(f"seed {asked.seed}", flush=True)
    run_trials({
        "quits": lambda: quits(tool, chance, asked.restarts, asked.streams),
        "kills": lambda: kills(tool, chance, asked.restarts, asked.streams),
        "silences": lambda: silences(tool, chance, asked.streams),
        "unanswered": lambda: unanswered(tool, chance, asked.restarts),
        "places": lambda: places(tool, chance),
        "floods": lambda: floods(tool),
        "full": lambda: full(tool, chance),
    }, asked.only)
    return 0


if __name__ == "__main__":
    conclude(main)
