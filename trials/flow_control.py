#!/usr/bin/env python3
"""The served archive as a receiver of the Aeron Transport Protocol Specification: its senders follow its status messages.

Usage: trials/flow_control.py [--seed S] [--only TRIAL] [--frames N] [--restarts N] [--messages N] [--seconds N] [program]

Each trial starts `serve --aeron` over a folder of its own. The senders are those of `examples/sender.py --flow-control`. Each status
message has to name the right window, and a consumed position that was sent, and never falls while an image stays.
- losses: a million frames, of which one in a hundred is lost, doubled or swapped. Every byte is recorded. For each lost frame at most
  three are sent again.
- stopped: the server is stopped by SIGSTOP for three seconds. No frame is lost past the stock of its image.
- restarts: the server is killed and started again while the sender lives. The image joins by the setup flag, a client finds it by
  `images` and records on.
- example: the same with the program `examples/sender.py`, which says after 5 seconds that the receiver is gone.
- dissector: Wireshark's dissector (`tshark`) reads 10,000 status messages as they were sent, with no malformed one.
- rates: five senders of 1,000 messages a second each, for a minute. Each stream takes at most 200 entries a second. On an idle machine
  99 of 100 answers to `positions` lag at most 20 milliseconds.
"""
import random
import shutil
import signal
import socket
import struct
import subprocess
import sys
import tempfile
import threading
import time
from collections.abc import Callable, Iterator
from contextlib import contextmanager
from pathlib import Path

from serving import (
    PATIENCE, STREAM, Client, Faults, Server, compare, payload, publication_of, recorded_position, served, settles, start_line,
)
from lib.captures import dissected, malformed, read_numbers, write_capture
from lib.tool import (
    INITIAL_TERM, ROOT, SESSION_ID, STREAM_ID, Fault, conclude, expect, file_system, free_port, program, room, run, run_trials, stop_positions,
    trial_words,
)

sys.path.insert(0, str(ROOT / "examples"))
from sender import IDLE_SECONDS, STATUS, FlowControlled, Publication, aligned, kind_of  # noqa: E402

WINDOW, SHORTEST_WINDOW = 131_072, 4_096
MOST_REPEATS = MOST_NAKS = 3  # for each lost frame; for each lost or swapped datagram
STOPPED_SECONDS = 3
RATE, MOST_ENTRIES, LONGEST_LAG = 1_000, 200, 0.02  # messages and entries a second and stream; seconds
STATUS_FIELDS = [f"aeron.sm.{part}" for part in (
    "frame_length", "version", "flags", "type", "session_id", "stream_id", "consumption_term_id", "consumption_term_offset",
    "receiver_window", "receiver_id",
)]  # fmt: skip


class FaultySender(FlowControlled):
    """A sender with flow control that loses, doubles and swaps some datagrams, and looks at each status message."""

    def __init__(self, address: tuple[str, int], session_id: int, faults: Faults, window: int = WINDOW) -> None:
        super().__init__(publication_of(session_id), address)
        self.faults, self.window = faults, window
        self.status_messages: list[bytes] = []

    def send(self, datagram: bytes) -> None:
        for sent in self.faults.sent_for(datagram):
            super().send(sent)

    def go_to(self, position: int) -> None:
        super().go_to(position)
        self.least = 0  # consumed position that the next status message may name
        self.is_recorded = False  # whether a status message named the whole window

    def windows(self, asks_for_setup: bool) -> tuple[int, ...]:
        """The windows that the next status message may name. Until its recording begins, a sender is admitted one frame."""
        if asks_for_setup:
            return (0,)
        return (self.window,) if self.is_recorded else (self.publication.mtu, self.window)

    def take(self, datagram: bytes) -> None:
        """Follows a datagram. A status message has to name the right window, and a consumed position that was sent. It never falls, but
        with another image: a setup frame is asked for then, and the image may begin before it, where a recording stands."""
        status = self.publication.status(datagram)
        if status is not None:
            self.status_messages.append(datagram)
            expect("bytes of a status message", (len(datagram), *struct.unpack_from("<iB", datagram)), (36, 36, 0))
            window = status.limit - status.consumed
            if window not in self.windows(status.asks_for_setup):
                raise Fault(f"a receiver window: {window}, and not {self.window}")
            self.is_recorded = window == self.window
            if not status.asks_for_setup and not self.least <= status.consumed <= self.position:
                raise Fault(f"consumed {status.consumed}, after {self.least}, and sent up to {self.position}")
            self.least = 0 if status.asks_for_setup else status.consumed
        elif kind_of(datagram) == STATUS:
            raise Fault(f"a status message of another publication: {datagram.hex()}")
        super().take(datagram)

    def tend(self, seconds: float) -> None:
        """Tends the stream. Before it waits, it sends the datagram that nothing has overtaken yet."""
        for late in self.faults.held_back() if seconds > 0 else ():
            super().send(late)
        super().tend(seconds)

    def is_held(self) -> bool:
        """Whether a frame waits that may not be sent."""
        frame, covers = self.publication.frames.get(self.position, (b"", 0))
        return covers > 0 and self.position + aligned(len(frame)) > self.limit

    def flush(self) -> None:
        """Sends the frames that wait, once the receiver has room for them."""
        while self.position < self.publication.position:
            await_that("room for a frame", self, self.send_next)

    def message(self, length: int) -> None:
        """One message more, whose payload says its position."""
        for _ in self.publication.add(payload(self.publication.position, length)):
            self.flush()

    def go_on(self, seconds: float) -> None:
        """Sends messages for so many seconds, as far as the receiver has room."""
        until = time.monotonic() + seconds
        while time.monotonic() < until:
            if self.position == self.publication.position:
                length = self.faults.chance.choice((40, 200, 1_408))
                for _ in self.publication.add(payload(self.position, length)):
                    pass
            self.tend(0.0 if self.send_next() else IDLE_SECONDS)

    def finish(self, client: Client, recording: int) -> None:
        """Tends the stream until all is recorded."""
        self.flush()
        end = self.position
        await_that("the end", self, lambda: self.consumed == end and recorded_position(client, recording) == end)


def await_that(what: str, sender: FaultySender, holds: Callable[[], object]) -> None:
    """Tends a stream until something holds."""
    until = time.monotonic() + PATIENCE
    while not holds():
        if time.monotonic() > until:
            raise Fault(f"{what}: sent up to {sender.position}, limit {sender.limit}, consumed {sender.consumed}")
        sender.tend(IDLE_SECONDS)


def started(client: Client, sender: FaultySender) -> None:
    """Starts recording 0 of a sender's stream."""
    expect("start", list(client.ask(start_line(sender.publication.session_id))), ["started 0 0"])


def losses(tool: Path, chance: random.Random, frames: int) -> None:
    """So many frames, of which one in a hundred is lost, doubled or swapped: every byte is recorded, with few repeats."""
    with served(tool, "--aeron") as (server, archive):
        client = server.client()
        sender = FaultySender(server.address(), SESSION_ID, Faults(chance, 0.03))
        started(client, sender)
        begun = time.monotonic()
        for index in range(frames):
            sender.message(chance.choice((40, 64, 96)))
            if index % 8 == 0:
                sender.tend(0.0)
        sender.faults.share = 0.0
        sender.finish(client, 0)
        took, dropped, memory = time.monotonic() - begun, server.dropped(), server.memory()
        client.close()
        server.quit()
        expect("datagrams lost past the stock", server.counts()["datagrams lost"], 0)
        count = compare(tool, archive, 0, sender.publication)
        lost = sender.faults.lost_frames + dropped
        if sender.repeated > MOST_REPEATS * lost or sender.naks > MOST_NAKS * (lost + sender.faults.swapped):
            raise Fault(f"{lost} frames were lost, {sender.faults.swapped} swapped; {sender.naks} NAKs, {sender.repeated} sent again")
        print(f"{count} frames with flow control over {file_system(archive)}, {lost} of them lost, {dropped} by the system; "
              f"{sender.repeated} sent again, {sender.naks} NAKs, {len(sender.status_messages)} status messages, {took:.0f} s, "
              f"{memory} MB: each is recorded", flush=True)


def stopped(tool: Path, chance: random.Random) -> None:
    """The server is stopped for three seconds: its sender is held, and no frame is lost past the stock."""
    with served(tool, "--aeron") as (server, archive):
        client = server.client()
        sender = FaultySender(server.address(), SESSION_ID, Faults(chance, 0.0))
        started(client, sender)
        sender.go_on(1)
        server.process.send_signal(signal.SIGSTOP)
        sender.go_on(STOPPED_SECONDS)
        held, is_held = sender.position, sender.is_held()
        expect("whether its receiver counts as there", sender.is_connected, True)
        server.process.send_signal(signal.SIGCONT)
        if not is_held:
            raise Fault(f"the sender was not held: sent up to {held}, limit {sender.limit}")
        await_that("room after the stop", sender, sender.send_next)
        sender.go_on(1)
        sender.finish(client, 0)
        dropped = server.dropped()
        client.close()
        server.quit()
        expect("datagrams lost past the stock", server.counts()["datagrams lost"], 0)
        count = compare(tool, archive, 0, sender.publication)
        print(f"a server stopped for {STOPPED_SECONDS} s at {held}: {count} frames recorded, none lost past the stock, "
              f"{dropped} dropped by the system, {sender.repeated} sent again", flush=True)


def images(client: Client) -> list[list[str]]:
    """The fields of each image that the server has."""
    told = list(client.ask("images"))
    expect("the end of `images`", told[-1:], [f"end {len(told) - 1}"])
    return [line.split()[1:] for line in told[:-1]]


def start_at_image(client: Client, publication: Publication, recording: int) -> int:
    """Starts a recording where the only image joined, which feeds no session before; where that is."""
    begin = int(images(client)[0][6])
    fields = publication.session_id, STREAM_ID, INITIAL_TERM, publication.term_length, publication.mtu, begin
    expect("images", images(client), [["0", *map(str, fields), "-"]])
    expect("whether it joined at a frame", begin in publication.frames or begin == publication.position, True)
    start = STREAM.start("joined", begin)
    expect(start, list(client.ask(start)), [f"started {recording} 0"])
    expect("images", images(client), [["0", *map(str, fields), "0"]])
    return begin


@contextmanager
def receiver(tool: Path, archive: Path, port: int, *options: str) -> Iterator[tuple[Server, Client]]:
    """A server over an archive, at a port that a sender knows. It is killed at the end, if it has not ended."""
    server = Server(tool, archive, "--aeron", *options, receive=port)
    client = server.client()
    try:
        yield server, client
    finally:
        client.close()
        if server.process.poll() is None:
            server.kill(signal.SIGKILL)


def joined_right(tool: Path, archive: Path, sent: Publication, begins: list[int], answered: list[int]) -> int:
    """Each recording has what was sent from its beginning on, and at least what was answered; how many frames."""
    stops = stop_positions(tool, archive)
    expect("how many recordings there are", len(stops), len(begins))
    for number, (stop, position) in enumerate(zip(stops, answered, strict=True)):
        if stop < position:
            raise Fault(f"recording {number}: answered {position}, it stopped at {stop}")
    return sum(compare(tool, archive, number, sent, begin) for number, begin in enumerate(begins))


def join(client: Client, sender: FaultySender, recording: int) -> int:
    """Starts a recording once the sender's image is there, before which the sender may go no further; where it begins."""
    await_that("an image", sender, lambda: images(client))
    limit = sender.limit
    sender.go_on(0.1)
    expect("the limit before there is a session", sender.limit, limit)
    begin = start_at_image(client, sender.publication, recording)
    await_that("room to send", sender, lambda: sender.limit > limit)
    return begin


def restarted(tool: Path, chance: random.Random, restarts: int) -> None:
    """Kills the server so often, and starts it again, while its sender lives: an image joins, and a client records on."""
    with room() as folder:
        archive, port = folder / "archive", free_port(socket.SOCK_DGRAM)
        run([tool, "create", archive, "--history", "16777216"])
        sender = FaultySender(("127.0.0.1", port), SESSION_ID, Faults(chance, 0.0))
        begins, answered = [], []
        for recording in range(restarts + 1):
            with receiver(tool, archive, port) as (server, client):
                begins.append(join(client, sender, recording))
                sender.go_on(chance.uniform(0.1, 1))
                answered.append(recorded_position(client, recording))
                sender.go_on(chance.uniform(0, 0.1))
                if recording == restarts:
                    sender.finish(client, recording)
                    client.close()
                    server.quit()
            sender.go_on(chance.uniform(0, 0.5))
        count = joined_right(tool, archive, sender.publication, begins, answered)
        print(f"{restarts} kills under a sender that lives, over {file_system(archive)}: {count} frames recorded", flush=True)


class Example:
    """The program `examples/sender.py --flow-control`, which is given its lines by a pipe."""

    def __init__(self, port: int) -> None:
        self.publication = publication_of(SESSION_ID)
        self.told = tempfile.TemporaryFile("w+")
        words = ["--to", f"127.0.0.1:{port}", "--flow-control", "--term-length", str(STREAM.term_length), "--linger", "0"]
        self.process = subprocess.Popen(
            [sys.executable, ROOT / "examples/sender.py", *words], stdin=subprocess.PIPE, stdout=subprocess.PIPE, stderr=self.told
        )

    def lines(self, count: int) -> None:
        """Gives it so many lines more."""
        for _ in range(count):
            line = b"the message at %d" % self.publication.position
            list(self.publication.add(line))
            self.process.stdin.write(line + b"\n")
        self.process.stdin.flush()

    def errors(self) -> str:
        """What it printed on standard error."""
        self.told.seek(0)
        return self.told.read()


def wait_for(what: str, holds: Callable[[], object], seconds: float = 0.01) -> None:
    """Waits until something holds. It looks again after so many seconds."""
    until = time.monotonic() + PATIENCE
    while not holds():
        if time.monotonic() > until:
            raise Fault(f"{what}: nothing in {PATIENCE} s")
        time.sleep(seconds)


def by_example(tool: Path) -> None:
    """`examples/sender.py --flow-control` says that its receiver is gone, and goes on when another one is there."""
    with room() as folder:
        archive, port = folder / "archive", free_port(socket.SOCK_DGRAM)
        run([tool, "create", archive, "--history", "16777216"])
        example = Example(port)
        try:
            begins, answered, told = lives_of_example(tool, archive, port, example)
        finally:
            example.process.kill()
        frames, end = len(example.publication.frames), example.publication.position
        expect("the sender's status", example.process.returncode, 0)
        expect("what it prints", told.split(", ")[:2], [f"{frames} frames", f"{end} bytes of the stream"])
        count = joined_right(tool, archive, example.publication, begins, answered)
        print(f"examples/sender.py went on at {begins[1]} with another server: {count} frames recorded; {told.strip()}", flush=True)


def lives_of_example(tool: Path, archive: Path, port: int, example: Example) -> tuple[list[int], list[int], str]:
    """Where two recordings of the example's stream begin and what was answered of them, and what the example prints at its end."""
    with receiver(tool, archive, port) as (_, client):
        wait_for("an image", lambda: images(client))
        first = start_at_image(client, example.publication, 0)
        example.lines(1_000)
        wait_for("a recorded frame", lambda: recorded_position(client, 0) > 0)
        answered = recorded_position(client, 0)
    wait_for("a word that the receiver is gone", example.errors)
    expect("what the sender says", example.errors(), "the receiver is gone: no status message for 5 seconds\n")
    with receiver(tool, archive, port) as (server, client):
        wait_for("an image", lambda: images(client))
        second = start_at_image(client, example.publication, 1)
        example.lines(1_000)
        told = example.process.communicate(timeout=PATIENCE)[0].decode()
        wait_for("the end", lambda: recorded_position(client, 1) == example.publication.position)
        client.close()
        server.quit()
    return [first, second], [answered, example.publication.position], told


def asked_for_setup(server: Server, seconds: float) -> list[bytes]:
    """The status messages that answer the heartbeats and frames of a publication without an image, for so many seconds."""
    publication = publication_of(SESSION_ID + 1)
    own = socket.socket(socket.AF_INET, socket.SOCK_DGRAM)
    own.settimeout(0.001)
    came, until = [], time.monotonic() + seconds
    while time.monotonic() < until:
        for datagram in (publication.heartbeat(), next(publication.add(bytes(100)))):
            own.sendto(datagram, server.address())
        try:
            came.append(own.recv(65_536))
        except TimeoutError:
            pass
    most = round(seconds / 0.2) + 1
    if not 0 < len(came) <= most:
        raise Fault(f"a publication without an image was answered {len(came)} times in {seconds} s, and not 1 to {most} times")
    for datagram in came:
        status = publication.status(datagram)
        expect("whether it asks for a setup frame", status and (status.asks_for_setup, status.limit - status.consumed), (True, 0))
    return came


def read_by_wireshark(tool: Path, chance: random.Random, count: int) -> None:
    """So many status messages, as Wireshark reads them."""
    if not shutil.which("tshark"):
        print("there is no tshark: its reading of status messages is left out", flush=True)
        return
    with served(tool, "--aeron", "--window", str(SHORTEST_WINDOW)) as (server, archive):
        came = asked_for_setup(server, 1)
        client = server.client()
        sender = FaultySender(server.address(), SESSION_ID, Faults(chance, 0.0), SHORTEST_WINDOW)
        started(client, sender)
        until = time.monotonic() + 10 * PATIENCE
        while len(came) + len(sender.status_messages) < count:
            sender.message(chance.choice((64, 1_000, 1_408)))
            sender.tend(0.0)
            if time.monotonic() > until:
                raise Fault(f"{len(sender.status_messages)} status messages in {10 * PATIENCE} s")
        sender.finish(client, 0)
        client.close()
        server.quit()
        came += sender.status_messages
        capture = archive.parent / "capture.pcap"
        write_capture(capture, came)
        expect("malformed status messages", malformed(capture), [])
        read = dissected(capture, STATUS_FIELDS)
        differences = sum(one != numbers_of(datagram) for one, datagram in zip(read, came, strict=True))
        expect("differences between what was sent and what tshark reads", differences, 0)
        print(f"{len(came)} status messages, as tshark reads them", flush=True)


def numbers_of(status_message: bytes) -> list[int]:
    """The numbers of a status message in the order of STATUS_FIELDS, as `dissected` has them."""
    return read_numbers(",".join(map(str, struct.unpack("<IBBHIIIIIQ", status_message))))


class TimedSender(FaultySender):
    """A sender that loses nothing, and notes when it sent each frame first."""

    def __init__(self, address: tuple[str, int], session_id: int, chance: random.Random) -> None:
        super().__init__(address, session_id, Faults(chance, 0.0))
        self.times: dict[int, float] = {}  # by a frame's position

    def send_next(self) -> bool:
        position, now = self.position, time.monotonic()
        is_sent = super().send_next()
        if is_sent:
            self.times[position] = now
        return is_sent


class Asker(threading.Thread):
    """Asks the positions of recordings in turn, and notes each answer's lag: how long ago the first frame was sent that it lacks."""

    def __init__(self, client: Client, senders: list[TimedSender]) -> None:
        super().__init__()
        self.client, self.senders = client, senders
        self.lags: list[float] = []  # in seconds
        self.fault: Exception | None = None
        self.is_over = threading.Event()

    def run(self) -> None:
        try:
            while not self.is_over.wait(0.05):
                recording = len(self.lags) % len(self.senders)
                recorded = recorded_position(self.client, recording)
                now = time.monotonic()
                self.lags.append(now - self.senders[recording].times.get(recorded, now))
        except (Fault, OSError) as fault:
            self.fault = fault

    def end(self) -> list[float]:
        """Ends it; the lags, from the least to the greatest."""
        self.is_over.set()
        self.join()
        if self.fault:
            raise Fault(f"positions: {self.fault}")
        return sorted(self.lags)


def is_idle() -> bool:
    """Whether the processors have had little work for a second: at most a tenth of their time."""

    def times() -> list[int]:
        return list(map(int, Path("/proc/stat").read_text().splitlines()[0].split()[1:9]))

    before = times()
    time.sleep(1)
    taken = [now - then for now, then in zip(times(), before, strict=True)]
    return taken[3] + taken[4] >= 0.9 * sum(taken)


def send_at_rate(senders: list[TimedSender], chance: random.Random, seconds: float) -> None:
    """Sends a message of each stream each millisecond."""
    begun = time.monotonic()
    for index in range(1, round(seconds * RATE) + 1):
        for sender in senders:
            sender.message(chance.choice((40, 64, 160)))
            sender.tend(0.0)
        while (left := begun + index / RATE - time.monotonic()) > 0:
            time.sleep(left)


def rates(tool: Path, chance: random.Random, seconds: float) -> None:
    """Five streams at their rate for so many seconds: entries of the history, and the lag of positions."""
    was_idle = is_idle()
    with served(tool, "--aeron") as (server, archive):
        client = server.client()
        senders = [TimedSender(server.address(), SESSION_ID + number, chance) for number in range(5)]
        for number, sender in enumerate(senders):
            line = start_line(sender.publication.session_id)
            expect("start", list(client.ask(line)), [f"started {number} {number}"])
            await_that("room to send", sender, lambda: sender.is_connected)
        asker, begun = Asker(client, senders), time.monotonic()
        asker.start()
        send_at_rate(senders, chance, seconds)
        lags = asker.end()
        for number, sender in enumerate(senders):
            sender.finish(client, number)
        took = time.monotonic() - begun
        client.close()
        server.quit()
        judge_rates(archive, senders, took, lags, was_idle)
        for number, sender in enumerate(senders):
            compare(tool, archive, number, sender.publication)


def judge_rates(archive: Path, senders: list[TimedSender], took: float, lags: list[float], was_idle: bool) -> None:
    """Asks for few entries and short lags. An answer to `positions` may cost an entry, as a new segment does."""
    entries, free = settles(archive), len(lags) + sum(sender.position // STREAM.segment_length for sender in senders)
    if entries - free > MOST_ENTRIES * took * len(senders):
        raise Fault(f"{entries} entries in {took:.1f} s, for {len(senders)} streams and {len(lags)} answers")
    lag = lags[(len(lags) * 99 + 99) // 100 - 1]
    if was_idle and lag > LONGEST_LAG:
        raise Fault(f"99 of 100 answers lag at most {lag * 1e3:.1f} ms")
    verdict = "" if was_idle else "; the machine was busy, so the lag was not judged"
    print(f"{len(senders)} streams of {RATE} messages a second for {took:.0f} s over {file_system(archive)}: "
          f"{entries / took / len(senders):.0f} entries a second and stream; of {len(lags)} answered positions 99 of 100 lag at most "
          f"{lag * 1e3:.1f} ms, and all {lags[-1] * 1e3:.1f} ms{verdict}", flush=True)


def main() -> int:
    words = trial_words(__doc__)
    words.add_argument("--frames", type=int, default=10**6)
    words.add_argument("--restarts", type=int, default=20)
    words.add_argument("--messages", type=int, default=10**4, help="status messages that tshark reads")
    words.add_argument("--seconds", type=float, default=60, help="of the streams at a rate")
    words.add_argument("--only", help="one trial alone, by its name")
    asked = words.parse_args()
    tool, chance = program(asked.program), random.Random(asked.seed)
    print(f"seed {asked.seed}", flush=True)
    all_trials = {
        "losses": lambda: losses(tool, chance, asked.frames),
        "stopped": lambda: stopped(tool, chance),
        "restarts": lambda: restarted(tool, chance, asked.restarts),
        "example": lambda: by_example(tool),
        "dissector": lambda: read_by_wireshark(tool, chance, asked.messages),
        "rates": lambda: rates(tool, chance, asked.seconds),
    }
    run_trials(all_trials, asked.only)
    return 0


if __name__ == "__main__":
    conclude(main)
