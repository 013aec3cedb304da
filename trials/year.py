#!/usr/bin/env python3
"""One server through as many publications, and as many clients that die, as a year may bring.

Usage: trials/year.py [--seed S] [--only TRIAL] [--publications N] [--clients N] [--silent N] [--times N] [--settles N] [--memory MB] [program]

The server is `serve --aeron --record --clients 4`. In all trials it stays below its bound of memory (`--memory`; 0 asks for none, as
for a build with the address sanitizer), and `quit` ends it with status 0.
- publications: so many of them, one after another, each with a session id of its own: a setup frame, one to five data frames, and
  then nothing. A client sends `start` for it, since the server begins few recordings in a short time by itself. It awaits that
  `positions` shows all of it, and replays it. A second client stops its recording meanwhile, and purges the oldest stopped one. Each
  publication has one image and one recording, and no place of an image runs out. The memory that is in use does not rise from the
  first thousand publications to the last.
- clients: so many of them open replays of a recording that goes on, poll, and die in the middle of the reply: by a reset, or by a
  close without reading. One to three die at once. After each time the next client is served. At the end no replay is left open, all
  that was sent is recorded, and the recording can be purged.
- silence: so many of them send a few frames each and then nothing, next to one that goes on as fast as it can, and that so many times.
  Nobody sends `start`. Each is recorded whole by one recording, which is stopped at its end ten seconds later. So places and seats are
  free for the next time.
- settles: another server, `serve --checkpoints` over a history of 1,000 entries, makes so many settles, one for each frame of a client's
  `block` lines. Each is answered, the history is made short every few hundred of them, and each frame is there at the end.
"""
import queue
import random
import socket
import struct
import threading
import time
from collections import deque
from collections.abc import Iterator
from contextlib import contextmanager
from pathlib import Path

from days import Recording, listed
from flow_control import FaultySender, wait_for
from serving import (
    MOST_MEMORY, PATIENCE, STREAM, Client, Faults, Publication, Server, killed_at_last, recorded_position, served, start_line,
)
from lib.tool import (
    MOST_AT_ONCE, STREAM_ID, Fault, conclude, expect, file_system, program, room, run, run_trials, stop_positions, trial_words,
)

CLIENTS = 4  # at a time
MOST_REPLAYS = 64  # docs/CONTROL.md, "Limits"
FIRST = 1_000  # publications, after which the memory in use may rise no more
MOST_RISE = 1_024  # kilobytes of it
KEPT = 500  # stopped recordings that stand before the oldest one is purged
WAITING = 16  # publications that may wait to be stopped: less than the 64 places of images
LENGTHS = 40, 200, 1_408  # of frames
ENOUGH = 6_000  # frames of MTU: a poll's reply is longer than what the system keeps of it
TIMESTAMP = 2_000
SILENT = 60  # publications at most: with the one that goes on less than the 64 places of images, and than 64 recordings that begin
SHORT_HISTORY = 1_000  # entries
LEAST = 32  # bytes of a frame
BATCH = 500  # lines that a client sends before it reads their answers
MOST_SILENCE = 15.0  # seconds after which each is stopped: ten, and what the look at all of them takes


@contextmanager
def recorder(tool: Path, most_memory: int) -> Iterator[tuple[Server, Path]]:
    """A server that records the trials' stream. If nothing goes wrong, it has stayed below its memory and ends by `quit`."""
    options = ["--record", str(STREAM_ID), "--segment-length", str(STREAM.segment_length), "--clients", str(CLIENTS)]
    with served(tool, "--aeron", *options) as (server, archive):
        yield server, archive
        memory = server.memory()
        if 0 < most_memory <= memory:
            raise Fault(f"{memory} MB")
        server.quit()


def one(client: Client, line: str) -> str:
    """The only line that a line is answered."""
    told = list(client.ask(line))
    expect(f"lines that answer {line}", len(told), 1)
    return told[0]


def expect_whole(client: Client, recording: int, sent: Publication) -> None:
    """A replay gives each frame that was sent, byte for byte."""
    replay = one(client, f"replay {recording} -1 -1")
    frames: list[str] = []
    while more := list(client.ask(f"poll {replay.removeprefix('replay ')} {MOST_AT_ONCE}"))[:-1]:
        frames += more
    if frames != [f"frame {position} {frame.hex()}" for position, (frame, _) in sent.frames.items()]:
        raise Fault(f"recording {recording}: {len(frames)} frames that are not the {len(sent.frames)} that were sent")
    expect(f"close of {replay}", one(client, replay.replace("replay", "close")), "closed")


# ---- publications


class Keeper(threading.Thread):
    """A client that stops the recordings of publications that are gone, and purges the oldest stopped ones."""

    def __init__(self, client: Client) -> None:
        super().__init__(daemon=True)
        self.client = client
        self.gone: queue.Queue[tuple[int, int] | None] = queue.Queue(WAITING)
        self.stopped: deque[int] = deque()
        self.fault: Exception | None = None

    def run(self) -> None:
        try:
            while (found := self.gone.get()) is not None:
                self.stop(*found)
        except (Fault, OSError) as fault:
            self.fault = fault

    def stop(self, recording: int, position: int) -> None:
        """Stops a recording, and purges another one if enough stand."""
        expect(f"stop {recording}", one(self.client, f"stop {recording} {TIMESTAMP}"), f"stopped {position}")
        self.stopped.append(recording)
        if len(self.stopped) > KEPT:
            oldest = self.stopped.popleft()
            expect(f"purge {oldest}", one(self.client, f"purge {oldest}"), "purged-recording")
            expect(f"a sweep after purge {oldest}", one(self.client, "sweep"), "swept 1")

    def put(self, found: tuple[int, int] | None) -> None:
        """Gives it a recording that has nothing more to come, and its end."""
        until = time.monotonic() + PATIENCE
        while self.fault is None:
            try:
                return self.gone.put(found, timeout=1)
            except queue.Full:
                if time.monotonic() > until:
                    raise Fault(f"no recording was stopped in {PATIENCE} s") from None
        raise Fault(f"the second client: {self.fault}")

    def end(self) -> None:
        """Ends it once all that it was given is stopped."""
        self.put(None)
        self.join(PATIENCE)
        if self.fault is not None or self.is_alive():
            raise Fault(f"the second client: {self.fault or 'it does not end'}")
        self.client.close()


def publish(server: Server, chance: random.Random, session_id: int, client: Client, recording: int) -> Publication:
    """A publication, which is gone once all of it is recorded."""
    sender = FaultySender(server.address(), session_id, Faults(chance, 0.0))
    for _ in range(chance.randint(1, 5)):
        sender.message(chance.choice(LENGTHS))
    wait_for(f"all of recording {recording}", lambda: recorded_position(client, recording) == sender.position, 0.001)
    sender.socket.close()
    return sender.publication


def publications(tool: Path, chance: random.Random, count: int, most_memory: int) -> None:
    """So many publications, one after another, through one server."""
    begun, frames, first = time.monotonic(), 0, 0
    session_ids = chance.sample(range(-(2**31), 2**31), count)
    with recorder(tool, most_memory) as (server, archive):
        client, keeper = server.client(), Keeper(server.client())
        keeper.start()
        for recording, session_id in enumerate(session_ids):
            expect("a start", one(client, start_line(session_id)), f"started {recording} {recording}")
            sent = publish(server, chance, session_id, client, recording)
            expect_whole(client, recording, sent)
            keeper.put((recording, sent.position))
            frames += len(sent.frames)
            if recording + 1 == min(FIRST, count):
                first = server.kilobytes("VmRSS")
        keeper.end()
        last, most, took = server.kilobytes("VmRSS"), server.kilobytes("VmHWM"), time.monotonic() - begun
        kind = file_system(archive)
        client.close()
        if most_memory and last > first + MOST_RISE:
            raise Fault(f"the memory in use rose from {first} kB to {last} kB")
    counts = server.counts()
    expect("images, datagrams lost", (counts["images"], counts["datagrams lost"]), (count, 0))
    print(f"{count} publications of {frames} frames over {kind}, {took:.0f} s: each is recorded; {first} kB of memory in use after "
          f"the first {min(FIRST, count)}, {last} kB after the last, {most} kB at most", flush=True)


# ---- clients


def read_a_part(server: Server, chance: random.Random) -> Client:
    """A client that has opened one to three replays, and has read the beginning of a poll's reply."""
    client = server.client()
    for _ in range(chance.randint(1, 3)):
        replay = one(client, "replay 0 0 -1").removeprefix("replay ")
    lines = client.ask(f"poll {replay} {MOST_AT_ONCE}")
    for _ in range(chance.choice((1, 1, 10, 1_000))):
        if not next(lines, "").startswith("frame "):
            raise Fault("a poll's reply ended early")
    return client


def die(client: Client, chance: random.Random) -> None:
    """Ends a connection by a reset, or by a close while there is more to read."""
    if chance.random() < 0.5:
        client.socket.setsockopt(socket.SOL_SOCKET, socket.SO_LINGER, struct.pack("ii", 1, 0))
    client.close()


def is_none_open(client: Client) -> bool:
    """Whether as many replays can be opened as may be open; they are closed again."""
    told = [one(client, "replay 0 0 -1") for _ in range(MOST_REPLAYS)]
    opened = [line for line in told if line.startswith("replay ")]
    expect("refused replays", set(told) - set(opened) - {"error 8 MaxReplays"}, set())
    for line in opened:
        expect(f"close of {line}", one(client, line.replace("replay", "close")), "closed")
    return len(opened) == MOST_REPLAYS


def clients(tool: Path, chance: random.Random, count: int, most_memory: int) -> None:
    """So many clients that die in the middle of a poll's reply."""
    begun, left = time.monotonic(), count
    with recorder(tool, most_memory) as (server, _):
        sender, client = FaultySender(server.address(), 7, Faults(chance, 0.0)), server.client()
        for _ in range(ENOUGH):
            sender.message(STREAM.mtu)
        sender.finish(client, 0)
        while left > 0:
            dying = [read_a_part(server, chance) for _ in range(min(left, chance.randint(1, CLIENTS - 1)))]
            sender.go_on(chance.uniform(0, 0.03))
            for one_of_them in dying:
                die(one_of_them, chance)
            left -= len(dying)
            expect("the next client", server.ask("list 0 0"), ["end 0"])
            recorded_position(client, 0)  # a client that asks nothing for a minute is disconnected
        sender.finish(client, 0)
        expect("stop", one(client, f"stop 0 {TIMESTAMP}"), f"stopped {sender.position}")
        wait_for("the end of all replays", lambda: is_none_open(client))
        expect_whole(client, 0, sender.publication)
        expect("purge", one(client, "purge 0"), "purged-recording")
        client.close()
        most, took = server.memory(), time.monotonic() - begun
    print(f"{count} clients that die in a poll's reply, {took:.0f} s: the next one was served, no replay was left open; "
          f"{len(sender.publication.frames)} frames recorded meanwhile, {most} MB at most", flush=True)


# ---- silence


def go_on_beside(sender: FaultySender, until: threading.Event, fault: list[Exception]) -> None:
    """Sends as fast as the receiver takes it, until it is said that it is enough."""
    try:
        while not until.is_set():
            sender.go_on(0.2)
    except (Fault, OSError) as error:
        fault.append(error)


def recordings_of(client: Client, session_ids: list[int]) -> dict[int, Recording]:
    """The recordings of these sessions, as far as they are there."""
    return {recording.session_id: recording for recording in listed(client) if recording.session_id in session_ids}


def awaited(client: Client, session_ids: list[int]) -> dict[int, Recording]:
    """The recordings of these sessions, once all of them are there."""
    wait_for("a recording of each session", lambda: len(recordings_of(client, session_ids)) == len(session_ids))
    return recordings_of(client, session_ids)


def fall_silent(chance: random.Random, client: Client, senders: dict[int, FaultySender]) -> float:
    """Publications that send a few frames more, and say nothing more once all of each is recorded. Gives how long the last one's
    recording took to be stopped then."""
    for sender in senders.values():
        for _ in range(chance.randint(1, 5)):
            sender.message(chance.choice(LENGTHS))
    session_ids = list(senders)
    for session_id, recording in awaited(client, session_ids).items():
        senders[session_id].finish(client, recording.number)
    silent = time.monotonic()
    wait_for("a stop of each", lambda: all(recording.stop >= 0 for recording in recordings_of(client, session_ids).values()), 0.1)
    took = time.monotonic() - silent
    for session_id, recording in recordings_of(client, session_ids).items():
        expect(f"the end of session {session_id}", recording.stop, senders[session_id].position)
        expect_whole(client, recording.number, senders[session_id].publication)
    return took


def silence(tool: Path, chance: random.Random, count: int, times: int, most_memory: int) -> None:
    """So many publications that fall silent so many times, nearly as many as there are places, next to one that goes on as fast as it
    can."""
    begun, longest, enough, fault = time.monotonic(), 0.0, threading.Event(), []
    first, *session_ids = chance.sample(range(-(2**31), 2**31), count + 1)
    with recorder(tool, most_memory) as (server, _):
        loud, client, own = FaultySender(server.address(), first, Faults(chance, 0.0)), server.client(), server.client()
        loud.message(STREAM.mtu)
        recording = awaited(client, [first])[first].number
        speaker = threading.Thread(target=go_on_beside, args=(loud, enough, fault), daemon=True)
        speaker.start()
        senders = {session_id: FaultySender(server.address(), session_id, Faults(chance, 0.0)) for session_id in session_ids}
        for _ in range(times):
            if not fault:
                longest = max(longest, fall_silent(chance, client, senders))
        for recording_of_one in recordings_of(client, session_ids).values():
            expect("purge", one(client, f"purge {recording_of_one.number}"), "purged-recording")
        enough.set()
        speaker.join(PATIENCE)
        if fault or speaker.is_alive():
            raise Fault(f"the sender that goes on: {fault}")
        loud.finish(own, recording)
        expect_whole(own, recording, loud.publication)
        client.close()
        own.close()
        frames, took = len(loud.publication.frames), time.monotonic() - begun
    if longest > MOST_SILENCE:
        raise Fault(f"a recording was stopped {longest:.1f} s after its publication had fallen silent")
    if server.counts()["images"] < times * count + 1:
        raise Fault(f"{server.counts()['images']} images of {count} publications that came {times} times")
    print(f"{count} publications that fall silent {times} times, next to one of {frames} frames, {took:.0f} s: each is recorded by one "
          f"recording, stopped at its end at most {longest:.1f} s later, and purged", flush=True)


def settles(tool: Path, count: int, most_memory: int) -> None:
    """So many settles over a short history, which is made short again and again."""
    begun = time.monotonic()
    with room("/dev/shm") as folder:
        archive = folder / "archive"
        run([tool, "create", archive, "--history", str(SHORT_HISTORY)])
        with killed_at_last(Server(tool, archive, "--checkpoints")) as server:
            client = server.client()
            expect("start", one(client, start_line(7)), "started 0 0")
            for first in range(0, count, BATCH):
                places = [LEAST * number for number in range(first, min(first + BATCH, count))]
                client.socket.sendall(b"".join(b"block 0 %s\n" % STREAM.message(at, b"").hex().encode() for at in places))
                for at in places:
                    expect("block", client.replies.readline(), f"settled {at + LEAST}\n")
            client.close()
            memory = server.memory()
            server.quit()
        if 0 < most_memory <= memory:
            raise Fault(f"{memory} MB")
        checkpoints = server.errors().count("the history was made short: ")
        expect("where the recording stopped", stop_positions(tool, archive), [LEAST * count])
        expect("verify", run([tool, "verify", archive]), [f"verified {count}"])
    if count > SHORT_HISTORY and checkpoints < count // SHORT_HISTORY:
        raise Fault(f"{checkpoints} checkpoints")
    print(f"{count} settles over a history of {SHORT_HISTORY} entries, {checkpoints} checkpoints, {memory} MB, {time.monotonic() - begun:.0f} s: "
          "each frame is there", flush=True)


def main() -> int:
    words = trial_words(__doc__)
    words.add_argument("--publications", type=int, default=4_000, help="4,000, the default, take about 100 seconds")
    words.add_argument("--clients", type=int, default=200)
    words.add_argument("--silent", type=int, choices=range(1, SILENT + 1), default=SILENT, metavar="N", help="publications that fall silent")
    words.add_argument("--times", type=int, default=3, help="how often they do; 3, the default, take about 50 seconds")
    words.add_argument("--settles", type=int, default=10**6)
    words.add_argument("--memory", type=int, default=MOST_MEMORY, help="megabytes of the server at most; 0 asks for none")
    words.add_argument("--only", help="one trial alone, by its name")
    asked = words.parse_args()
    tool, chance = program(asked.program), random.Random(asked.seed)
    print(f"seed {asked.seed}", flush=True)
    all_trials = {
        "publications": lambda: publications(tool, chance, asked.publications, asked.memory),
        "clients": lambda: clients(tool, chance, asked.clients, asked.memory),
        "silence": lambda: silence(tool, chance, asked.silent, asked.times, asked.memory),
        "settles": lambda: settles(tool, asked.settles, asked.memory),
    }
    run_trials(all_trials, asked.only)
    return 0


if __name__ == "__main__":
    conclude(main)
