#!/usr/bin/env python3
"""A server that settles many sessions by one commit: killed, stopped for one of them, and over a device that fails.

Usage: trials/groups.py [--seed S] [--only TRIAL] [--kills N] [program]

- kills: 32 publications are recorded at once while a client asks `positions`, and the server is killed (SIGKILL), so many times. What
  was answered is there behind each kill, and each frame that is there is the one that was sent.
- stops: a client stops one recording after another while the others settle together. Each stop answers a position at or after the last
  one that was answered, all frames up to it are there, and the other recordings go on.
- failing: the folder's device fails while eight publications are recorded, and syncs take so long that files are flushed before they
  are settled. No position is answered that is not there later, once the device is whole; the server prints what failed.
  It is skipped where no file system may be mounted.
What a loss of power may leave is tried by group_cuts.py.
"""
import shutil
import signal
import subprocess
import time
from contextlib import suppress
from pathlib import Path
from random import Random

from lib.mounts import Skipped, make_ext4, mounted
from lib.slow_syncs import slow_syncs
from lib.tool import MOST_AT_ONCE, Fault, conclude, expect, program, room, run, run_trials, stop_positions, trial_words
from serving import IN_FLIGHT, Sender, Server, killed_at_last, recorded_position, served, started

MANY, FEW = 32, 8
HISTORY = "16777216"
FLUSHED = 1_000  # microseconds that a sync takes longer: past the least for which files are flushed


def send_some(senders: list[Sender], chance: Random) -> None:
    """All senders send a few messages, and what they are asked for."""
    for sender in senders:
        for _ in range(chance.randint(1, 4)):
            sender.message(chance.choice((40, 200, 1_408)))
        sender.repeat()


def expect_frames(tool: Path, archive: Path, senders: list[Sender], first: int, stops: list[int]) -> None:
    """Each recording, the first of which has this number, ends where a frame does, and has exactly the frames that were sent up to there."""
    lines, right = [], []
    for replay, sender in enumerate(senders):
        stop, frames = stops[first + replay], sender.publication.frames
        positions = [position for position in frames if position < stop]
        end = sum(frames[positions[-1]][1:], positions[-1]) if positions else 0
        expect(f"where recording {first + replay} ends", stop, end)
        right += [f"frame {position} {frames[position][0].hex()}" for position in positions]
        lines += [f"replay {first + replay} -1 -1", *[f"poll {replay} {MOST_AT_ONCE}"] * (len(positions) // MOST_AT_ONCE + 1)]
    told = [line for line in run([tool, "run", archive], lines) if line.startswith("frame ")]
    if told != right:
        raise Fault(f"recordings from {first} on: {len(told)} frames that are not the {len(right)} that were sent")


def killed_round(tool: Path, archive: Path, chance: Random, first: int) -> int:
    """A server that is killed while it records: how many positions it answered, all of which are there."""
    answered: dict[int, int] = {}
    with killed_at_last(Server(tool, archive, "--clients", "2")) as server:
        senders = started(server, chance, MANY, first)
        client, answers = server.client(), 0
        until = time.monotonic() + chance.uniform(0.05, 0.6)
        while time.monotonic() < until:
            send_some(senders, chance)
            for number in chance.sample(range(MANY), 8):
                answered[first + number] = recorded_position(client, first + number)
                answers += 1
        server.kill(signal.SIGKILL)
        client.close()
    stops = stop_positions(tool, archive, is_stopped=True)
    lost = {number: position for number, position in answered.items() if stops[number] < position}
    expect("positions that were answered and are gone", lost, {})
    expect_frames(tool, archive, senders, first, stops)
    return answers


def try_kills(tool: Path, chance: Random, kills: int) -> None:
    """Kills of a server that records many publications."""
    answers = 0
    with room() as work:
        archive = work / "archive"
        for number in range(kills):
            if number % 30 == 0:
                shutil.rmtree(archive, ignore_errors=True)
                run([tool, "create", archive, "--history", HISTORY])
            try:
                answers += killed_round(tool, archive, chance, number % 30 * MANY)
            except Fault as fault:
                raise Fault(f"behind {number} kills: {fault}") from fault
    print(f"{kills} kills of a server that records {MANY} publications, {answers} answers: each position is there", flush=True)


def try_stops(tool: Path, chance: Random) -> None:
    """A client stops recordings while the others settle together."""
    with served(tool, "--clients", "2") as (server, archive):
        senders = started(server, chance, MANY)
        client, stopped = server.client(), {}
        order = chance.sample(range(MANY), MANY // 2)
        for number in order:
            for _ in range(5):
                send_some([sender for at, sender in enumerate(senders) if at not in stopped], chance)
            before = recorded_position(client, number)
            told = next(client.ask(f"stop {number} 2000"))
            expect(f"stop {number}", told.split()[0], "stopped")
            stopped[number] = int(told.split()[1])
            if stopped[number] < before:
                raise Fault(f"recording {number} stopped at {stopped[number]}, and {before} was answered")
        for number, sender in enumerate(senders):
            if number not in stopped:
                sender.until(client, number, 0)
        client.close()
        server.quit()
        found = stop_positions(tool, archive)
        expect("where recordings stopped", {number: found[number] for number in order}, stopped)
        expect_frames(tool, archive, senders, 0, found)
    print(f"{len(stopped)} of {MANY} recordings stopped while the others settled together", flush=True)


def recorded_to_a_fault(tool: Path, work: Path, archive: Path, chance: Random) -> tuple[dict[int, int], list[Sender], str]:
    """Records until the device fails: the positions that were answered, the senders, and what the server printed."""
    run([tool, "create", archive])
    with slow_syncs(work, FLUSHED):
        server = Server(tool, archive, "--clients", "2")
    with killed_at_last(server):
        senders = started(server, chance, FEW)
        client, answered = server.client(), dict.fromkeys(range(FEW), 0)
        until = time.monotonic() + 60
        while "flush: " not in server.errors() and "error 1" not in server.errors():
            for number, sender in enumerate(senders):
                for _ in range(32):
                    sender.message(1_408)
                with suppress(Fault):
                    answered[number] = sender.until(client, number, IN_FLIGHT)
            if time.monotonic() > until:
                raise Skipped("the device took everything")
        time.sleep(0.5)
        with suppress(Fault):
            answered |= {number: recorded_position(client, number) for number in answered}
        client.close()
        server.kill(signal.SIGKILL)
        return answered, senders, server.errors()


def try_failing(tool: Path, chance: Random) -> None:
    """A device that fails below a server that flushes."""
    with room() as work:
        image, disk = work / "image", work / "disk"
        try:
            with mounted(work / "thin", "-t", "tmpfs", "-o", "size=12m", "tmpfs") as thin:
                make_ext4(thin / "image", 64 * 2**20)
                with mounted(disk, "-o", "loop", thin / "image"):
                    answered, senders, errors = recorded_to_a_fault(tool, work, disk / "archive", chance)
                shutil.copyfile(thin / "image", image)
            subprocess.run(["e2fsck", "-f", "-y", image], capture_output=True)
            with mounted(disk, "-o", "loop", image):
                stops = stop_positions(tool, disk / "archive", is_stopped=True)
                lost = {number: position for number, position in answered.items() if stops[number] < position}
                expect("positions that were answered and are gone", lost, {})
                expect_frames(tool, disk / "archive", senders, 0, stops)
        except Skipped as skipped:
            print(f"skipped: {skipped}", flush=True)
            return
    expect("whether the server printed the fault", "Input/output error" in errors or "error 17 DeviceFault" in errors, True)
    kind = "a flush before a settle" if "flush: " in errors else "the archive's own call"
    print(f"a device that fails below a server, found by {kind}: {sum(answered.values()):,} bytes were answered, and are there", flush=True)


def main() -> int:
    words = trial_words(__doc__)
    words.add_argument("--kills", type=int, default=100)
    words.add_argument("--only", help="one trial alone, by its name")
    asked = words.parse_args()
    tool, chance = program(asked.program), Random(asked.seed)
    print(f"seed {asked.seed}", flush=True)
    trials = {
        "stops": lambda: try_stops(tool, chance),
        "failing": lambda: try_failing(tool, chance),
        "kills": lambda: try_kills(tool, chance, asked.kills),
    }
    run_trials(trials, asked.only)
    return 0


if __name__ == "__main__":
    conclude(main)
