#!/usr/bin/env python3
"""When a recording stood where: `serve --times` and `archive_tool when`.

Usage: trials/times.py [--seed S] [--lives N] [--only TRIAL] [program]

- lives: a sender publishes through lives of a server, which end by a kill or by `quit`. After a kill a line is torn at random. The times of
  a file never fall, no line is later than the one that was shown then, and `when` answers as a plain reading of the file says, at random
  times. After a `quit` the last line has the recorded position.
- clock: a file whose last line is of tomorrow, as after the clock went back: what follows has that time.
- disk: a folder on a small file system that fills up: that is printed once, recording goes on, and so do the times once there is room.
- lost: a folder that is not there, or is taken away, and a link in the place of a file: printed once for each cause, and nothing is written there.
- hangs: a write that does not end (`strace` holds it): printed once, and recording and the control port go on.
- days: `examples/operations/retention.py --days` keeps what was recorded since a time, up to a segment more. A dry run changes nothing.

Mounting a file system takes the right to; else that trial is skipped, and so is one without `strace`.
"""
import random
import re
import shutil
import signal
import socket
import subprocess
import sys
import time
from collections.abc import Callable, Iterator
from contextlib import contextmanager
from pathlib import Path

from flow_control import FaultySender, Publication
from lib.mounts import Skipped, mounted
from lib.tool import INITIAL_TERM, MTU, ROOT, STREAM_ID, Fault, conclude, expect, free_port, program, room, run, run_trials, trial_words
from serving import PATIENCE, Faults, Server

RETENTION = ROOT / "examples/operations/retention.py"
TERM, TERMS = 65_536, 6  # bytes of a segment; how many of them are recorded at least
DAY = 86_400_000  # milliseconds
LINE = re.compile(rb"(0|[1-9][0-9]*) (0|[1-9][0-9]*)")
SESSION_ID = 7


def lines_of(file: Path) -> list[tuple[int, int]]:
    """The lines of a file of times: a time and a position each."""
    whole = file.read_bytes().split(b"\n")[:-1]
    return [(int(found[1]), int(found[2])) for found in map(LINE.fullmatch, whole) if found]


def answer_of(lines: list[tuple[int, int]], millis: int) -> tuple[int, str]:
    """What `when` answers of lines at a time, with its status."""
    count = sum(at <= millis for at, _ in lines)
    if count == 0:
        return 1, f"none before {millis}\n"
    at, position = lines[count - 1]
    after = lines[count][0] if count < len(lines) else -1
    return 0, f"position {position} from {at} to {after}\n"


def asked(tool: Path, folder: Path, recording: int, time_word: str) -> tuple[int, str]:
    """What `when` answers, with its status."""
    ran = subprocess.run([tool, "when", folder, str(recording), time_word], capture_output=True, text=True)
    return ran.returncode, ran.stdout


def times_file(folder: Path) -> Path:
    """The one file of a folder of times."""
    files = sorted(folder.iterdir())
    expect("files of times", [bool(re.fullmatch(r"0-\d+\.times", it.name)) for it in files], [True])
    return files[0]


def await_that(what: str, holds: Callable[[], object], tend: Callable[[], object]) -> None:
    """Waits until something holds, while a sender lives."""
    until = time.monotonic() + PATIENCE
    while not holds():
        if time.monotonic() > until:
            raise Fault(f"{what}: not within {PATIENCE} s")
        tend()


class Host:
    """An archive with a folder of times, and a sender of one stream."""

    def __init__(self, tool: Path, work: Path, seed: int) -> None:
        self.tool, self.archive, self.times = tool, work / "archive", work / "times"
        self.port = free_port(socket.SOCK_DGRAM)
        self.sender = FaultySender(("127.0.0.1", self.port), SESSION_ID, Faults(random.Random(seed), 0.0))
        run([tool, "create", self.archive])

    @contextmanager
    def served(self, *options: str) -> Iterator[Server]:
        """A server, which is killed at the end if it has not ended."""
        words = ["--aeron", "--record", str(STREAM_ID), "--times", str(self.times), "--times-every", "10", *options]
        server = Server(self.tool, self.archive, *words, receive=self.port)
        try:
            yield server
        finally:
            if server.process.poll() is None:
                server.kill(signal.SIGKILL)

    def send(self, seconds: float) -> None:
        """Sends for so many seconds."""
        until = time.monotonic() + seconds
        while time.monotonic() < until:
            self.sender.go_on(0.01)

    def recorded(self, server: Server) -> int:
        """Up to where the first recording is recorded; -1 if there is none."""
        said = server.ask("positions 0")[0].split()
        return int(said[2]) if said[0] == "positions" else -1

    def goes_on(self, server: Server) -> None:
        """Recording goes on."""
        before = self.recorded(server)
        await_that("recording goes on", lambda: self.recorded(server) > before, lambda: self.send(0.05))

    def last(self) -> tuple[int, int]:
        """The last line of its file; nothing before there is one."""
        files = [it for it in self.times.iterdir() if it.is_file()] if self.times.is_dir() else []
        return (lines_of(files[0]) or [(-1, -1)])[-1] if files else (-1, -1)

    def times_go_on(self) -> None:
        """Lines are written."""
        before = self.last()
        await_that("lines of times", lambda: self.last() > before, lambda: self.send(0.05))


def check_file(host: Host, chance: random.Random) -> int:
    """The times of a file never fall, and `when` answers by its lines; how many there are."""
    lines = lines_of(times_file(host.times))
    expect("times that fall", [pair for pair in zip(lines, lines[1:]) if pair[0][0] > pair[1][0]], [])
    moments = [chance.choice(lines)[0] + chance.choice((-1, 0, 1)) for _ in range(10)] + [0, lines[0][0] - 1, lines[-1][0] + 10**9]
    for millis in moments:
        expect(f"when {millis}", asked(host.tool, host.times, 0, str(millis)), answer_of(lines, millis))
    day = time.strftime("%Y-%m-%dT%H:%M:%S", time.gmtime(lines[0][0] // 1000)) + f".{lines[0][0] % 1000:03}Z"
    expect(f"when {day}", asked(host.tool, host.times, 0, day), answer_of(lines, lines[0][0]))
    return len(lines)


def tear(file: Path, chance: random.Random) -> None:
    """Takes the last bytes of a file, as a crash may, or puts zeros in their place."""
    data = file.read_bytes()
    lost = chance.randrange(0, 60)
    torn = data[: max(0, len(data) - lost)]
    file.write_bytes(torn + (bytes(lost) if chance.random() < 0.3 else b""))


def try_lives(tool: Path, seed: int, lives: int) -> None:
    chance = random.Random(seed)
    with room() as work:
        host = Host(tool, work, seed)
        host.times.mkdir()
        for life in range(lives):
            with host.served() as server:
                host.times_go_on()
                host.send(chance.uniform(0.1, 1.0))
                shown = host.recorded(server)
                if chance.random() < 0.5 or life == lives - 1:
                    await_that("all is recorded", lambda: host.recorded(server) == host.sender.position, lambda: host.sender.tend(0.02))
                    server.quit()
                    expect("the last position", host.last()[1], host.sender.position)
                else:
                    server.kill(signal.SIGKILL)
                    tear(times_file(host.times), chance)
                expect("what was printed of times", [it for it in server.errors().splitlines() if "times" in it], [])
            if host.last()[1] > max(shown, host.sender.position):
                raise Fault("a line that was never recorded")
            count = check_file(host, chance)
        expect("of a recording without a file", asked(tool, host.times, 1, "5"), (1, ""))
        shutil.copy(times_file(host.times), host.times / "0-1.times")
        expect("of one with two files", asked(tool, host.times, 0, "5"), (1, ""))
    print(f"{count} lines over {lives} lives; when answers as a plain reading does")


def try_clock(tool: Path, seed: int) -> None:
    with room() as work:
        host = Host(tool, work, seed)
        host.times.mkdir()
        with host.served() as server:
            host.times_go_on()
            server.quit()
        file, tomorrow = times_file(host.times), int(time.time() * 1000) + 86_400_000
        with open(file, "ab") as out:
            out.write(f"{tomorrow} 64\n".encode())
        with host.served() as server:
            host.goes_on(server)
            await_that("lines of tomorrow", lambda: len(lines_of(file)) >= 2 and lines_of(file)[-1] > (tomorrow, 64), lambda: host.send(0.05))
            server.quit()
        check_file(host, random.Random(seed))
        expect("the time of the last line", lines_of(file)[-1][0], tomorrow)
    print("after the clock went back, times stand still and do not fall")


def faults_of(server: Server) -> list[str]:
    """What a server printed of times."""
    return [line for line in server.errors().splitlines() if "times cannot be written" in line or "has not ended" in line]


def try_disk(tool: Path, seed: int) -> None:
    with room() as work:
        host = Host(tool, work, seed)
        with mounted(host.times, "-t", "tmpfs", "-o", "size=64k", "tmpfs"):
            with host.served() as server:
                host.times_go_on()
                filler = host.times / "filler"
                with open(filler, "wb", buffering=0) as out:
                    try:
                        while True:
                            out.write(bytes(4_096))
                    except OSError:
                        pass
                await_that("a full disk is printed", lambda: faults_of(server), lambda: host.send(0.05))
                for _ in range(3):
                    host.goes_on(server)
                filler.unlink()
                host.times_go_on()
                expect("what was printed", len(faults_of(server)), 1)
                server.quit()
            check_file(host, random.Random(seed))
    print("a full disk is printed once, recording goes on, and so do the times once there is room")


def try_lost(tool: Path, seed: int) -> None:
    with room() as work:
        host = Host(tool, work, seed)
        with host.served() as server:
            await_that("a folder that is not there is printed", lambda: faults_of(server), lambda: time.sleep(0.05))
            expect("what is printed of it", faults_of(server), ["the times cannot be written: the folder: No such file or directory"])
            host.times.mkdir()
            host.times_go_on()
            expect("what was printed", len(faults_of(server)), 1)
            server.quit()
        with host.served() as server:
            host.times_go_on()
            name = times_file(host.times).name
            host.times.rename(work / "away")
            await_that("a folder that is gone is printed", lambda: faults_of(server), lambda: host.send(0.05))
            host.goes_on(server)
            host.times.mkdir()
            (work / "elsewhere").write_bytes(b"kept")
            (host.times / name).symlink_to(work / "elsewhere")
            await_that("a link is printed", lambda: len(faults_of(server)) == 2, lambda: host.send(0.05))
            host.goes_on(server)
            expect("what is behind a link", (work / "elsewhere").read_bytes(), b"kept")
            (host.times / name).unlink()
            host.times_go_on()
            expect("what was printed", len(faults_of(server)), 2)
            expect("of a link", asked(tool, work / "away", 0, "5")[0], 1)
            server.quit()
        (host.times / name).unlink()
        (host.times / name).symlink_to(work / "away" / name)
        expect("when, of a link", asked(tool, host.times, 0, "5"), (3, ""))
    print("a lost folder and a link are printed once each, and nothing is written through a link")


def try_hangs(tool: Path, seed: int) -> None:
    if not shutil.which("strace"):
        raise Skipped("there is no strace")
    with room() as work:
        host = Host(tool, work, seed)
        host.times.mkdir()
        with host.served() as server:
            host.times_go_on()
            file = times_file(host.times)
            words = ["strace", "-f", "-qq", "-o", "/dev/null", "-p", str(server.process.pid), "-P", str(file), "-e", "trace=openat",
                     "-e", "inject=openat:delay_enter=14s"]  # fmt: skip
            tracer = subprocess.Popen(words, stderr=subprocess.DEVNULL)
            try:
                await_that("a write that hangs is printed", lambda: faults_of(server) or tracer.poll() is not None, lambda: host.send(0.05))
                if tracer.poll() is not None:
                    raise Skipped("strace may not attach")
                for _ in range(3):
                    host.goes_on(server)
                expect("what was printed", len(faults_of(server)), 1)
            finally:
                tracer.terminate()
                tracer.wait()
            host.times_go_on()
            server.quit()
            expect("what was printed in the end", len(faults_of(server)), 1)
    print("a write that does not end is printed once, and recording goes on")


def start_of(server: Server, archive: Path) -> int:
    """Where the first recording begins. The files before it are gone, and the others are there."""
    start = int(server.ask("list 0 1")[0].split()[4])
    bases = sorted(int(it.stem.split("-")[1]) for it in archive.glob("0-*.rec"))
    expect("segments", bases, list(range(start, max(bases) + 1, TERM)))
    return start


def position_at(lines: list[tuple[int, int]], millis: float) -> int:
    """Up to where a stream was recorded at a time, by the lines of its times."""
    return max([position for at, position in lines if at <= millis], default=0)


def try_days(tool: Path, seed: int) -> None:
    with room() as work:
        host = Host(tool, work, seed)
        host.sender = FaultySender(host.sender.address, SESSION_ID, Faults(random.Random(seed), 0.0), TERM * 5 // 16)
        host.sender.publication = Publication(SESSION_ID, STREAM_ID, INITIAL_TERM, TERM, MTU)
        host.times.mkdir()
        with host.served("--segment-length", str(TERM)) as server:
            await_that("six segments", lambda: host.recorded(server) >= TERMS * TERM, lambda: host.send(0.2))
            host.times_go_on()
            lines = lines_of(times_file(host.times))
            millis = random.Random(seed).choice(lines[len(lines) // 2 :])[0]
            words = [sys.executable, "-B", RETENTION, str(server.control), "--times", host.times, "--tool", tool]
            began = time.time() * 1000
            words += ["--days", f"{(began - millis) / DAY:.12f}"]
            run(words)
            expect("the start after a dry run", start_of(server, host.archive), 0)
            run([*words, "--apply"])
            lines = lines_of(times_file(host.times))  # more were written since
            least, most = position_at(lines, millis - 1), position_at(lines, millis + time.time() * 1000 - began)
            start = start_of(server, host.archive)
            if not least - least % TERM <= start <= most:
                raise Fault(f"the recording begins at {start}, and {least} to {most} was recorded then")
            host.goes_on(server)
            server.quit()
        run([tool, "verify", host.archive])
    print(f"{start // TERM} segments of more than {TERMS} went by days, and a dry run took none")


def main() -> int:
    words = trial_words(__doc__)
    words.add_argument("--lives", type=int, default=6)
    words.add_argument("--only", help="one trial alone, by its name")
    given = words.parse_args()
    tool = program(given.program)
    trials = {
        "lives": lambda: try_lives(tool, given.seed, given.lives),
        "clock": lambda: try_clock(tool, given.seed),
        "disk": lambda: try_disk(tool, given.seed),
        "lost": lambda: try_lost(tool, given.seed),
        "hangs": lambda: try_hangs(tool, given.seed),
        "days": lambda: try_days(tool, given.seed),
    }
    print(f"seed {given.seed}", flush=True)
    run_trials(trials, given.only)
    return 0


if __name__ == "__main__":
    conclude(main)
