#!/usr/bin/env python3
"""Measures how soon frames of many streams can be read, over a disk whose syncs take long.

Usage: bench/lags.py [--seconds N] [--wait MICROSECONDS] [program], on the file system of TRIAL_ROOM, else that of TMPDIR. `strace` counts syncs.

1, 8 and 62 streams send 10 messages a second each to a served folder. Each `fdatasync` of a file that the server wrote takes so
much longer (5,000 microseconds by default). A client polls a replay of each stream, one after another, and notes when each message came.
Printed are milliseconds from sending to that: the median and the 99th percentile. Then 64 streams send at once, again and again, and
the system calls of the recording thread show how many syncs a settling of many takes under the archive's lock.
It fails where the 99th percentile is past 60 milliseconds of 8 streams or 200 of 62.
"""
import argparse
import os
import random
import re
import shutil
import subprocess
import sys
import threading
import time
from collections import Counter
from collections.abc import Iterator
from contextlib import contextmanager
from pathlib import Path

import measure  # noqa: F401, so that trials' modules are found
from lib.slow_syncs import slow_syncs
from lib.tool import ROOT, conclude, expect, file_system, program, room, run

sys.path.insert(0, str(ROOT / "trials"))
from serving import Sender, Server, killed_at_last, started  # noqa: E402

A_SECOND = 10  # messages of a stream
GOALS = {1: None, 8: 60, 62: 200}  # milliseconds, at the 99th percentile
MOST = 64
ROUNDS = 20  # in which all streams send at once
SYNC = re.compile(r"^(\d+) +(?:<... )?(?:fdatasync|fsync)\(\d+<([^>]*)>")


@contextmanager
def recording(tool: Path, work: Path, streams: int, wait: int) -> Iterator[tuple[Server, list[Sender]]]:
    """A server that records so many streams, and their senders."""
    folder = work / f"streams-{streams}"
    run([tool, "create", folder, "--history", "16777216"])
    with slow_syncs(work, wait):
        server = Server(tool, folder, "--clients", "4")
    with killed_at_last(server):
        senders = started(server, random.Random(1), streams)
        time.sleep(0.5)
        yield server, senders
        server.quit()
    shutil.rmtree(folder)


class Polls(threading.Thread):
    """A client that polls a replay of each recording, one after another, and notes when each frame came."""

    def __init__(self, server: Server, streams: int) -> None:
        super().__init__()
        self.server, self.streams, self.is_over = server, streams, False
        self.came: dict[tuple[int, int], float] = {}

    def run(self) -> None:
        client = self.server.client()
        replays = [next(client.ask(f"replay {number} 0 -1")).split()[1] for number in range(self.streams)]
        while not self.is_over:
            for number, replay in enumerate(replays):
                for line in client.ask(f"poll {replay} 64"):
                    if line.startswith("frame "):
                        self.came[number, int(line.split()[1])] = time.monotonic()
        client.close()


def lags(tool: Path, work: Path, streams: int, wait: int, seconds: float) -> list[float]:
    """Seconds from the sending of each message until a poll gave it, least first."""
    with recording(tool, work, streams, wait) as (server, senders):
        polls = Polls(server, streams)
        polls.start()
        time.sleep(0.2)
        sent: dict[tuple[int, int], float] = {}
        begun, number = time.monotonic(), 0
        while (due := begun + number / (A_SECOND * streams)) < begun + seconds:
            time.sleep(max(0.0, due - time.monotonic()))
            of = number % streams
            sent[of, senders[of].publication.position] = time.monotonic()
            senders[of].message(256)
            senders[of].repeat()
            number += 1
        until = time.monotonic() + 30
        while len(polls.came) < len(sent) and time.monotonic() < until:
            for sender in senders:
                sender.repeat()
                sender.send(sender.publication.heartbeat())
            time.sleep(0.1)
        polls.is_over = True
        polls.join()
    expect("messages that came", sorted(polls.came), sorted(sent))
    return sorted(polls.came[it] - sent[it] for it in sent)


def settlings(log: Path) -> Counter[int]:
    """How often the recording thread settled so many sessions: segment files that it synced one after another, before two syncs of the catalogue."""
    found: Counter[int] = Counter()
    segments: Counter[str] = Counter()
    banks: Counter[str] = Counter()
    for line in log.read_text().splitlines():
        if not (call := SYNC.match(line)):
            continue
        thread, path = call.groups()
        if "catalogue-" not in path:
            segments[thread] += 1
            continue
        banks[thread] += 1
        if banks[thread] == 2:
            found[segments[thread]] += 1
            banks[thread] = segments[thread] = 0
    return found


def syncs(tool: Path, work: Path, wait: int) -> Counter[int]:
    """How many segment files each settling synced, while all streams send at once."""
    log = work / "syncs"
    with recording(tool, work, MOST, wait) as (server, senders):
        words: list[str | Path] = ["strace", "-f", "-y", "-o", log, "-e", "trace=fdatasync,fsync", "-p", str(server.process.pid)]
        tracer = subprocess.Popen(words, stderr=subprocess.DEVNULL)
        time.sleep(1)
        for _ in range(ROUNDS):
            for sender in senders:
                sender.message(256)
            time.sleep(1)
        tracer.terminate()
        tracer.wait()
    return settlings(log)


def main() -> int:
    words = argparse.ArgumentParser(description=__doc__, formatter_class=argparse.RawDescriptionHelpFormatter)
    words.add_argument("program", nargs="?", help="else that of ARCHIVE_TOOL, else the built one")
    words.add_argument("--seconds", type=float, default=20)
    words.add_argument("--wait", type=int, default=5_000)
    asked = words.parse_args()
    tool = program(asked.program)
    met = True
    with room() as work:
        print(f"over {file_system(work)}, {os.cpu_count()} processors; each sync {asked.wait} microseconds longer", flush=True)
        for streams, goal in GOALS.items():
            found = [seconds * 1e3 for seconds in lags(tool, work, streams, asked.wait, asked.seconds)]
            late = found[len(found) * 99 // 100]
            print(f"{streams} streams: {len(found)} messages came after {found[len(found) // 2]:.0f} milliseconds (median), {late:.0f} at the "
                  "99th percentile" + (f" (goal {goal})" if goal else ""), flush=True)
            met = met and (goal is None or late <= goal)
        groups = syncs(tool, work, asked.wait)
        print("settlings by how many segment files each syncs, and two syncs of the catalogue: "
              + ", ".join(f"{count} of {size}" for size, count in sorted(groups.items())), flush=True)
    return 0 if met else 1


if __name__ == "__main__":
    conclude(main)
