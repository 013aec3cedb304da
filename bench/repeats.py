#!/usr/bin/env python3
"""Simulates a sender of recorded frames and its receiver over bad lines, and prints how many repeats a lost datagram costs.

Usage: bench/repeats.py [--plans N]   N random plans, 1,000 by default

The sender follows docs/PROTOCOL.md, "Publications of recordings". The receiver follows "Images", "Stock" and "Status messages and
NAKs of a receiver", and consumes at once what it has rebuilt. A plan says how many datagrams are lost, in both directions alike, come
twice or overtake others, how long the way is, the window, and the frames. Time is virtual, in steps of one millisecond. Nothing of
the program runs here, so the numbers are those of the rules, on any machine. A datagram that was overtaken is asked for too, since
a receiver asks at once: so lines that keep the order are counted apart. Fails if a plan ends without a copy, or if a datagram that is
lost on those lines costs more than MOST repeats, on average over the plans of one of the losses.
"""
import argparse
import heapq
import random
import sys
from collections import Counter, defaultdict
from collections.abc import Iterator
from dataclasses import dataclass, field
from typing import NamedTuple

LOSSES = (0.01, 0.1, 0.3)
WINDOWS = (131_072, 262_144, 524_288, 1_048_576)
MOST = 2
MTU, TERM, STOCK = 1_408, 1_048_576, 1_048_576
# Milliseconds: between setup frames and heartbeats, in which a datagram is not repeated again, between status messages.
PAUSE, LINGER, STATUS_PAUSE, FIRST_NAK_PAUSE, LONGEST_NAK_PAUSE = 100, 60, 200, 10, 160
# Datagrams that go out at most in a step, and steps after which a plan has failed.
TOGETHER, STEPS = 40, 600_000


class Plan(NamedTuple):
    """What a line does to datagrams, and what goes over it."""

    loss: float
    twice: float
    way: int
    late: int
    window: int
    frames: int
    longest: int


@dataclass
class Datagram:
    """Frames that are sent together: where each begins and how many bytes it covers."""

    position: int
    end: int
    frames: list[tuple[int, int]]
    is_asked: bool = False
    again_at: int | None = None


def frames_of(plan: Plan, draw: random.Random) -> Iterator[tuple[int, int]]:
    """The frames of a recording. A pad fills the term if a message has no room."""
    position = 0
    for _ in range(plan.frames):
        size = min(draw.randrange(64, plan.longest + 1, 32), TERM - position % TERM)
        yield position, size
        position += size


def laid(frames: Iterator[tuple[int, int]]) -> list[Datagram]:
    """The frames in datagrams, each of one term and within the MTU."""
    found: list[Datagram] = []
    for position, size in frames:
        last = found[-1] if found else None
        if last and position % TERM and last.end - last.position + size <= MTU:
            last.frames.append((position, size))
            last.end += size
        else:
            found.append(Datagram(position, position + size, [(position, size)]))
    return found


@dataclass
class Sender:
    """What a sender has, and when it heard and sent."""

    waiting: list[Datagram]
    sent: list[Datagram] = field(default_factory=list)
    position: int = 0
    limit: int = 0
    consumed: int = 0
    heard_at: int | None = None
    setup_at: int = -PAUSE
    sent_at: int = -PAUSE

    def hear(self, now: int, consumed: int, window: int) -> None:
        """A status message comes."""
        consumed = min(consumed, self.position)
        self.heard_at = now
        self.consumed = max(self.consumed, consumed)
        self.limit = max(self.limit, consumed + min(window, TERM // 2, STOCK))
        self.sent = [it for it in self.sent if it.end > self.consumed]

    def ask(self, now: int, begin: int, end: int) -> None:
        """A NAK comes."""
        for it in self.sent:
            if begin < it.end and it.position < end and (it.again_at is None or now - it.again_at >= LINGER):
                it.is_asked = True

    def due(self, now: int) -> tuple[str, Datagram | None]:
        """What goes out now, which is noted."""
        if self.heard_at is None:
            if now - self.setup_at < PAUSE:
                return "nothing", None
            self.setup_at = now
            return "setup", None
        if asked := next((it for it in self.sent if it.is_asked), None):
            asked.is_asked, asked.again_at = False, now
            return "repeat", asked
        if self.waiting and self.waiting[-1].end <= self.limit:
            first = self.waiting.pop()
            self.sent.append(first)
            self.position, self.sent_at = first.end, now
            return "first", first
        if now - self.sent_at < PAUSE:
            return "nothing", None
        self.sent_at = now
        return "heartbeat", None


@dataclass
class Receiver:
    """What a receiver has, and what it said last."""

    window: int
    rebuilt: int = -1
    high: int = -1
    held: dict[int, int] = field(default_factory=dict)
    status: tuple[int, int] | None = None
    nak: tuple[int, int, int, int] | None = None

    def take(self, frames: list[tuple[int, int]]) -> None:
        """Frames come. Before the setup frame they are lost."""
        for position, size in frames:
            if self.rebuilt <= position and position + size <= self.rebuilt + TERM // 2:
                self.held[position] = size
                self.high = max(self.high, position + size)
        while self.rebuilt in self.held:
            self.rebuilt += self.held.pop(self.rebuilt)

    def come(self, what: str, position: int, frames: list[tuple[int, int]]) -> None:
        """A datagram comes."""
        if what == "setup":
            if self.rebuilt < 0:
                self.rebuilt = self.high = position
        elif self.rebuilt >= 0:
            self.high = max(self.high, position if what == "heartbeat" else 0)
            self.take(frames)

    def answer(self, now: int) -> Iterator[tuple[str, int, int]]:
        """The status message and the NAK that are due."""
        if self.rebuilt < 0:
            return
        if self.status is None or now - self.status[0] >= STATUS_PAUSE or 4 * (self.rebuilt - self.status[1]) >= self.window:
            self.status = (now, self.rebuilt)
            yield "status", self.rebuilt, self.window
        if self.rebuilt < self.high and self.may_ask(now):
            yield "nak", self.rebuilt, self.nak[2]

    def may_ask(self, now: int) -> bool:
        """Whether the gap may be asked for; then it is noted."""
        begin, last = self.rebuilt, self.nak
        if last and last[1] <= begin < last[2] and now - last[0] < last[3]:
            return False
        end = min([it for it in self.held if it > begin] + [self.high, (begin // TERM + 1) * TERM])
        pause = min(2 * last[3], LONGEST_NAK_PAUSE) if last and last[1] == begin else FIRST_NAK_PAUSE
        self.nak = (now, begin, end, pause)
        return True


class Line:
    """What is on its way in both directions, and what was lost."""

    def __init__(self, plan: Plan, draw: random.Random) -> None:
        self.plan, self.draw = plan, draw
        self.flying: list[tuple[int, int, tuple]] = []
        self.count = 0

    def put(self, now: int, what: tuple) -> bool:
        """Sends something. Whether it comes at all."""
        comes = False
        for _ in range(2 if self.draw.random() < self.plan.twice else 1):
            if self.draw.random() >= self.plan.loss:
                self.count += 1
                heapq.heappush(self.flying, (now + self.plan.way + self.draw.randint(0, self.plan.late), self.count, what))
                comes = True
        return comes

    def come(self, now: int) -> Iterator[tuple]:
        """What comes by now."""
        while self.flying and self.flying[0][0] <= now:
            yield heapq.heappop(self.flying)[2]


def deliver(line: Line, sender: Sender, receiver: Receiver, now: int) -> None:
    """What comes by now goes to the sender or the receiver."""
    for what, one, other in line.come(now):
        if what == "status":
            sender.hear(now, one, other)
        elif what == "nak":
            sender.ask(now, one, other)
        else:
            receiver.come(what, one, other)


def run(plan: Plan, draw: random.Random) -> Counter[str] | None:
    """Plays a plan: how many datagrams went out, were lost and came in vain. None if there is no copy at the end."""
    sender, receiver, line = Sender(laid(frames_of(plan, draw))[::-1]), Receiver(plan.window), Line(plan, draw)
    end, counts = sender.waiting[0].end, Counter()
    for now in range(STEPS):
        deliver(line, sender, receiver, now)
        if sender.consumed == end:
            return counts if receiver.rebuilt == end and not receiver.held else None
        for _ in range(TOGETHER):
            what, it = sender.due(now)
            if what == "nothing":
                break
            comes = line.put(now, (what, sender.position, it.frames if it else []))
            counts[what] += 1
            counts["lost"] += it is not None and not comes
        for said in receiver.answer(now):
            line.put(now, said)
            counts[said[0]] += 1
    return None


def plan_of(number: int, draw: random.Random) -> Plan:
    """A random plan: the losses and the windows take turns."""
    return Plan(
        loss=LOSSES[number % len(LOSSES)],
        twice=draw.uniform(0, 0.2),
        way=draw.randint(1, 20),
        late=draw.choice((0, 0, 1, 5, 20)),
        window=WINDOWS[number // len(LOSSES) % len(WINDOWS)],
        frames=draw.randint(500, 3_000),
        longest=draw.choice((64, 512, 1_408)),
    )


def report(plans: dict[tuple[bool, float], list[Counter[str]]]) -> Iterator[bool]:
    """Prints what each loss costs, on lines that keep the order and on lines that do not. Whether it is at most MOST, if they keep it."""
    for (overtakes, loss), counts in sorted(plans.items()):
        total: Counter[str] = sum(counts, Counter())
        worst = max((it["repeat"] / it["lost"] for it in counts if it["lost"] >= 20), default=0)
        order = "datagrams overtake others" if overtakes else "the order is kept"
        print(f"{loss:.0%} lost, {order}: {len(counts)} plans, {total['first']} datagrams, {total['repeat']} repeats, {total['lost']} of both lost, "
              f"{total['repeat'] / max(1, total['lost']):.2f} repeats for each, at most {worst:.2f} in a plan that loses 20")
        yield overtakes or total["repeat"] <= MOST * total["lost"]


def main() -> int:
    parser = argparse.ArgumentParser()
    parser.add_argument("--plans", type=int, default=1_000)
    plans: dict[tuple[bool, float], list[Counter[str]]] = defaultdict(list)
    for number in range(parser.parse_args().plans):
        draw = random.Random(number)
        plan = plan_of(number, draw)
        if (counts := run(plan, draw)) is None:
            sys.exit(f"plan {number} ends without a copy: {plan}")
        plans[plan.late > 0, plan.loss].append(counts)
    return 0 if all(list(report(plans))) else 1


if __name__ == "__main__":
    sys.exit(main())
