#!/usr/bin/env python3
"""The files of examples/operations/, as an operator copies them.

Usage: trials/operations.py [--only TRIAL] [--rounds N] [--seed S] [program]

- measures: what docs/SERVING.md, the alerts and the dashboard name is what the program writes, by crates/metrics_text/specs. The page names
  every measure.
- rules: `promtool check rules`. By `promtool test rules` each alert fires in its cases (lib/alert_cases.py), and no other one does.
- dashboard: it is JSON, its panels lie apart, and its expressions are PromQL.
- unit: `systemd-analyze verify` has nothing to say of it, and `systemd-analyze security` at most 3.0.
- calls: the commands of the unit, with `strace`. They make only system calls that it allows, open sockets of its families alone, write
  only where it lets them, and map no memory that is writable and executable. `ExecStop` ends the server.
- recorders: two recorders on one host, by the words of the unit and with its mask, as a user of their own. node_exporter, as another
  user, reads both files, and `promtool check metrics` has nothing to say of them. Every expression of the dashboard gives something. In
  Prometheus an alert of each recorder fires while they run, one of each once they are killed, one of a file that can't be read, and no
  other one.
- retention: `retention.py` over recordings of random lengths changes nothing without --apply. With it the last bytes stay of each, and
  no segment before them; a replay holds its recording.

It uses Debian's `prometheus`, `prometheus-node-exporter` and `systemd`, and `strace`. What is not there, or takes root, is skipped, and
that is printed.
"""
import json
import os
import pwd
import random
import re
import shutil
import signal
import socket
import subprocess
import sys
from collections.abc import Iterator
from contextlib import ExitStack, contextmanager
from dataclasses import dataclass, replace
from pathlib import Path

from flow_control import FaultySender
from lib.alert_cases import CASES, alerts_of, write_tests
from lib.collectors import EXPORTER, PROMETHEUS, Prometheus, exporter, fetched, prometheus
from lib.mounts import Skipped
from lib.tool import ROOT, SESSION_ID, Fault, Stream, await_that, conclude, expect, free_port, program, room, run, run_trials, trial_words
from lib.unit import Unit
from serving import PATIENCE, STREAM, Client, Faults, Server, served

OPERATIONS = ROOT / "examples/operations"
RULES, DASHBOARD, SERVICE, RETENTION = (OPERATIONS / name for name in ("alerts.yml", "dashboard.json", "recorder.service", "retention.py"))
SERVING = ROOT / "docs/SERVING.md"
FAMILIES = ROOT / "crates/metrics_text/specs/MetricsText.antt"
FIRST = "aeron_recorder_"
MOST_EXPOSED = 3.0
# measures of what need not be there: an open replay, a hole, a sending
SOMETIMES = {"replay_position_bytes", "publication_hole_bytes", "sender_position_bytes", "sender_limit_bytes", "consumed_by_receiver_bytes"}
RECORDER_USER = 4_001  # a user without a name is one too
COLLECTOR_USER = "prometheus"


def needs_programs(*names: str) -> None:
    """Skips the trial where one of them isn't there."""
    for name in names:
        if not shutil.which(name):
            raise Skipped(f"there is no {name}")


def told(words: list[str | Path], given: str = "") -> tuple[int, str]:
    """The status of a command, and what it prints on either stream."""
    ran = subprocess.run(words, input=given, stdout=subprocess.PIPE, stderr=subprocess.STDOUT, text=True)
    return ran.returncode, ran.stdout


# ---- measures


def written() -> set[str]:
    """The measures that the program writes, without the beginning of their names."""
    text = FAMILIES.read_text()
    names = set(re.findall(rf'codes "{FIRST}([a-z_]+)"', text))
    histograms = set(re.findall(rf'\bhistogram who \(codes "{FIRST}([a-z_]+)"', text))
    return names - histograms | {f"{name}_{part}" for name in histograms for part in ("bucket", "sum", "count")}


def named(text: str) -> set[str]:
    """The measures that a text names."""
    return set(re.findall(rf"\b{FIRST}([a-z_]+)", text))


def try_measures() -> None:
    page = SERVING.read_text()
    table = page.partition("| Name | What it says |")[2].partition("\n\n")[0]
    in_table = {name for row in table.splitlines() for name in re.findall(r"`([a-z_]+)`", row.split("|")[1] if "|" in row else "")}
    known = written()
    expect("measures of docs/SERVING.md, \"Metrics\"", sorted(in_table - {"version", "catalogue"}), sorted(known))
    names = {path: named(path.read_text()) for path in (SERVING, RULES, DASHBOARD)}
    for path, found in names.items():
        expect(f"measures of {path.name} that are not written", sorted(found - known), [])
    print(f"{len(known)} measures are written; the alerts name {len(names[RULES])}, the dashboard {len(names[DASHBOARD])}")


# ---- rules and dashboard


def try_rules() -> None:
    needs_programs("promtool")
    status, said = told(["promtool", "check", "rules", RULES])
    expect("promtool check rules", (status, "SUCCESS" in said), (0, True))
    expect("alerts with a case", {alert for case in CASES for alert in case.alerts}, alerts_of(RULES))
    with room() as work:
        write_tests(work / "cases.json", RULES)
        status, said = told(["promtool", "test", "rules", work / "cases.json"])
        if status != 0:
            raise Fault(f"promtool test rules: {said}")
    print(f"{len(alerts_of(RULES))} alerts fire in their cases, of {len(CASES)}, and nowhere else")


def expressions() -> list[str]:
    """The expressions of the dashboard, with a value for each variable."""
    board = json.loads(DASHBOARD.read_text())
    found = [target["expr"] for panel in board["panels"] for target in panel.get("targets", [])]
    found += [it["expr"] for it in board["annotations"]["list"]]
    return [it.replace("$recorder", ".*").replace("$__rate_interval", "30s") for it in found]


def overlaps(panels: list[dict]) -> Iterator[str]:
    """The panels that lie over another one, or past the board's edge."""
    taken: dict[tuple[int, int], str] = {}
    for panel in panels:
        place = panel["gridPos"]
        if place["x"] + place["w"] > 24:
            yield panel["title"]
        for x in range(place["x"], place["x"] + place["w"]):
            for y in range(place["y"], place["y"] + place["h"]):
                if taken.setdefault((x, y), panel["title"]) != panel["title"]:
                    yield panel["title"]


def try_dashboard() -> None:
    panels = json.loads(DASHBOARD.read_text())["panels"]
    expect("ids of panels", len({it["id"] for it in panels}), len(panels))
    expect("panels that lie over others", sorted(set(overlaps(panels))), [])
    needs_programs("promtool")
    with room() as work:
        rules = [{"record": f"panel_{number}", "expr": expr} for number, expr in enumerate(expressions())]
        (work / "rules.json").write_text(json.dumps({"groups": [{"name": "dashboard", "rules": rules}]}))
        expect("its expressions", told(["promtool", "check", "rules", work / "rules.json"])[0], 0)
    print(f"{len(panels)} panels of the dashboard, {len(expressions())} expressions")


# ---- the unit


def copied_unit(tool: Path, work: Path) -> Path:
    """The unit with this program in the place of the installed one."""
    path = work / SERVICE.name
    path.write_text(SERVICE.read_text().replace("/usr/local/bin/archive_tool", str(tool)))
    return path


def try_unit(tool: Path) -> None:
    needs_programs("systemd-analyze")
    with room() as work:
        unit = copied_unit(tool, work)
        expect("systemd-analyze verify", told(["systemd-analyze", "verify", "--man=no", unit]), (0, ""))
        words = ["systemd-analyze", "security", "--offline=true", "--no-pager", f"--threshold={MOST_EXPOSED * 10:.0f}", unit]
        status, said = told([*words])
        exposed = re.search(r"Overall exposure level for \S+: ([0-9.]+)", said)
        expect("systemd-analyze security", (status, exposed is not None), (0, True))
    print(f"systemd has nothing to say of the unit; its exposure is {exposed[1] if exposed else ''}, at most {MOST_EXPOSED}")


@dataclass(frozen=True)
class Host:
    """Where the words of the unit are run: its folders and ports are this trial's."""

    tool: Path
    archive: Path
    metrics: Path
    control: int
    receive: int

    @property
    def times(self) -> Path:
        """Its folder of times."""
        return self.archive.with_name(f"{self.archive.name}-times")

    @classmethod
    def at(cls, tool: Path, work: Path, name: str = "recorder") -> "Host":
        control, receive = free_port(socket.SOCK_STREAM), free_port(socket.SOCK_DGRAM)
        return cls(tool, work / name, work / f"metrics/{name}.prom", control, receive)

    def words(self, setting: str, process: int = 0) -> list[str]:
        """The words of a command of the unit."""
        values = {
            "/usr/local/bin/archive_tool": self.tool, "/var/lib/node_exporter/recorder.prom": self.metrics, "/var/lib/recorder": self.archive,
            "8010": self.control, "40123": self.receive, "$MAINPID": process,
        }  # fmt: skip
        known = re.compile("|".join(map(re.escape, values)))
        return [known.sub(lambda found: str(values[found[0]]), word) for word in Unit(SERVICE).words(setting)]


CALL = re.compile(r"^(?:\d+ +)?(\w+)\((.*)")
WRITING = re.compile(r'^openat\([^,]*, "([^"]*)", [^)]*(?:O_WRONLY|O_RDWR|O_CREAT)')
RENAMED = re.compile(r'"([^"]*)"')


def traced(host: Host, setting: str, log: Path) -> list[str | Path]:
    """The words of a command of the unit, with each system call in a file."""
    return ["strace", "-f", "-qq", "-o", log, *host.words(setting)]


def calls_of(log: Path) -> list[str]:
    """The system calls of a file of strace, each from its name on."""
    lines = (re.sub(r"^\d+ +", "", line) for line in log.read_text(errors="replace").splitlines())
    return [line for line in lines if CALL.match(line)]


def breaches(calls: list[str], unit: Unit, host: Host) -> Iterator[str]:
    """The calls that the unit does not let a service make."""
    allowed, families = unit.calls(), unit.value("RestrictAddressFamilies").split()
    may_write = (f"{host.archive}/", f"{host.times}/", f"{host.metrics.parent}/", "/dev/null", "/dev/tty")
    for call in calls:
        name = call.partition("(")[0]
        paths = WRITING.findall(call) + (RENAMED.findall(call) if name.startswith(("rename", "unlink", "mkdir")) else [])
        if name not in allowed:
            yield f"{name} is not allowed: {call}"
        if name == "socket" and call.partition("(")[2].partition(",")[0] not in families:
            yield f"another family: {call}"
        if name in ("mmap", "mprotect") and "PROT_WRITE|PROT_EXEC" in call:
            yield f"memory that is writable and executable: {call}"
        if any(path.startswith("/") and not path.startswith(may_write) for path in paths):
            yield f"a file elsewhere: {call}"


def record_some(host: Host, count: int) -> FaultySender:
    """A sender that has sent so many messages to a recorder, and all of them are taken."""
    sender = FaultySender(("127.0.0.1", host.receive), SESSION_ID, Faults(random.Random(1), 0.0))
    for _ in range(count):
        sender.message(200)
    await_that("what was sent is taken", lambda: sender.tend(0.01) or sender.consumed == sender.position, lambda: sender.consumed)
    return sender


def client_of(host: Host) -> Client:
    """A connection to a recorder, once it listens."""
    return Client(("127.0.0.1", host.control), PATIENCE)


def use(host: Host) -> None:
    """What senders and clients do with a recorder."""
    client = client_of(host)
    record_some(host, 1_000)
    expect("the recording", next(iter(client.ask("positions 0"))).split()[0], "positions")
    for line in ("images", "replay 0 0 -1", "poll 0 64", "close 0", "checkpoint", "sweep", "list 0 10"):
        expect(line, [it for it in client.ask(line) if it.startswith("error ")], [])
    with socket.create_connection(("127.0.0.1", host.control), PATIENCE) as follower, follower.makefile("rb") as frames:
        follower.sendall(b"follow 0 0 64\n")
        expect("follow", frames.readline(), b"following 0\n")
    client.close()


def try_calls(tool: Path) -> None:
    needs_programs("strace", "systemd-analyze")
    unit = Unit(SERVICE)
    with room() as work:
        host = Host.at(tool, work)
        host.metrics.parent.mkdir()
        host.times.mkdir()
        run([tool, "create", host.archive])
        logs = [work / f"{name}.calls" for name in ("before", "serve", "stop")]
        expect("ExecStartPre", told(traced(host, "ExecStartPre", logs[0])), (0, "compacted\n"))
        server = subprocess.Popen(traced(host, "ExecStart", logs[1]), stderr=subprocess.DEVNULL)
        try:
            use(host)
            await_that("a file of metrics", host.metrics.exists)
            await_that("a file of times", lambda: any(host.times.iterdir()))
            own = int(re.findall(r"^\d+", logs[1].read_text(), re.M)[0])
            stop = subprocess.run(["strace", "-f", "-qq", "-o", logs[2], *host.words("ExecStop", own)], capture_output=True, timeout=PATIENCE)
            expect("ExecStop", (stop.returncode, stop.stdout), (0, b"bye\n"))
            expect("the server's status", server.wait(1), 0)
        finally:
            server.kill()
            server.wait()
        calls = [call for log in logs for call in calls_of(log)]
        found = sorted(set(breaches(calls, unit, host)))
        expect("what the unit does not let a service do", found, [])
        names = {call.partition("(")[0] for call in calls}
    print(f"{len(calls)} system calls of {len(names)} kinds by the commands of the unit, and it allows each of them")


# ---- two recorders


@contextmanager
def recorder(host: Host) -> Iterator[subprocess.Popen[bytes]]:
    """A recorder by the words of the unit, as its user and with its mask."""
    mask = int(Unit(SERVICE).value("UMask"), 8)
    own = {"user": RECORDER_USER, "group": RECORDER_USER, "extra_groups": [], "umask": mask}
    run([host.tool, "create", host.archive])
    host.times.mkdir()
    for path in [host.times, host.archive, *host.archive.iterdir()]:
        os.chown(path, RECORDER_USER, RECORDER_USER)
    subprocess.run(host.words("ExecStartPre"), check=True, stdout=subprocess.DEVNULL, **own)
    with open(f"{host.archive}.printed", "wb") as out:
        process = subprocess.Popen(host.words("ExecStart"), stderr=out, **own)
    try:
        client_of(host).close()
        yield process
    finally:
        process.kill()
        process.wait()


def fetch_metrics(port: int) -> str:
    """What a node_exporter gives."""
    return fetched(f"http://127.0.0.1:{port}/metrics").decode()


def is_measured(text: str, hosts: list[Host]) -> bool:
    """Whether a collector has each measure of each recorder, whose recordings and images are there, but no replay and no hole."""
    names = {(found[1], found[2]) for found in re.finditer(rf'^{FIRST}([a-z_]+)\{{[^}}]*recorder="(\d+)"', text, re.M)}
    return all((name, str(host.receive)) in names for host in hosts for name in written() - SOMETIMES)


def make_gap(sender: FaultySender) -> None:
    """A frame that never comes: heartbeats say that it was sent."""
    for _ in sender.publication.add(bytes(100)):
        pass
    sender.position = sender.publication.position
    sender.publication.frames.clear()


def tended(senders: list[FaultySender]) -> bool:
    """Lets senders live."""
    for sender in senders:
        sender.tend(0.01)
    return True


def await_alerts(what: str, found: Prometheus, right: set[tuple[str, str]], senders: list[FaultySender]) -> None:
    """Waits until exactly these alerts fire: a name and what it is of each."""
    await_that(what, lambda: tended(senders) and {(name, of) for name, of, _ in found.firing()} == right, found.firing)
    expect("rules that fail", found.faults(), [])
    expect("alerts that say nothing", [it for it in found.firing() if not it[2] or "error" in it[2]], [])


def try_alerts(found: Prometheus, hosts: list[Host], senders: list[FaultySender], recorders: list[subprocess.Popen[bytes]]) -> None:
    """An alert of each recorder fires while it runs, and another one once it is killed."""
    client = client_of(hosts[1])
    make_gap(senders[0])
    for number in range(49):
        expect("a replay", list(client.ask("replay 0 0 -1")), [f"replay {number}"])
    running = {("Gap", str(hosts[0].receive)), ("ReplaysLeftOpen", str(hosts[1].receive))}
    await_alerts("an alert of each", found, running, senders)
    asked = [expr for expr in expressions() if not expr.startswith("changes") and "publication_hole_bytes" not in expr]
    empty = [expr for expr in asked if not found.values(expr)]
    expect("expressions of the dashboard that give nothing", empty, [])
    for process in recorders:
        process.send_signal(signal.SIGKILL)
        process.wait()
    client.close()
    await_alerts("an alert of each that was killed", found, running | {("Down", str(host.metrics)) for host in hosts}, [])
    hosts[0].metrics.with_name("of-others.prom").touch(mode=0o600)
    await_that("a file that can't be read", lambda: found.values("node_textfile_scrape_error == 1"))


def make_folder(path: Path, user: int, group: int, mode: int) -> Path:
    """A folder of a user and a group."""
    path.mkdir()
    os.chown(path, user, group)
    path.chmod(mode)
    return path


def try_recorders(tool: Path) -> None:
    needs_programs("promtool", EXPORTER, PROMETHEUS)
    if os.geteuid() != 0:
        raise Skipped("it takes root to be three users")
    user = pwd.getpwnam(COLLECTOR_USER)
    own = user.pw_uid, user.pw_gid
    with room() as work, ExitStack() as stack:
        work.chmod(0o711)
        copied = Path(shutil.copy(tool, work / "archive_tool"))
        hosts = [Host.at(copied, work, name) for name in ("recorder", "recorder-b")]
        metrics = make_folder(hosts[0].metrics.parent, RECORDER_USER, user.pw_gid, 0o2750)
        folder = make_folder(work / "prometheus", *own, 0o750)
        recorders = [stack.enter_context(recorder(host)) for host in hosts]
        port = free_port(socket.SOCK_STREAM)
        stack.enter_context(exporter(metrics, port, work / "exporter.printed", *own))
        found = stack.enter_context(prometheus(folder, Path(shutil.copy(RULES, folder)), port, free_port(socket.SOCK_STREAM), *own))
        senders = [record_some(host, 100) for host in hosts]
        await_that("the measures of both", lambda: tended(senders) and is_measured(fetch_metrics(port), hosts), lambda: fetch_metrics(port)[:500])
        for host in hosts:
            expect("promtool check metrics", told(["promtool", "check", "metrics"], host.metrics.read_text()), (0, ""))
            expect("the mode of a metrics file", oct(host.metrics.stat().st_mode & 0o7777), "0o640")
        try_alerts(found, hosts, senders, recorders)
    print("two recorders with one folder of metrics: another user reads both, and the alerts of each fire")


# ---- retention


@dataclass
class Kept:
    """A recording, and what has to stay of it."""

    start: int
    recorded: int
    segment_length: int

    def new_start(self, kept: int) -> int:
        """The greatest beginning of a segment with so many bytes after it, by trying each of them."""
        bases = range(self.start - self.start % TERM, self.recorded + 1, self.segment_length)
        return max([self.start, *(base for base in bases if base > self.start and self.recorded - base >= kept)])


TERM = 65_536
FRAME = 1_408


def blocks(stream: Stream, start: int, terms: int) -> Iterator[tuple[bytes, int]]:
    """The blocks of so many terms from a position on, each with where it ends: messages, and then a pad up to the term's end."""
    position = start
    for _ in range(terms):
        count, left = divmod(TERM - position % TERM, FRAME)
        if count:
            yield b"".join(stream.message(position + number * FRAME, bytes(FRAME - 32)) for number in range(count)), position + count * FRAME
        position += count * FRAME + left
        if left:
            yield stream.header(position - left, left, 0), position


def record(client: Client, number: int, chance: random.Random) -> Kept:
    """Records a random length from a random position on, in short segments; some are stopped."""
    segment = TERM * chance.choice((1, 2, 4))
    start = position = chance.randrange(0, 4 * TERM, 32)
    stream = replace(STREAM, term_length=TERM, segment_length=segment, session_id=number)
    expect("start", list(client.ask(stream.start("c", position=start))), [f"started {number} {number}"])
    for block, position in blocks(stream, start, chance.randrange(0, 7)):
        expect("block", list(client.ask(f"block {number} {block.hex()}")), [f"settled {position}"])
    if position % TERM == 0 and chance.random() < 0.7:
        frame = stream.message(position, bytes(FRAME - 32))
        position += FRAME
        expect("block", list(client.ask(f"block {number} {frame.hex()}")), [f"settled {position}"])
    if chance.random() < 0.5:
        expect("stop", list(client.ask(f"stop {number} 2000")), [f"stopped {position}"])
    return Kept(start, position, segment)


def retained(server: Server, *words: str) -> tuple[int, str]:
    """Runs the script over a server: its status, and what it prints."""
    return told([sys.executable, "-B", RETENTION, str(server.control), *words])


def shown(client: Client, archive: Path) -> tuple[list[str], set[str]]:
    """The recordings of a server, and the files of its folder."""
    return list(client.ask("list 0 1024")), {it.name for it in archive.glob("*.rec")}


def files_of(number: int, kept: Kept, start: int) -> set[str]:
    """The segment files of a recording from a start on."""
    if kept.recorded == kept.start:
        return set()
    first = kept.start - kept.start % TERM
    bases = range(first + (start - first) // kept.segment_length * kept.segment_length, kept.recorded, kept.segment_length)
    return {f"{number}-{base}.rec" for base in bases}


def try_once(server: Server, archive: Path, chance: random.Random) -> int:
    """Records, and keeps the last bytes of each but the one that a replay holds; how many recordings were cut."""
    client = server.client()
    made = [record(client, number, chance) for number in range(6)]
    kept = chance.randrange(0, 2 * TERM)
    held = next((n for n, it in enumerate(made) if it.new_start(kept) > it.start), None)
    if held is not None:
        expect("a replay", list(client.ask(f"replay {held} -1 -1")), ["replay 0"])
    starts = [it.start if number == held else it.new_start(kept) for number, it in enumerate(made)]
    before = shown(client, archive)
    status, said = retained(server, str(kept))
    expect("a dry run", (status, shown(client, archive)), (0, before))
    expect("recordings that would be cut", said.count("would go"), sum(it.new_start(kept) > it.start for it in made))
    status, said = retained(server, "--apply", str(kept))
    expect("its status, and what was refused", (status, said.count("error 4 ActiveReplay")), (0, 0) if held is None else (1, 1))
    lines, files = shown(client, archive)
    expect("starts", [int(line.split()[4]) for line in lines[:-1]], starts)
    expect("files", files, {name for n, it in enumerate(made) for name in files_of(n, it, starts[n])})
    if held is not None:
        expect("close", list(client.ask("close 0")), ["closed"])
    expect("once more", retained(server, "--apply", str(kept))[0], 0)
    lines, _ = shown(client, archive)
    expect("starts at last", [int(line.split()[4]) for line in lines[:-1]], [it.new_start(kept) for it in made])
    client.close()
    return sum(it.new_start(kept) > it.start for it in made)


def try_retention(tool: Path, seed: int, rounds: int) -> None:
    count = 0
    for number in range(rounds):
        with served(tool, "--clients", "8") as (server, archive):
            count += try_once(server, archive, random.Random(seed + number))
            server.quit()
            run([tool, "verify", archive])
    expect("without a server", retained_without(), (3, True))
    print(f"{count} recordings were cut to their last bytes, and a dry run cut none")


def retained_without() -> tuple[int, bool]:
    """The script over a port that nobody has."""
    status, said = told([sys.executable, "-B", RETENTION, str(free_port(socket.SOCK_STREAM)), "0"])
    return status, said.startswith("no answer from port ")


def main() -> int:
    words = trial_words(__doc__)
    words.add_argument("--only", help="one trial alone, by its name")
    words.add_argument("--rounds", type=int, default=5, help="archives whose recordings are cut")
    asked = words.parse_args()
    tool = program(asked.program)
    trials = {
        "measures": try_measures,
        "rules": try_rules,
        "dashboard": try_dashboard,
        "unit": lambda: try_unit(tool),
        "calls": lambda: try_calls(tool),
        "recorders": lambda: try_recorders(tool),
        "retention": lambda: try_retention(tool, asked.seed, asked.rounds),
    }
    print(f"seed {asked.seed}", flush=True)
    run_trials(trials, asked.only)
    return 0


if __name__ == "__main__":
    conclude(main)
