"""node_exporter and Prometheus, as Debian has them, over files of metrics."""
import json
import subprocess
import urllib.error
import urllib.parse
import urllib.request
from collections.abc import Iterator
from contextlib import contextmanager
from pathlib import Path

from lib.tool import Fault, await_that

PATIENCE = 60  # seconds that a trial waits for what has to come
EXPORTER, PROMETHEUS = "prometheus-node-exporter", "prometheus"
CONFIG = """
global: {{scrape_interval: 1s, evaluation_interval: 1s}}
rule_files: ['{rules}']
scrape_configs: [{{job_name: node, static_configs: [{{targets: ['127.0.0.1:{port}']}}]}}]
"""

@contextmanager
def running(words: list[str | Path], log: Path, user: int, group: int) -> Iterator[subprocess.Popen[bytes]]:
    """A program that runs as another user until the block ends."""
    with open(log, "wb") as out:
        process = subprocess.Popen(words, stdout=out, stderr=out, user=user, group=group, extra_groups=[])
    try:
        yield process
    finally:
        process.kill()
        process.wait()


def fetched(url: str) -> bytes:
    """What a server answers; nothing if it does not listen yet."""
    try:
        with urllib.request.urlopen(url, timeout=PATIENCE) as answer:
            return bytes(answer.read())
    except urllib.error.HTTPError as error:
        raise Fault(f"{url}: {error.read().decode()}") from error
    except OSError:
        return b""


@contextmanager
def exporter(folder: Path, port: int, log: Path, user: int, group: int) -> Iterator[None]:
    """A node_exporter that has nothing but what lies in a folder."""
    words = [EXPORTER, "--collector.disable-defaults", "--collector.textfile", f"--collector.textfile.directory={folder}"]
    with running([*words, f"--web.listen-address=127.0.0.1:{port}"], log, user, group):
        await_that("node_exporter", lambda: fetched(f"http://127.0.0.1:{port}/metrics"), log.read_text)
        yield


class Prometheus:
    """A Prometheus that asks a node_exporter each second."""

    def __init__(self, port: int) -> None:
        self.url = f"http://127.0.0.1:{port}/api/v1"

    def ask(self, path: str, **words: str) -> dict:
        """The data of an answer; empty if it does not listen yet."""
        answer = fetched(f"{self.url}/{path}?{urllib.parse.urlencode(words)}")
        return json.loads(answer)["data"] if answer else {}

    def values(self, query: str) -> list[tuple[dict[str, str], float]]:
        """What an expression gives now: labels and a value each."""
        return [(it["metric"], float(it["value"][1])) for it in self.ask("query", query=query).get("result", [])]

    def firing(self) -> list[tuple[str, str, str]]:
        """The alerts that fire: the name, the recorder or the file that it is of, and what it says."""
        alerts = [it for it in self.ask("alerts").get("alerts", []) if it["state"] == "firing"]
        labels = [(it["labels"], it["annotations"]["summary"]) for it in alerts]
        return [(it["alertname"].removeprefix("AeronRecorder"), it.get("recorder", it.get("file", "")), says) for it, says in labels]

    def faults(self) -> list[str]:
        """What is wrong with its rules."""
        rules = [rule for group in self.ask("rules").get("groups", []) for rule in group["rules"]]
        return [f"{it['name']}: {it['lastError']}" for it in rules if it["health"] == "err"]


@contextmanager
def prometheus(folder: Path, rules: Path, target: int, port: int, user: int, group: int) -> Iterator[Prometheus]:
    """A Prometheus with rules, in a folder that its user may write."""
    config = folder / "prometheus.yml"
    config.write_text(CONFIG.format(rules=rules, port=target))
    words = [PROMETHEUS, f"--config.file={config}", f"--storage.tsdb.path={folder / 'data'}", f"--web.listen-address=127.0.0.1:{port}"]
    with running([*words], folder / "log", user, group):
        found = Prometheus(port)
        await_that("Prometheus", lambda: found.values("up == 1"), (folder / "log").read_text)
        yield found
