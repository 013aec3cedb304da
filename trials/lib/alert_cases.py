"""What the alerts of examples/operations/ have to say of two recorders on one host: one that is calm, and one that is not."""
import json
import re
from collections.abc import Iterator
from dataclasses import dataclass, field
from pathlib import Path

INTERVAL, SAMPLES, MINUTES = 15, 120, 20  # seconds between two samples; each case is looked at after so many minutes
FIRST = "aeron_recorder_"
IMAGE = '{image="0",stream="1001",session="7"}'
RECORDING = '{recording="0",stream="1001",session="7"}'
REPLAY = '{replay="0",recording="0"}'
COLLECTED = 'instance="host:9100",job="node"'

Series = dict[str, str | None]  # values by name and labels; None takes a series away


def flat(value: float) -> str:
    """A series that has one value."""
    return f"{value}+0x{SAMPLES}"


def rising(step: float, first: float = 0) -> str:
    """A series that rises at each sample."""
    return f"{first}+{step}x{SAMPLES}"


def then(first: str, samples: int, second: float) -> str:
    """A series that goes on with one value after so many samples."""
    return f"{first}x{samples} {second}+0x{SAMPLES - samples}"


LONG_AGO, LATELY = flat(-7_200), flat(MINUTES * 60 - 600)  # when a server began
CALM: Series = {
    "node_textfile_mtime_seconds": rising(INTERVAL),
    "build_info": flat(1), "start_time_seconds": LONG_AGO,
    "archive_open": flat(1), "archive_broken": flat(0), "history_full": flat(0),
    "history_entries": flat(900), "history_limit_entries": flat(1_000), "checkpoints_refused_total": flat(0),
    "settle_seconds_sum": rising(0.5), "settle_seconds_count": rising(10),
    f"recorded_position_bytes{RECORDING}": rising(1_024), f"rebuilt_position_bytes{IMAGE}": rising(1_024, 524_288),
    f"consumed_position_bytes{IMAGE}": rising(1_024), f"gap_seconds{IMAGE}": flat(5),
    "hole_bytes_total": flat(0), "datagrams_lost_total": flat(0), "open_replays": flat(48),
    'publications_refused_total{cause="starts"}': flat(0), 'images{rank="recorded"}': flat(56),
    "recordings": flat(900), "recordings_limit": flat(1_000), f"replay_position_bytes{REPLAY}": rising(1_024, -67_108_864),
}  # fmt: skip


@dataclass(frozen=True)
class Case:
    """What is otherwise than in a calm recorder, and which alerts fire. Of alerts on something that is not there, both recorders have it."""

    what: str
    changes: Series = field(default_factory=dict)
    alerts: tuple[str, ...] = ()
    is_of_both: bool = False


def many(count: int) -> Series:
    """So many active recordings, with an image each."""
    found: Series = {}
    for number in range(1, count):
        ids = f'stream="1001",session="{number + 7}"'
        found[f'recorded_position_bytes{{recording="{number}",{ids}}}'] = rising(1_024)
        found[f'rebuilt_position_bytes{{image="{number}",{ids}}}'] = found[f'consumed_position_bytes{{image="{number}",{ids}}}'] = rising(1_024)
    return found


OTHER_STREAM: Series = {
    f"recorded_position_bytes{RECORDING}": None, f"rebuilt_position_bytes{IMAGE}": None, f"consumed_position_bytes{IMAGE}": None,
    f"gap_seconds{IMAGE}": None, 'recorded_position_bytes{recording="0",stream="1002",session="7"}': rising(1_024),
}  # fmt: skip
UNRECORDED = '{image="1",stream="1001",session="8"}'

CASES = [
    Case("each number at its bound"),
    Case("a file that is 31 seconds old", {"node_textfile_mtime_seconds": rising(INTERVAL, -31)}, ("Down",)),
    Case("a file that is 30 seconds old", {"node_textfile_mtime_seconds": rising(INTERVAL, -30)}),
    Case("a file that can't be read", {"node_textfile_scrape_error": flat(1)}, ("Unread",)),
    Case("no measures", {"build_info": None}, ("Unseen",), is_of_both=True),
    Case("three starts in 15 minutes", {"start_time_seconds": "-7200+0x60 900 910 920+0x50"}, ("Restarts",)),
    Case("two starts in 15 minutes", {"start_time_seconds": "-7200+0x60 900 910+0x50"}),
    Case("no archive", {"archive_open": flat(0)}, ("NothingRecorded",)),
    Case("a device fault", {"archive_broken": flat(1)}, ("NothingRecorded",)),
    Case("a full history", {"history_full": flat(1), "history_entries": flat(1_000)}, ("NothingRecorded", "HistoryNearlyFull")),
    Case("a history that is nearly full", {"history_entries": flat(901)}, ("HistoryNearlyFull",)),
    Case("a checkpoint that is refused", {"checkpoints_refused_total": then("0+0", 70, 1)}, ("CheckpointsRefused",)),
    Case("one that was refused long ago", {"checkpoints_refused_total": flat(1)}),
    Case("one that was refused when it began", {"checkpoints_refused_total": flat(1), "start_time_seconds": LATELY}, ("CheckpointsRefused",)),
    Case("slow settles", {"settle_seconds_sum": rising(0.51)}, ("SettlesSlow",)),
    Case("no settles", {"settle_seconds_sum": flat(0), "settle_seconds_count": flat(0)}),
    Case("another stream alone", OTHER_STREAM, ("StreamMissing",), is_of_both=True),
    Case("an image that nobody records", {f"rebuilt_position_bytes{UNRECORDED}": flat(0)}, ("ImageNotRecorded",)),
    Case("a recording that goes no further", {f"recorded_position_bytes{RECORDING}": then("0+1024", 60, 61_440)}, ("StandsStill",)),
    Case(
        "a publication that says nothing",
        {f"{name}_position_bytes{labels}": then("0+1024", 30, 30_720) for name, labels in
         (("recorded", RECORDING), ("rebuilt", IMAGE), ("consumed", IMAGE))},
        ("Silent",),
    ),
    Case("a gap", {f"gap_seconds{IMAGE}": flat(5.1)}, ("Gap",)),
    Case("a hole", {"hole_bytes_total": then("0+0", 70, 64)}, ("Hole",)),
    Case("a hole of long ago", {"hole_bytes_total": flat(64)}),
    Case("a hole from its beginning on", {"hole_bytes_total": flat(64), "start_time_seconds": LATELY}, ("Hole",)),
    Case("lost datagrams", {"datagrams_lost_total": then("0+0", 70, 3)}, ("DatagramsLost",)),
    Case("blocks that wait", {f"rebuilt_position_bytes{IMAGE}": rising(1_024, 524_320)}, ("FallsBack",)),
    Case("56 active recordings", many(56)),
    Case("57 active recordings", many(57), ("RecordingsNearlyUsed",)),
    Case("57 recorded images", {'images{rank="recorded"}': flat(57)}, ("PlacesNearlyUsed",)),
    Case("57 images of others", {'images{rank="other"}': flat(57)}),
    Case("901 of 1,000 recordings", {"recordings": flat(901)}, ("RecordingsNearlyFull",)),
    Case("a publication that is refused", {'publications_refused_total{cause="starts"}': then("0+0", 75, 1)}, ("PublicationsRefused",)),
    Case("one of long ago", {'publications_refused_total{cause="starts"}': flat(1)}),
    Case("49 replays", {"open_replays": flat(49)}, ("ReplaysLeftOpen",)),
    Case("a replay that falls back", {f"replay_position_bytes{REPLAY}": rising(1_000, -67_108_864)}, ("ReplayFallsBack",)),
    Case("one that stands still", {f"replay_position_bytes{REPLAY}": flat(-67_108_864)}, ("ReplayFallsBack",)),
    Case("one that does, with less left", {f"replay_position_bytes{REPLAY}": flat(-60_000_000)}),
    Case("one that has much left, and reads on", {f"replay_position_bytes{REPLAY}": rising(1_100, -90_000_000)}),
]  # fmt: skip


def series_of(case: Case, recorder: str) -> Iterator[dict[str, str]]:
    """The series of a recorder, as a collector has them."""
    changes = case.changes if recorder == "b" or case.is_of_both else {}
    for series, values in (CALM | changes).items():
        if values is None:
            continue
        name, _, labels = series.removesuffix("}").partition("{")
        own = f'recorder="{recorder}"'
        if name.startswith("node_"):
            own = f'file="/var/lib/node_exporter/recorder-{recorder}.prom"'
        elif not name.startswith(FIRST):
            name = FIRST + name
        own = ",".join(it for it in (own, labels, COLLECTED) if it)
        yield {"series": f"{name}{{{own}}}", "values": values}


WITHOUT_RECORDER = {"Down", "Unread", "Unseen", "StreamMissing"}  # alerts that are of a file, or of what is not there


def test_of(case: Case) -> dict[str, object]:
    """A test of promtool: exactly these alerts fire, and each of the recorder that is not calm."""
    labels = (f'{{alertname="AeronRecorder{it}"' + ("}" if it in WITHOUT_RECORDER else ',recorder="b"}') for it in case.alerts)
    expected = [{"labels": it, "value": 1} for it in labels]
    asked = {"expr": 'count by (alertname, recorder) (ALERTS{alertstate="firing"})', "eval_time": f"{MINUTES}m", "exp_samples": expected}
    series = [*series_of(case, "a"), *series_of(case, "b")]
    return {"name": case.what, "interval": f"{INTERVAL}s", "input_series": series, "promql_expr_test": [asked]}


def write_tests(path: Path, rules: Path) -> None:
    """Writes the cases for promtool. JSON is YAML too."""
    path.write_text(json.dumps({"rule_files": [str(rules)], "evaluation_interval": "30s", "tests": [test_of(it) for it in CASES]}))


def alerts_of(rules: Path) -> set[str]:
    """The names of the alerts of a file of rules, without their beginning."""
    return set(re.findall(r"- alert: AeronRecorder(\w+)$", rules.read_text(), re.M))
