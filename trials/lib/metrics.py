"""The metrics file of a server: read each second, and looked at as a collector would."""
import re
import threading
from pathlib import Path

from lib.tool import Fault

NAME = r"aeron_recorder_[a-z_]+"
RECORDER = r'\{recorder="[A-Za-z0-9_.-]{1,64}"'
OWN = (
    r'(?:(?:,(?:recording|image)="\d+")?,stream="-?\d+",session="-?\d+"|,replay="\d+",recording="\d+"|,version="[^"]+",catalogue="\d+"'
    r'|,le="(?:\d\.\d{6}|\+Inf)"|,(?:cause|rank)="[a-z]+")'
)
LINE = re.compile(rf"({NAME}){RECORDER}({OWN})?\}} (-?\d+(?:\.\d{{6}})?)")
HEAD = re.compile(rf"# HELP ({NAME}) (.+)\n# TYPE \1 (counter|gauge|histogram)")
EVERY = 0.25  # seconds between two looks

Values = dict[tuple[str, str], float]


def read(text: str) -> tuple[Values, set[str]]:
    """The numbers of a text by name and labels, and the names of those that never fall."""
    if not text.endswith("\n"):
        raise Fault(f"the metrics end with {text[-40:]!r}")
    values: Values = {}
    rising: set[str] = set()
    for part in text.removeprefix("# HELP ").split("\n# HELP "):
        head, *lines = re.split(r"\n(?!# TYPE)", "# HELP " + part.rstrip("\n"))
        found = HEAD.fullmatch(head)
        if found is None:
            raise Fault(f"no head of a family: {head!r}")
        name, kind = found[1], found[3]
        names = {f"{name}_{part}" for part in ("bucket", "sum", "count")} if kind == "histogram" else {name}
        if kind != "gauge":
            rising |= names
        for line in lines:
            told = LINE.fullmatch(line)
            if told is None or told[1] not in names or (told[1], told[2] or "") in values:
                raise Fault(f"no line of {name}: {line!r}")
            values[told[1], told[2] or ""] = float(told[3])
    return values, rising


class Reader:
    """Reads the file of one run again and again. Counters never fall, but go with their image, and each text is whole."""

    def __init__(self, path: Path) -> None:
        self.path = path
        self.values: Values = {}
        self.recorded: dict[int, int] = {}  # by session id the greatest recorded position that was shown
        self.looks = 0
        self.fault: Fault | None = None
        self.ends = threading.Event()
        self.thread = threading.Thread(target=self.follow)
        path.unlink(missing_ok=True)

    def __enter__(self) -> "Reader":
        self.thread.start()
        return self

    def __exit__(self, *_: object) -> None:
        self.ends.set()
        self.thread.join()
        if self.fault is not None:
            raise self.fault

    def follow(self) -> None:
        while not self.ends.wait(EVERY):
            try:
                self.look()
            except Fault as fault:
                self.fault = fault
                return

    def look(self) -> None:
        """One look at the file, if it is there."""
        try:
            text = self.path.read_text()
        except FileNotFoundError:
            return
        values, rising = read(text)
        for key, value in self.values.items():
            if key[0] in rising and values.get(key, value if "image=" in key[1] else -1) < value:
                raise Fault(f"{key} fell from {value} to {values.get(key)}")
        for (name, labels), value in values.items():
            if name == "aeron_recorder_recorded_position_bytes":
                session_id = int(re.findall(r"-?\d+", labels)[-1])
                self.recorded[session_id] = max(self.recorded.get(session_id, 0), int(value))
        self.values = values
        self.looks += 1
